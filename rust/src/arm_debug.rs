// SPDX-License-Identifier: Apache-2.0
// The names, arguments and types of the methods and of the error are those of arm-debug/src/lib.rs of
// ciniml/rust-dap, Copyright 2026 Kenta Ida.

//! The engine alone: the methods of `arm-debug`.

use crate::calls::*;
use crate::ffi::{Engine, Lent};
use crate::line::make;
use crate::number;
use crate::rust_dap::{DapCapabilities, DapConfig, DapError, DapTransport};
use core::fmt;

/// Why a call failed.
#[derive(Clone, Copy, Debug, PartialEq, Eq)]
pub enum ArmError {
    /// The line failed, with this ack; 4 is FAULT, the target's own error.
    Transfer(u8),
    /// 65 WAITs for one transfer.
    Wait,
    /// The transport said that it does not support what was asked of it.
    NotSupported,
    /// The debug domain did not power up within 1024 looks.
    PowerUpTimeout,
    /// The core, or a chip's flash, did not follow within the polls.
    CoreTimeout,
    /// DPIDR is 0 or all ones: there is no target.
    NoTarget,
    /// Any other error of the transport. Where `arm-debug`'s address overflows or it never ends, the
    /// engine refuses with this error, too; [`ArmDebug::number`] tells them apart.
    Internal,
}

impl ArmError {
    /// The error of a result that is not 0.
    pub(crate) fn of(number: u8, value: u32) -> Self {
        match number {
            number::TRANSFER => ArmError::Transfer(value as u8),
            number::WAIT => ArmError::Wait,
            number::NOT_SUPPORTED => ArmError::NotSupported,
            number::POWER_UP_TIMEOUT => ArmError::PowerUpTimeout,
            number::CORE_TIMEOUT => ArmError::CoreTimeout,
            number::NO_TARGET => ArmError::NoTarget,
            _ => ArmError::Internal,
        }
    }
}

impl From<DapError> for ArmError {
    fn from(error: DapError) -> Self {
        match error {
            DapError::SwdError(ack) => ArmError::Transfer(ack),
            DapError::NotSupported => ArmError::NotSupported,
            _ => ArmError::Internal,
        }
    }
}

impl fmt::Display for ArmError {
    fn fmt(&self, f: &mut fmt::Formatter) -> fmt::Result {
        match self {
            ArmError::Transfer(ack) => write!(f, "the line failed with ack {ack}"),
            ArmError::Wait => f.write_str("WAIT without end"),
            ArmError::NotSupported => f.write_str("the transport does not support it"),
            ArmError::PowerUpTimeout => f.write_str("the debug domain did not power up"),
            ArmError::CoreTimeout => f.write_str("the core or the flash did not follow"),
            ArmError::NoTarget => f.write_str("no target"),
            ArmError::Internal => f.write_str("the transport failed, or the call was refused"),
        }
    }
}

impl core::error::Error for ArmError {}

/// The registers that a called function may change, as they were before the call.
#[repr(C)]
#[derive(Debug, PartialEq, Eq)]
pub struct CallFrame {
    /// Register 0.
    pub r0: u32,
    /// Register 1.
    pub r1: u32,
    /// Register 2.
    pub r2: u32,
    /// Register 3.
    pub r3: u32,
    /// The stack pointer.
    pub sp: u32,
    /// The link register.
    pub lr: u32,
    /// The program counter.
    pub pc: u32,
    /// The program status.
    pub xpsr: u32,
}

/// The engine alone, as `arm-debug` has it: it remembers SELECT, CSW and APSEL, whatever the line
/// does. [`Session`](crate::Session) is the one that knows when it can no longer rely on them.
///
/// If a method of the transport panics, the engine stays as it stands at that transport call, and
/// the next call can be made.
///
/// ```
/// use bazkondur::rust_dap::*;
/// use bazkondur::{ArmDebug, ArmError};
///
/// /// A target that answers each transfer with one word.
/// struct Same(u32);
///
/// impl DapTransport for Same {
///     fn capabilities(&self) -> DapCapabilities {
///         DapCapabilities::SWD
///     }
///     fn connect(&mut self, _: ConnectPort, _: &DapConfig) -> Result<ActivePort, DapError> {
///         Ok(ActivePort::Swd)
///     }
///     fn swj_sequence(&mut self, _: &DapConfig, _: usize, _: &[u8]) -> Result<(), DapError> {
///         Ok(())
///     }
///     fn swj_pins(&mut self, _: &DapConfig, _: SwjPins, _: SwjPins, _: u32) -> Result<SwjPins, DapError> {
///         Ok(SwjPins::empty())
///     }
///     fn swd_transfer(&mut self, _: &DapConfig, _: SwdRequest, _: u32) -> Result<u32, DapError> {
///         Ok(self.0)
///     }
/// }
///
/// # fn main() -> Result<(), ArmError> {
/// let mut probe = ArmDebug::new(Same(0xF000_0477), DapConfig);
/// assert_eq!(probe.connect_swd()?, 0xF000_0477);
/// let mut hours = [0; 4];
/// probe.read_mem(0x2000_0010, &mut hours)?;
/// assert_eq!(hours, [0x77, 0x04, 0x00, 0xF0]);
///
/// probe.transport().0 = 0;
/// assert_eq!(probe.connect_swd(), Err(ArmError::NoTarget));
/// # Ok(())
/// # }
/// ```
pub struct ArmDebug<T: DapTransport> {
    transport: T,
    config: DapConfig,
    engine: Engine,
    number: u8,
}

impl<T: DapTransport> ArmDebug<T> {
    /// An engine that has made no call and knows nothing of the target.
    pub fn new(transport: T, config: DapConfig) -> Self {
        ArmDebug { transport, config, engine: Engine::new(), number: number::OK }
    }

    /// The transport. The engine does not see what is sent through it by hand.
    pub fn transport(&mut self) -> &mut T {
        &mut self.transport
    }

    /// Whether the transport can do SWD.
    pub fn is_swd(&self) -> bool {
        self.transport.capabilities().contains(DapCapabilities::SWD)
    }

    /// How the last call ended, by its [`number`]: 0 is Ok, 1 to 7 are [`ArmError`]'s variants in
    /// their order, and behind [`ArmError::Internal`] may stand [`number::RANGE`],
    /// [`number::ALIGN`] or [`number::TABLE_END`], which `arm-debug` does not have. A call out of
    /// which the transport panicked has no number; that of the call before it stays.
    pub fn number(&self) -> u8 {
        self.number
    }

    fn call(&mut self, number: u32, args: &[u32]) -> Result<u32, ArmError> {
        self.call_lent(number, args, Lent::nothing())
    }

    /// The same with the caller's words or bytes.
    fn call_lent(&mut self, number: u32, args: &[u32], lent: Lent) -> Result<u32, ArmError> {
        let (transport, config) = (&mut self.transport, &self.config);
        let end = self.engine.run(number, args, lent, |next, bytes| make(transport, config, next, bytes));
        self.number = end.number;
        match end.number {
            number::OK => Ok(end.word),
            number => Err(ArmError::of(number, end.word)),
        }
    }
}

/// Connecting.
impl<T: DapTransport> ArmDebug<T> {
    /// Connects to one target of a multidrop line, as an RP2040's core is, and powers its debug
    /// domain up: dormant and back to SWD, TARGETSEL, DPIDR, which is returned. APSEL stays.
    pub fn connect_multidrop(&mut self, targetsel: u32) -> Result<u32, ArmError> {
        self.call(CONNECT_MULTIDROP, &[targetsel])
    }

    /// Switches the line from JTAG to SWD and reads DPIDR. No register is written, so it is safe
    /// where more than one target may listen.
    pub fn probe_swd(&mut self) -> Result<u32, ArmError> {
        self.call(PROBE_SWD, &[])
    }

    /// Connects to the only target of a line, as [`probe_swd`](Self::probe_swd) does, and powers its
    /// debug domain up. Returns DPIDR. APSEL is 0 then.
    pub fn connect_swd(&mut self) -> Result<u32, ArmError> {
        self.call(CONNECT_SWD, &[])
    }

    /// Drives nRESET low for `wait_us` microseconds.
    pub fn reset_pulse(&mut self, wait_us: u32) -> Result<(), ArmError> {
        self.call(RESET_PULSE, &[wait_us]).map(drop)
    }

    /// Goes over to another target of a multidrop line that has been connected. Returns its DPIDR.
    pub fn reselect(&mut self, targetsel: u32) -> Result<u32, ArmError> {
        self.call(RESELECT, &[targetsel])
    }
}

/// Access ports.
impl<T: DapTransport> ArmDebug<T> {
    /// The access port that later calls reach; 0 is the MEM-AP. Makes no transport call.
    pub fn set_apsel(&mut self, apsel: u8) {
        let _ = self.call(SET_APSEL, &[apsel.into()]);
    }

    /// Reads a register of the access port, bank and all.
    pub fn ap_reg_read(&mut self, addr: u8) -> Result<u32, ArmError> {
        self.call(AP_REG_READ, &[addr.into()])
    }

    /// Writes a register of the access port.
    pub fn ap_reg_write(&mut self, addr: u8, data: u32) -> Result<(), ArmError> {
        self.call(AP_REG_WRITE, &[addr.into(), data]).map(drop)
    }
}

/// Words and memory.
impl<T: DapTransport> ArmDebug<T> {
    /// Reads a word of memory.
    pub fn read_word(&mut self, addr: u32) -> Result<u32, ArmError> {
        self.call(READ_WORD, &[addr])
    }

    /// Writes a word of memory.
    pub fn write_word(&mut self, addr: u32, value: u32) -> Result<(), ArmError> {
        self.call(WRITE_WORD, &[addr, value]).map(drop)
    }

    /// Reads words that lie within 1 KiB, where TAR's increment ends. After a failure the words
    /// received so far stand in `out`. Of 2^32 words and more it is refused with
    /// [`number::RANGE`].
    pub fn read_words(&mut self, addr: u32, out: &mut [u32]) -> Result<(), ArmError> {
        self.call_lent(READ_WORDS, &[addr], Lent::words_mut(out)).map(drop)
    }

    /// Writes words that lie within 1 KiB. Of 2^32 words and more it is refused with
    /// [`number::RANGE`].
    pub fn write_words(&mut self, addr: u32, words: &[u32]) -> Result<(), ArmError> {
        self.call_lent(WRITE_WORDS, &[addr], Lent::words(words)).map(drop)
    }

    /// Reads bytes of memory, in runs of words, and a word for each ragged edge. After a failure the
    /// runs and edges that are complete stand in `buf`. Refused with [`number::RANGE`] where
    /// address and length do not stay below 2^32.
    pub fn read_mem(&mut self, addr: u32, buf: &mut [u8]) -> Result<(), ArmError> {
        self.call_lent(READ_MEM, &[addr], Lent::bytes_mut(buf)).map(drop)
    }

    /// Writes bytes of memory, in runs of words; at a ragged edge the word is read, changed and
    /// written back. Refused with [`number::RANGE`] as [`read_mem`](Self::read_mem) is.
    pub fn write_mem(&mut self, addr: u32, buf: &[u8]) -> Result<(), ArmError> {
        self.call_lent(WRITE_MEM, &[addr], Lent::bytes(buf)).map(drop)
    }
}

/// The core.
impl<T: DapTransport> ArmDebug<T> {
    /// Enables debug; a halted core goes on.
    pub fn debug_enable(&mut self) -> Result<(), ArmError> {
        self.call(DEBUG_ENABLE, &[]).map(drop)
    }

    /// Halts the core, and waits until it says so.
    pub fn halt(&mut self) -> Result<(), ArmError> {
        self.call(HALT, &[]).map(drop)
    }

    /// Lets the core run.
    pub fn resume(&mut self) -> Result<(), ArmError> {
        self.call(RESUME, &[]).map(drop)
    }

    /// One instruction with interrupts masked, and waits until the core is halted again.
    pub fn step(&mut self) -> Result<(), ArmError> {
        self.call(CORE_STEP, &[]).map(drop)
    }

    /// Whether the core says that it is halted.
    pub fn is_halted(&mut self) -> Result<bool, ArmError> {
        self.call(IS_HALTED, &[]).map(yes)
    }

    /// Reads a register of the halted core, by its selector.
    pub fn read_core_reg(&mut self, reg: u8) -> Result<u32, ArmError> {
        self.call(READ_CORE_REG, &[reg.into()])
    }

    /// Writes a register of the halted core.
    pub fn write_core_reg(&mut self, reg: u8, value: u32) -> Result<(), ArmError> {
        self.call(WRITE_CORE_REG, &[reg.into(), value]).map(drop)
    }
}

/// Functions on the target.
impl<T: DapTransport> ArmDebug<T> {
    /// The function with this code in an RP2040's boot ROM. A table that has not ended after 16,384
    /// entries is refused with [`number::TABLE_END`]; `arm-debug` looks on for ever.
    pub fn rom_func_lookup(&mut self, code: [u8; 2]) -> Result<Option<u32>, ArmError> {
        self.call(ROM_FUNC_LOOKUP, &code.map(u32::from)).map(found)
    }

    /// Starts a function on the halted core: r0 to r3, sp, and lr at a breakpoint that is put at
    /// `trampoline`. Returns the registers as they were.
    pub fn start_function(
        &mut self,
        fn_addr: u32,
        args: &[u32; 4],
        sp: u32,
        trampoline: u32,
    ) -> Result<CallFrame, ArmError> {
        let [a0, a1, a2, a3] = *args;
        self.call(START_FUNCTION, &[fn_addr, a0, a1, a2, a3, sp, trampoline])?;
        Ok(self.engine.frame())
    }

    /// Waits for the end of a function that was started, halts the core, and returns r0. The
    /// registers get back what stands in the frame, but not if the wait failed.
    pub fn finish_function(&mut self, frame: CallFrame, polls: u32) -> Result<u32, ArmError> {
        let CallFrame { r0, r1, r2, r3, sp, lr, pc, xpsr } = frame;
        self.call(FINISH_FUNCTION, &[r0, r1, r2, r3, sp, lr, pc, xpsr, polls])
    }

    /// [`start_function`](Self::start_function), then
    /// [`finish_function`](Self::finish_function).
    pub fn call_function(
        &mut self,
        fn_addr: u32,
        args: &[u32; 4],
        sp: u32,
        trampoline: u32,
        polls: u32,
    ) -> Result<u32, ArmError> {
        let [a0, a1, a2, a3] = *args;
        self.call(CALL_FUNCTION, &[fn_addr, a0, a1, a2, a3, sp, trampoline, polls])
    }
}

/// Breakpoints.
impl<T: DapTransport> ArmDebug<T> {
    /// Sets a breakpoint. False where none is free, or the address cannot have one.
    pub fn hw_breakpoint_set(&mut self, addr: u32) -> Result<bool, ArmError> {
        self.call(HW_BREAKPOINT_SET, &[addr]).map(yes)
    }

    /// Clears a breakpoint. False where there is none.
    pub fn hw_breakpoint_clear(&mut self, addr: u32) -> Result<bool, ArmError> {
        self.call(HW_BREAKPOINT_CLEAR, &[addr]).map(yes)
    }

    /// Whether there is a breakpoint.
    pub fn hw_breakpoint_at(&mut self, addr: u32) -> Result<bool, ArmError> {
        self.call(HW_BREAKPOINT_AT, &[addr]).map(yes)
    }
}

/// Nordic's chips.
impl<T: DapTransport> ArmDebug<T> {
    /// Whether an nRF52 admits debug access, and whether its CTRL-AP is the one that is known.
    pub fn nrf52_approtect_status(&mut self) -> Result<(bool, bool), ArmError> {
        let status = self.call(NRF52_APPROTECT_STATUS, &[])?;
        Ok((status & 1 != 0, status & 2 != 0))
    }

    /// Erases all of an nRF52, with its protection, and resets it. After a failing transfer APSEL
    /// stays at the CTRL-AP.
    pub fn nrf52_erase_all(&mut self, polls: u32) -> Result<(), ArmError> {
        self.call(NRF52_ERASE_ALL, &[polls]).map(drop)
    }

    /// Erases the page of an nRF52 in which the address lies.
    pub fn nrf52_erase_page(&mut self, addr: u32, polls: u32) -> Result<(), ArmError> {
        self.call(NRF52_ERASE_PAGE, &[addr, polls]).map(drop)
    }

    /// Writes words to the erased flash of an nRF52. Refused with [`number::ALIGN`] at an address
    /// that is no multiple of 4, and with [`number::RANGE`] where address and length do not stay
    /// below 2^32.
    pub fn nrf52_program(&mut self, addr: u32, words: &[u32], polls: u32) -> Result<(), ArmError> {
        self.call_lent(NRF52_PROGRAM, &[addr, polls], Lent::words(words)).map(drop)
    }

    /// Whether an nRF54L admits debug access.
    pub fn nrf54_approtect_status(&mut self) -> Result<bool, ArmError> {
        self.call(NRF54_APPROTECT_STATUS, &[]).map(yes)
    }

    /// As [`nrf52_erase_all`](Self::nrf52_erase_all), for an nRF54L.
    pub fn nrf54_erase_all(&mut self, polls: u32) -> Result<(), ArmError> {
        self.call(NRF54_ERASE_ALL, &[polls]).map(drop)
    }

    /// Writes words to the RRAM of an nRF54L. Refused as
    /// [`nrf52_program`](Self::nrf52_program) is.
    pub fn nrf54_program(&mut self, addr: u32, words: &[u32], polls: u32) -> Result<(), ArmError> {
        self.call_lent(NRF54_PROGRAM, &[addr, polls], Lent::words(words)).map(drop)
    }
}

/// Yes is 1, no 0.
pub(crate) fn yes(value: u32) -> bool {
    value != 0
}

/// A missing ROM function is all ones.
pub(crate) fn found(value: u32) -> Option<u32> {
    (value != u32::MAX).then_some(value)
}
