//! The session over the engine.

use crate::arm_debug::{found, yes, ArmError, CallFrame};
use crate::calls::*;
use crate::ffi::{self, Lent};
use crate::line::make;
use crate::number;
use crate::rust_dap::{DapConfig, DapTransport};
use core::fmt;

/// Why a session refused a call, or how it failed.
#[derive(Clone, Copy, Debug, PartialEq, Eq)]
pub enum SessionError {
    /// The call failed as a call of the engine does. Whether the session is closed by it,
    /// [`Session::is_open`] says.
    Arm(ArmError),
    /// Refused: address and length do not stay below 2^32. Nothing was sent.
    Range,
    /// Refused: a word's address is no multiple of 4, or a breakpoint's is odd. Nothing was sent.
    Align,
    /// Refused: the session is closed. Nothing was sent.
    NoSession,
    /// The call needs more transport calls than its budget. The session is closed.
    Spent,
    /// The boot ROM's table has not ended after 16,384 entries.
    TableEnd,
}

impl SessionError {
    /// Its [`number`], as a probe shows it.
    pub fn number(&self) -> u8 {
        match self {
            SessionError::Arm(ArmError::Transfer(_)) => number::TRANSFER,
            SessionError::Arm(ArmError::Wait) => number::WAIT,
            SessionError::Arm(ArmError::NotSupported) => number::NOT_SUPPORTED,
            SessionError::Arm(ArmError::PowerUpTimeout) => number::POWER_UP_TIMEOUT,
            SessionError::Arm(ArmError::CoreTimeout) => number::CORE_TIMEOUT,
            SessionError::Arm(ArmError::NoTarget) => number::NO_TARGET,
            SessionError::Arm(ArmError::Internal) => number::INTERNAL,
            SessionError::Range => number::RANGE,
            SessionError::Align => number::ALIGN,
            SessionError::NoSession => number::NO_SESSION,
            SessionError::Spent => number::SPENT,
            SessionError::TableEnd => number::TABLE_END,
        }
    }

    /// The error of a result that is not 0.
    fn of(number: u8, value: u32) -> Self {
        match number {
            number::RANGE => SessionError::Range,
            number::ALIGN => SessionError::Align,
            number::NO_SESSION => SessionError::NoSession,
            number::SPENT => SessionError::Spent,
            number::TABLE_END => SessionError::TableEnd,
            _ => SessionError::Arm(ArmError::of(number, value)),
        }
    }
}

impl fmt::Display for SessionError {
    fn fmt(&self, f: &mut fmt::Formatter) -> fmt::Result {
        match self {
            SessionError::Arm(error) => error.fmt(f),
            SessionError::Range => f.write_str("refused: past the end of the address space"),
            SessionError::Align => f.write_str("refused: the address does not lie as it has to"),
            SessionError::NoSession => f.write_str("refused: the session is closed"),
            SessionError::Spent => f.write_str("the budget did not suffice"),
            SessionError::TableEnd => f.write_str("the boot ROM's table has no end"),
        }
    }
}

impl core::error::Error for SessionError {}

/// A session with one target, which never relies on what it cannot know.
///
/// It begins closed, and [`connect_swd`](Self::connect_swd) opens it. It closes after a call in
/// which a transport call failed other than by WAIT or FAULT, because nobody knows then whether the
/// target got it; after [`SessionError::Spent`]; and after a connect that failed. While it is closed
/// every call but `connect_swd` is refused with [`SessionError::NoSession`] and sends nothing. A
/// refused call changes nothing.
///
/// If a method of the transport panics, the call is left, and the session is closed.
///
/// **One session for one target.** A session is neither `Clone` nor `Copy`: of two copies one would
/// stay open after a loss that the other one met, while the target has gone on without it.
///
/// ```compile_fail
/// use bazkondur::{rust_dap::DapTransport, Session};
/// fn copy<T: DapTransport + Clone>(session: &Session<T>) -> Session<T> {
///     session.clone()
/// }
/// ```
///
/// # Example
///
/// ```
/// use bazkondur::rust_dap::*;
/// use bazkondur::{ArmError, Session, SessionError};
///
/// /// A target that answers each transfer with one word, while its cable is plugged in.
/// struct Cable {
///     plugged: bool,
/// }
///
/// impl DapTransport for Cable {
///     fn capabilities(&self) -> DapCapabilities {
///         DapCapabilities::SWD
///     }
///     fn connect(&mut self, _: ConnectPort, _: &DapConfig) -> Result<ActivePort, DapError> {
///         Ok(ActivePort::Swd)
///     }
///     fn swj_sequence(&mut self, _: &DapConfig, _: usize, _: &[u8]) -> Result<(), DapError> {
///         Ok(())
///     }
///     fn swj_pins(&mut self, _: &DapConfig, _: SwjPins, _: SwjPins, _: u32) -> Result<SwjPins, DapError> {
///         Ok(SwjPins::empty())
///     }
///     fn swd_transfer(&mut self, _: &DapConfig, _: SwdRequest, _: u32) -> Result<u32, DapError> {
///         if self.plugged { Ok(0xF000_0477) } else { Err(DapError::InternalError) }
///     }
/// }
///
/// # fn main() -> Result<(), SessionError> {
/// let mut session = Session::new(Cable { plugged: true }, DapConfig);
/// session.connect_swd()?;
/// assert_eq!(session.read_word(0x2000_0010)?, 0xF000_0477);
///
/// session.transport().plugged = false;
/// assert_eq!(session.read_word(0x2000_0010), Err(SessionError::Arm(ArmError::Internal)));
/// session.transport().plugged = true;
/// assert_eq!(session.read_word(0x2000_0010), Err(SessionError::NoSession));
///
/// session.connect_swd()?;
/// assert_eq!(session.read_word(0x2000_0010)?, 0xF000_0477);
/// # Ok(())
/// # }
/// ```
pub struct Session<T: DapTransport> {
    transport: T,
    config: DapConfig,
    session: ffi::Session,
    budget: u32,
    made: u32,
}

impl<T: DapTransport> Session<T> {
    /// A session that has made no call: closed, with a budget of `u32::MAX` for each call.
    pub fn new(transport: T, config: DapConfig) -> Self {
        Session { transport, config, session: ffi::Session::new(), budget: u32::MAX, made: 0 }
    }

    /// The transport. The session does not see what is sent through it by hand: whoever writes
    /// SELECT or CSW so has to connect afresh.
    pub fn transport(&mut self) -> &mut T {
        &mut self.transport
    }

    /// Whether calls other than [`connect_swd`](Self::connect_swd) are admitted.
    pub fn is_open(&self) -> bool {
        self.session.is_open()
    }

    /// How many transport calls each later call may make. Where a call needs one more it ends with
    /// [`SessionError::Spent`], and the session is closed. The default, `u32::MAX`, is reached by
    /// calls with billions of polls alone; a caller with a deadline sets what fits into it.
    pub fn set_budget(&mut self, budget: u32) {
        self.budget = budget;
    }

    /// How many transport calls the last call made, WAITs and ABORTs counted. 0 for a refused call,
    /// and for one out of which the transport panicked.
    pub fn made(&self) -> u32 {
        self.made
    }

    fn call(&mut self, number: u32, args: &[u32]) -> Result<u32, SessionError> {
        self.call_lent(number, args, Lent::nothing())
    }

    /// The same with the caller's bytes.
    fn call_lent(&mut self, number: u32, args: &[u32], lent: Lent) -> Result<u32, SessionError> {
        self.made = 0;
        let (transport, config) = (&mut self.transport, &self.config);
        let end = self
            .session
            .run(self.budget, number, args, lent, |next, bytes| make(transport, config, next, bytes));
        self.made = end.made;
        match end.number {
            number::OK => Ok(end.word),
            number => Err(SessionError::of(number, end.word)),
        }
    }
}

/// The calls that a session admits. Each may be refused with [`SessionError::NoSession`], but for
/// `connect_swd`, and may end with [`SessionError::Spent`].
impl<T: DapTransport> Session<T> {
    /// Connects to the only target of a line, and opens the session. Always admitted. Returns DPIDR.
    pub fn connect_swd(&mut self) -> Result<u32, SessionError> {
        self.call(CONNECT_SWD, &[])
    }

    /// Reads a word of memory. Refused with [`SessionError::Align`] at an address that is no
    /// multiple of 4.
    pub fn read_word(&mut self, addr: u32) -> Result<u32, SessionError> {
        self.call(READ_WORD, &[addr])
    }

    /// Writes a word of memory. Refused as [`read_word`](Self::read_word) is.
    pub fn write_word(&mut self, addr: u32, value: u32) -> Result<(), SessionError> {
        self.call(WRITE_WORD, &[addr, value]).map(drop)
    }

    /// Reads bytes of memory. After a failure the runs and edges that are complete stand in `buf`.
    /// Refused with [`SessionError::Range`] where address and length do not stay below 2^32.
    pub fn read_mem(&mut self, addr: u32, buf: &mut [u8]) -> Result<(), SessionError> {
        self.call_lent(READ_MEM, &[addr], Lent::bytes_mut(buf)).map(drop)
    }

    /// Writes bytes of memory; after a failure each byte of the range is the old one or the new one.
    /// Refused as [`read_mem`](Self::read_mem) is.
    pub fn write_mem(&mut self, addr: u32, buf: &[u8]) -> Result<(), SessionError> {
        self.call_lent(WRITE_MEM, &[addr], Lent::bytes(buf)).map(drop)
    }

    /// Enables debug; a halted core goes on.
    pub fn debug_enable(&mut self) -> Result<(), SessionError> {
        self.call(DEBUG_ENABLE, &[]).map(drop)
    }

    /// Halts the core, and waits until it says so.
    pub fn halt(&mut self) -> Result<(), SessionError> {
        self.call(HALT, &[]).map(drop)
    }

    /// Lets the core run.
    pub fn resume(&mut self) -> Result<(), SessionError> {
        self.call(RESUME, &[]).map(drop)
    }

    /// One instruction with interrupts masked, and waits until the core is halted again.
    pub fn step(&mut self) -> Result<(), SessionError> {
        self.call(CORE_STEP, &[]).map(drop)
    }

    /// Whether the core says that it is halted.
    pub fn is_halted(&mut self) -> Result<bool, SessionError> {
        self.call(IS_HALTED, &[]).map(yes)
    }

    /// Reads a register of the halted core, by its selector.
    pub fn read_core_reg(&mut self, reg: u8) -> Result<u32, SessionError> {
        self.call(READ_CORE_REG, &[reg.into()])
    }

    /// Writes a register of the halted core.
    pub fn write_core_reg(&mut self, reg: u8, value: u32) -> Result<(), SessionError> {
        self.call(WRITE_CORE_REG, &[reg.into(), value]).map(drop)
    }

    /// The function with this code in an RP2040's boot ROM. Ends with [`SessionError::TableEnd`]
    /// where the table has not ended after 16,384 entries.
    pub fn rom_func_lookup(&mut self, code: [u8; 2]) -> Result<Option<u32>, SessionError> {
        self.call(ROM_FUNC_LOOKUP, &code.map(u32::from)).map(found)
    }

    /// Starts a function on the halted core: r0 to r3, sp, and lr at a breakpoint that is put at
    /// `trampoline`. Returns the registers as they were.
    pub fn start_function(
        &mut self,
        fn_addr: u32,
        args: &[u32; 4],
        sp: u32,
        trampoline: u32,
    ) -> Result<CallFrame, SessionError> {
        let [a0, a1, a2, a3] = *args;
        self.call(START_FUNCTION, &[fn_addr, a0, a1, a2, a3, sp, trampoline])?;
        Ok(self.session.frame())
    }

    /// Waits for the end of a function that was started, halts the core, and returns r0. The
    /// registers get back what stands in the frame, but not if the wait failed.
    pub fn finish_function(&mut self, frame: CallFrame, polls: u32) -> Result<u32, SessionError> {
        let CallFrame { r0, r1, r2, r3, sp, lr, pc, xpsr } = frame;
        self.call(FINISH_FUNCTION, &[r0, r1, r2, r3, sp, lr, pc, xpsr, polls])
    }

    /// [`start_function`](Self::start_function), then
    /// [`finish_function`](Self::finish_function).
    pub fn call_function(
        &mut self,
        fn_addr: u32,
        args: &[u32; 4],
        sp: u32,
        trampoline: u32,
        polls: u32,
    ) -> Result<u32, SessionError> {
        let [a0, a1, a2, a3] = *args;
        self.call(CALL_FUNCTION, &[fn_addr, a0, a1, a2, a3, sp, trampoline, polls])
    }

    /// Sets a breakpoint. False where none is free, or the address cannot have one. Refused with
    /// [`SessionError::Align`] at an odd address, such as a pointer to a Thumb function.
    pub fn hw_breakpoint_set(&mut self, addr: u32) -> Result<bool, SessionError> {
        self.call(HW_BREAKPOINT_SET, &[addr]).map(yes)
    }

    /// Clears a breakpoint. False where there is none. Refused as
    /// [`hw_breakpoint_set`](Self::hw_breakpoint_set) is.
    pub fn hw_breakpoint_clear(&mut self, addr: u32) -> Result<bool, SessionError> {
        self.call(HW_BREAKPOINT_CLEAR, &[addr]).map(yes)
    }

    /// Whether there is a breakpoint. Refused as
    /// [`hw_breakpoint_set`](Self::hw_breakpoint_set) is.
    pub fn hw_breakpoint_at(&mut self, addr: u32) -> Result<bool, SessionError> {
        self.call(HW_BREAKPOINT_AT, &[addr]).map(yes)
    }
}
