// SPDX-License-Identifier: Apache-2.0
// The names, signatures and bits are those of rust-dap/src/transport.rs and cmsis_dap.rs of
// ciniml/rust-dap, Copyright 2026 and 2021 Kenta Ida.

//! The transport, as the crate `rust_dap` has it: the trait and types that the engine's calls use,
//! with that crate's names, signatures and bits. What the engine does not call is left out
//! (`disconnect`, `swj_clock`, bits that are read, JTAG).
//!
//! # Over a transport of the crate `rust_dap`
//!
//! This crate depends on no other, so a transport of `rust_dap` is wrapped in a type of its own. It
//! keeps `rust_dap`'s configuration, too: the engine hands [`DapConfig`] on and never looks at it.
//!
//! ```
//! # mod rust_dap { pub use bazkondur::rust_dap::*; }
//! use bazkondur::rust_dap::*;
//!
//! struct Line<T> {
//!     transport: T,
//!     config: rust_dap::DapConfig,
//! }
//!
//! fn error(e: rust_dap::DapError) -> DapError {
//!     match e {
//!         rust_dap::DapError::SwdError(ack) => DapError::SwdError(ack),
//!         rust_dap::DapError::NotSupported => DapError::NotSupported,
//!         _ => DapError::InternalError,
//!     }
//! }
//!
//! impl<T: rust_dap::DapTransport> DapTransport for Line<T> {
//!     fn capabilities(&self) -> DapCapabilities {
//!         DapCapabilities::from_bits_truncate(self.transport.capabilities().bits())
//!     }
//!     fn connect(&mut self, _: ConnectPort, _: &DapConfig) -> Result<ActivePort, DapError> {
//!         self.transport.connect(rust_dap::ConnectPort::Swd, &self.config).map_err(error)?;
//!         Ok(ActivePort::Swd)
//!     }
//!     fn swj_sequence(&mut self, _: &DapConfig, count: usize, data: &[u8]) -> Result<(), DapError> {
//!         self.transport.swj_sequence(&self.config, count, data).map_err(error)
//!     }
//!     fn swj_pins(&mut self, _: &DapConfig, out: SwjPins, select: SwjPins, us: u32) -> Result<SwjPins, DapError> {
//!         let pins = |p: SwjPins| rust_dap::SwjPins::from_bits_truncate(p.bits());
//!         let read = self.transport.swj_pins(&self.config, pins(out), pins(select), us);
//!         read.map(|p| SwjPins::from_bits_truncate(p.bits())).map_err(error)
//!     }
//!     fn swd_transfer(&mut self, _: &DapConfig, request: SwdRequest, data: u32) -> Result<u32, DapError> {
//!         let request = rust_dap::SwdRequest::from_bits_truncate(request.bits());
//!         self.transport.swd_transfer(&self.config, request, data).map_err(error)
//!     }
//!     fn swd_write_bits(&mut self, _: &DapConfig, count: usize, data: &[u8]) -> Result<(), DapError> {
//!         self.transport.swd_write_bits(&self.config, count, data).map_err(error)
//!     }
//!     fn swd_output_enable(&mut self, enable: bool) -> Result<(), DapError> {
//!         self.transport.swd_output_enable(enable).map_err(error)
//!     }
//! }
//! ```

/// The ack of a transfer that the target asks to repeat.
pub const DAP_TRANSFER_WAIT: u8 = 0x02;
/// The ack of a transfer that the target refuses, after an error that it holds on to.
pub const DAP_TRANSFER_FAULT: u8 = 0x04;

/// A set of bits with named members, in the manner of `bitflags`.
macro_rules! bit_set {
    ($(#[$doc:meta])* $name:ident: $bits:ty, $($(#[$member_doc:meta])* $member:ident = $bit:expr,)+) => {
        $(#[$doc])*
        #[derive(Clone, Copy, Debug, PartialEq, Eq)]
        pub struct $name($bits);

        #[allow(non_upper_case_globals)]
        impl $name {
            $($(#[$member_doc])* pub const $member: Self = Self(1 << $bit);)+

            /// No bit.
            pub const fn empty() -> Self {
                Self(0)
            }
            /// The set as a number.
            pub const fn bits(&self) -> $bits {
                self.0
            }
            /// The set of a number; bits without a name are dropped.
            pub const fn from_bits_truncate(bits: $bits) -> Self {
                Self(bits & (0 $(| Self::$member.0)+))
            }
            /// Whether all bits of the other set are in this one.
            pub const fn contains(&self, other: Self) -> bool {
                self.0 & other.0 == other.0
            }
        }

        impl core::ops::BitOr for $name {
            type Output = Self;
            fn bitor(self, other: Self) -> Self {
                Self(self.0 | other.0)
            }
        }

        impl core::ops::BitOrAssign for $name {
            fn bitor_assign(&mut self, other: Self) {
                self.0 |= other.0;
            }
        }
    };
}

bit_set!(
    /// The request of a transfer.
    SwdRequest: u8,
    /// An access port's register, else the debug port's.
    APnDP = 0,
    /// A read, else a write.
    RnW = 1,
    /// Bit 2 of the register's address.
    A2 = 2,
    /// Bit 3 of the register's address.
    A3 = 3,
);

bit_set!(
    /// The pins of the line.
    SwjPins: u8,
    /// SWCLK, or TCK.
    TCK_SWDCLK = 0,
    /// SWDIO, or TMS.
    TMS_SWDIO = 1,
    /// TDI.
    TDI = 2,
    /// TDO.
    TDO = 3,
    /// nTRST.
    N_TRST = 5,
    /// nRESET.
    N_RESET = 7,
);

bit_set!(
    /// What a transport can do.
    DapCapabilities: u16,
    /// SWD.
    SWD = 0,
    /// JTAG.
    JTAG = 1,
);

/// The port that [`DapTransport::connect`] is asked for: the engine asks for SWD.
#[derive(Clone, Copy, Debug, PartialEq, Eq)]
pub enum ConnectPort {
    /// The transport's choice.
    Default,
    /// SWD.
    Swd,
    /// JTAG.
    Jtag,
}

/// The port that the transport took. The engine does not look at it.
#[derive(Clone, Copy, Debug, PartialEq, Eq)]
pub enum ActivePort {
    /// SWD.
    Swd,
    /// JTAG.
    Jtag,
}

/// Why a transport call failed.
#[derive(Clone, Copy, Debug, PartialEq, Eq)]
pub enum DapError {
    /// No such command.
    InvalidCommand,
    /// No such item of information.
    InvalidDapInfoId,
    /// The line failed, with this ack. WAIT and FAULT are the target's own answers and nothing else:
    /// a [`Session`](crate::Session) takes every other error for a loss.
    SwdError(u8),
    /// Any failure that has no case of its own here.
    InternalError,
    /// Too many retries.
    ExceedRetryCount,
    /// The transport does not support what was asked of it.
    NotSupported,
}

/// The engine only hands it on to the transport. `rust_dap`'s is a record of timings and names,
/// which a wrapped transport keeps by itself.
#[derive(Clone, Copy, Debug, Default)]
pub struct DapConfig;

/// The physical layer: the seven methods of `rust_dap`'s trait that the engine uses.
pub trait DapTransport {
    /// What the transport can do.
    fn capabilities(&self) -> DapCapabilities;

    /// Takes the pins for a port.
    fn connect(&mut self, port: ConnectPort, config: &DapConfig) -> Result<ActivePort, DapError>;

    /// Puts out `count` bits of `data` on SWDIO, first bit lowest.
    fn swj_sequence(&mut self, config: &DapConfig, count: usize, data: &[u8]) -> Result<(), DapError>;

    /// Puts the levels `output` on the pins in `select`, waits, and reads the pins.
    fn swj_pins(
        &mut self,
        config: &DapConfig,
        output: SwjPins,
        select: SwjPins,
        wait_us: u32,
    ) -> Result<SwjPins, DapError>;

    /// One transfer, without retries: the word read, or any word for a write. A word that came with
    /// bad parity is an error.
    fn swd_transfer(
        &mut self,
        _config: &DapConfig,
        _request: SwdRequest,
        _data: u32,
    ) -> Result<u32, DapError> {
        Err(DapError::NotSupported)
    }

    /// Writes `count` bits of `data`, first bit lowest, and reads no ack.
    fn swd_write_bits(&mut self, _config: &DapConfig, _count: usize, _data: &[u8]) -> Result<(), DapError> {
        Err(DapError::NotSupported)
    }

    /// Drives SWDIO, or lets go of it.
    fn swd_output_enable(&mut self, _enable: bool) -> Result<(), DapError> {
        Err(DapError::NotSupported)
    }
}
