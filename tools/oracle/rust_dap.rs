//! A stand-in for the crate `rust_dap`: the items that `arm-debug` uses, with
//! the bits and error cases of the CMSIS-DAP protocol. It has no behaviour.

#![allow(non_upper_case_globals)]

/// Acknowledge code of a transfer that the target asks to repeat.
pub const DAP_TRANSFER_WAIT: u8 = 2;

/// A set of bits with named members.
macro_rules! bit_set {
    ($name:ident, $($member:ident = $bit:expr),+) => {
        #[derive(Clone, Copy)]
        pub struct $name(u8);

        impl $name {
            $(pub const $member: Self = Self(1 << $bit);)+

            pub fn empty() -> Self {
                Self(0)
            }
            pub fn bits(self) -> u8 {
                self.0
            }
            pub fn contains(self, other: Self) -> bool {
                self.0 & other.0 == other.0
            }
        }

        impl std::ops::BitOrAssign for $name {
            fn bitor_assign(&mut self, other: Self) {
                self.0 |= other.0;
            }
        }
    };
}

bit_set!(SwdRequest, APnDP = 0, RnW = 1, A2 = 2, A3 = 3);
bit_set!(SwjPins, N_RESET = 7);
bit_set!(DapCapabilities, SWD = 0);

#[derive(PartialEq)]
pub enum ConnectPort { Default, Swd, Jtag }

pub enum ActivePort { Swd, Jtag }

pub enum DapError {
    InvalidCommand,
    InvalidDapInfoId,
    SwdError(u8),
    InternalError,
    ExceedRetryCount,
    NotSupported,
}

/// The engine only hands this on.
pub struct DapConfig;

pub trait DapTransport {
    fn capabilities(&self) -> DapCapabilities;
    fn connect(&mut self, port: ConnectPort, c: &DapConfig) -> Result<ActivePort, DapError>;
    fn swj_sequence(&mut self, c: &DapConfig, count: usize, data: &[u8]) -> Result<(), DapError>;
    fn swj_pins(&mut self, c: &DapConfig, out: SwjPins, select: SwjPins, us: u32) -> Result<SwjPins, DapError>;
    fn swd_transfer(&mut self, c: &DapConfig, request: SwdRequest, data: u32) -> Result<u32, DapError>;
    fn swd_write_bits(&mut self, c: &DapConfig, count: usize, data: &[u8]) -> Result<(), DapError>;
    fn swd_output_enable(&mut self, enable: bool) -> Result<(), DapError>;
}
