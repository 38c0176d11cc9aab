//! The numbers of how a call ended, as `include/bazkondur.h` and the helpdesk's card have them.

/// The call is done.
pub const OK: u8 = 0;
/// The line failed.
pub const TRANSFER: u8 = 1;
/// 65 WAITs for one transfer.
pub const WAIT: u8 = 2;
/// The transport said that it does not support what was asked of it.
pub const NOT_SUPPORTED: u8 = 3;
/// The debug domain did not power up.
pub const POWER_UP_TIMEOUT: u8 = 4;
/// The core, or a chip's flash, did not follow within the polls.
pub const CORE_TIMEOUT: u8 = 5;
/// DPIDR is 0 or all ones.
pub const NO_TARGET: u8 = 6;
/// Any other error of the transport.
pub const INTERNAL: u8 = 7;
/// Refused: the call runs past the end of the address space.
pub const RANGE: u8 = 8;
/// Refused: the address does not lie as it has to.
pub const ALIGN: u8 = 9;
/// Refused: the session is closed.
pub const NO_SESSION: u8 = 10;
/// The call needs more transport calls than its budget.
pub const SPENT: u8 = 11;
/// The boot ROM's table has no end.
pub const TABLE_END: u8 = 12;
