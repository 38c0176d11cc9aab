//! The engine of a debug probe over SWD, and a session over it that closes when it can no longer
//! know what the target did.
//!
//! - [`ArmDebug`] has the methods of the Rust module `arm-debug` of
//!   [rust-dap](https://github.com/ciniml/rust-dap), by the same names and with the same arguments,
//!   results and transport calls.
//! - [`Session`] has those of them that a service probe needs. It refuses a call that it could not
//!   answer for, counts the transport calls of each, and closes after a lost answer, so that no
//!   later call relies on what the target may not hold.
//!
//! Both are generic over a [`DapTransport`](rust_dap::DapTransport). The code behind them is written
//! in Rattle and proved to make exactly the transport calls that each call is defined to make, and to
//! end as it is defined to end, for every sequence of answers. Of this crate itself nothing is proved:
//! it hands arguments over and makes the transport calls, and is compared with the unchanged
//! `arm-debug` by tests.
//!
//! # The archive
//!
//! `libbazkondur.a` is linked statically. `tools/archive.sh`, at the root of the repository,
//! makes it in `target/staticlib`, where `build.rs` looks for it; the environment's `BAZKONDUR_LIB`
//! names another folder (a relative one is taken from the crate's). **The archive is for x86-64 Linux
//! only**, and so is this crate.
//!
//! The crate is `no_std`, takes no memory, and depends on no other crate.

#![no_std]
#![deny(missing_docs)]
#![deny(unsafe_code)]

#[cfg(not(all(target_arch = "x86_64", target_pointer_width = "64", target_os = "linux")))]
compile_error!("libbazkondur.a is for x86-64 Linux only");

mod arm_debug;
mod calls;
mod ffi;
mod line;
pub mod number;
pub mod rust_dap;
mod session;

pub use arm_debug::{ArmDebug, ArmError, CallFrame};
pub use session::{Session, SessionError};
