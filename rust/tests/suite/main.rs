//! The crate over a small target: both types, by what they return and what they send.

mod arm_debug;
mod bench;
mod session;
