//! A transport call, from the engine to the transport and back.

use crate::ffi::Next;
use crate::rust_dap::{ConnectPort, DapConfig, DapError, DapTransport, SwdRequest, SwjPins};

const MAKE_TRANSFER: u32 = b'T' as u32;
const MAKE_CONNECT: u32 = b'C' as u32;
const MAKE_SEQUENCE: u32 = b'Q' as u32;
const MAKE_WRITE_BITS: u32 = b'B' as u32;
const MAKE_PINS: u32 = b'P' as u32;
const MAKE_OUTPUT_ENABLE: u32 = b'O' as u32;

const ANSWER_GOOD: u32 = 0;
const ANSWER_SWD_ERROR: u32 = 1;
const ANSWER_NOT_SUPPORTED: u32 = 2;
const ANSWER_OTHER: u32 = 3;

/// Makes the transport call that the letter names; code and value of its answer.
pub(crate) fn make(
    transport: &mut impl DapTransport,
    config: &DapConfig,
    next: &Next,
    bytes: &[u8],
) -> (u32, u32) {
    let bits = next.bits as usize;
    let pins = |bits: u32| SwjPins::from_bits_truncate(bits as u8);
    let answer = match next.kind {
        MAKE_TRANSFER => {
            let request = SwdRequest::from_bits_truncate(next.request as u8);
            transport.swd_transfer(config, request, next.word)
        }
        MAKE_CONNECT => transport.connect(ConnectPort::Swd, config).map(|_| 0),
        MAKE_SEQUENCE => transport.swj_sequence(config, bits, bytes).map(|()| 0),
        MAKE_WRITE_BITS => transport.swd_write_bits(config, bits, bytes).map(|()| 0),
        MAKE_PINS => transport.swj_pins(config, pins(next.output), pins(next.select), next.word).map(|_| 0),
        MAKE_OUTPUT_ENABLE => transport.swd_output_enable(true).map(|()| 0),
        kind => unreachable!("the engine asks for no transport call {kind}"),
    };
    match answer {
        Ok(word) => (ANSWER_GOOD, word),
        Err(DapError::SwdError(ack)) => (ANSWER_SWD_ERROR, ack.into()),
        Err(DapError::NotSupported) => (ANSWER_NOT_SUPPORTED, 0),
        Err(_) => (ANSWER_OTHER, 0),
    }
}
