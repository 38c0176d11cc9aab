//! Runs one script on the unchanged Rust and gives the text that `dapscript`
//! must print for it.

use arm_debug::{ArmDebug, ArmError, CallFrame};
use rust_dap::*;
use std::fmt::Write;
use std::mem::{take, transmute};
use std::panic::{catch_unwind, resume_unwind, AssertUnwindSafe};

pub const MAX_SCRIPT: usize = 65_536;
const MAX_WORDS: usize = 8_192;
const MALFORMED: &str = "13 00000000\n";

/// An answer of the transport: code 0 Ok, 1 SwdError, 2 NotSupported, 3 other.
#[derive(Clone, Copy, PartialEq)]
pub struct Answer {
    pub code: u8,
    pub value: u32,
}

/// Answers a transport call, given a transfer's request and data; none when
/// the budget is used up.
pub type Line<'a> = dyn FnMut(Option<(u8, u32)>) -> Option<Answer> + 'a;

/// Unwinds out of the Rust when the budget is used up.
struct Spent;

/// Writes down each transport call that the line answers.
struct Mock<'a, 'b> {
    line: &'a mut Line<'b>,
    log: String,
    count: u32,
}

impl Mock<'_, '_> {
    fn make(&mut self, what: String, transfer: Option<(u8, u32)>) -> Result<u32, DapError> {
        let Some(answer) = (self.line)(transfer) else {
            resume_unwind(Box::new(Spent)) // unlike panic!, prints nothing
        };
        self.count += 1;
        let _ = writeln!(self.log, "{} {what}", self.count);
        match answer.code {
            0 => Ok(answer.value),
            1 => Err(DapError::SwdError(answer.value as u8)),
            2 => Err(DapError::NotSupported),
            _ => Err(DapError::InternalError),
        }
    }
}

impl DapTransport for Mock<'_, '_> {
    fn capabilities(&self) -> DapCapabilities {
        DapCapabilities::SWD
    }
    fn connect(&mut self, port: ConnectPort, _: &DapConfig) -> Result<ActivePort, DapError> {
        assert!(port == ConnectPort::Swd);
        self.make("C".into(), None).map(|_| ActivePort::Swd)
    }
    fn swj_sequence(&mut self, _: &DapConfig, count: usize, data: &[u8]) -> Result<(), DapError> {
        self.make(format!("Q {count} {}", hex(data)), None).map(|_| ())
    }
    fn swj_pins(&mut self, _: &DapConfig, out: SwjPins, select: SwjPins, us: u32) -> Result<SwjPins, DapError> {
        let text = format!("P {:02X} {:02X} {us:08X}", out.bits(), select.bits());
        self.make(text, None).map(|_| SwjPins::empty())
    }
    fn swd_transfer(&mut self, _: &DapConfig, request: SwdRequest, data: u32) -> Result<u32, DapError> {
        let request = request.bits();
        self.make(format!("T {request:X} {data:08X}"), Some((request, data)))
    }
    fn swd_write_bits(&mut self, _: &DapConfig, count: usize, data: &[u8]) -> Result<(), DapError> {
        self.make(format!("B {count} {}", hex(data)), None).map(|_| ())
    }
    fn swd_output_enable(&mut self, enable: bool) -> Result<(), DapError> {
        assert!(enable);
        self.make("O".into(), None).map(|_| ())
    }
}

fn hex(bytes: &[u8]) -> String {
    bytes.iter().map(|b| format!("{b:02X}")).collect()
}

/// The big-endian word at a place.
pub fn word(bytes: &[u8], at: usize) -> u32 {
    u32::from_be_bytes(bytes[at..at + 4].try_into().unwrap())
}

pub fn words(bytes: &[u8]) -> Vec<u32> {
    bytes.chunks_exact(4).map(|w| word(w, 0)).collect()
}

/// A read's length: 2 bytes after the address.
pub fn length(args: &[u8]) -> usize {
    usize::from(args[4]) << 8 | usize::from(args[5])
}

/// Whether the number is a call's and its arguments have their length.
fn fits(call: u8, args: &[u8]) -> bool {
    let n = args.len();
    match call {
        2 | 3 | 15..=19 | 29 | 33 => n == 0,
        6 | 7 | 20 => n == 1,
        22 => n == 2,
        1 | 4 | 5 | 9 | 26..=28 | 30 | 34 => n == 4,
        8 | 21 => n == 5,
        11 => n == 6 && length(args) <= MAX_WORDS,
        13 => n == 6,
        10 | 31 => n == 8,
        23 => n == 28,
        25 => n == 32,
        24 => n == 36,
        14 => n >= 4,
        12 => n >= 4 && n % 4 == 0,
        32 | 35 => n >= 8 && n % 4 == 0,
        _ => false,
    }
}

/// Align (9), then Range (8). The Rust has neither check: at the top of the
/// address space its address overflows after the transfers, and a misaligned
/// program call writes a misaligned TAR or never ends.
fn refusal(call: u8, args: &[u8]) -> Option<u32> {
    let bytes = match call {
        13 => length(args),
        14 => args.len() - 4,
        32 | 35 => args.len() - 8,
        _ => 0,
    };
    if bytes == 0 {
        return None; // no such check, or nothing to do
    }
    let address = word(args, 0);
    if matches!(call, 32 | 35) && address % 4 != 0 {
        return Some(9);
    }
    (u64::from(address) + bytes as u64 >= 1 << 32).then_some(8)
}

/// The caller's buffers. They outlive an unwinding.
#[derive(Default)]
struct Buffers {
    bytes: Vec<u8>,
    words: Vec<u32>,
}

/// Makes the call. CallFrame's one field is private; `transmute` makes sure
/// that it has the size of eight words.
fn invoke(e: &mut ArmDebug<Mock>, call: u8, a: &[u8], out: &mut Buffers) -> Result<u32, ArmError> {
    let four = |at| [word(a, at), word(a, at + 4), word(a, at + 8), word(a, at + 12)];
    let yes = |b: bool| b as u32;
    let none = |()| 0;
    match call {
        1 => e.connect_multidrop(word(a, 0)),
        2 => e.probe_swd(),
        3 => e.connect_swd(),
        4 => e.reset_pulse(word(a, 0)).map(none),
        5 => e.reselect(word(a, 0)),
        6 => Ok(none(e.set_apsel(a[0]))),
        7 => e.ap_reg_read(a[0]),
        8 => e.ap_reg_write(a[0], word(a, 1)).map(none),
        9 => e.read_word(word(a, 0)),
        10 => e.write_word(word(a, 0), word(a, 4)).map(none),
        11 => e.read_words(word(a, 0), &mut out.words).map(none),
        12 => e.write_words(word(a, 0), &words(&a[4..])).map(none),
        13 => e.read_mem(word(a, 0), &mut out.bytes).map(none),
        14 => e.write_mem(word(a, 0), &a[4..]).map(none),
        15 => e.debug_enable().map(none),
        16 => e.halt().map(none),
        17 => e.resume().map(none),
        18 => e.step().map(none),
        19 => e.is_halted().map(yes),
        20 => e.read_core_reg(a[0]),
        21 => e.write_core_reg(a[0], word(a, 1)).map(none),
        22 => e.rom_func_lookup([a[0], a[1]]).map(|f| f.unwrap_or(0xFFFF_FFFF)),
        23 => {
            let frame = e.start_function(word(a, 0), &four(4), word(a, 20), word(a, 24))?;
            out.words = unsafe { transmute::<CallFrame, [u32; 8]>(frame) }.to_vec();
            Ok(0)
        }
        24 => {
            let saved: [u32; 8] = words(&a[..32]).try_into().unwrap();
            e.finish_function(unsafe { transmute::<[u32; 8], CallFrame>(saved) }, word(a, 32))
        }
        25 => e.call_function(word(a, 0), &four(4), word(a, 20), word(a, 24), word(a, 28)),
        26 => e.hw_breakpoint_set(word(a, 0)).map(yes),
        27 => e.hw_breakpoint_clear(word(a, 0)).map(yes),
        28 => e.hw_breakpoint_at(word(a, 0)).map(yes),
        29 => e.nrf52_approtect_status().map(|(open, known)| yes(open) + 2 * yes(known)),
        30 => e.nrf52_erase_all(word(a, 0)).map(none),
        31 => e.nrf52_erase_page(word(a, 0), word(a, 4)).map(none),
        32 => e.nrf52_program(word(a, 0), &words(&a[8..]), word(a, 4)).map(none),
        33 => e.nrf54_approtect_status().map(yes),
        34 => e.nrf54_erase_all(word(a, 0)).map(none),
        35 => e.nrf54_program(word(a, 0), &words(&a[8..]), word(a, 4)).map(none),
        _ => unreachable!("fits admits calls 1 to 35"),
    }
}

/// Result number and value. The Rust has no TableEnd (12): it looks on for
/// ever, and a script's budget ends before that.
fn ending(result: Result<u32, ArmError>) -> (u32, u32) {
    match result {
        Ok(value) => (0, value),
        Err(ArmError::Transfer(ack)) => (1, ack.into()),
        Err(ArmError::Wait) => (2, 0),
        Err(ArmError::NotSupported) => (3, 0),
        Err(ArmError::PowerUpTimeout) => (4, 0),
        Err(ArmError::CoreTimeout) => (5, 0),
        Err(ArmError::NoTarget) => (6, 0),
        Err(ArmError::Internal) => (7, 0),
    }
}

/// The unchanged Rust over a line. A call finds the engine as the last one
/// left it.
pub struct Engine<'a, 'b>(ArmDebug<Mock<'a, 'b>>);

impl<'a, 'b> Engine<'a, 'b> {
    pub fn new(line: &'a mut Line<'b>) -> Self {
        Engine(ArmDebug::new(Mock { line, log: String::new(), count: 0 }, DapConfig))
    }

    /// The printed text of a call.
    pub fn call(&mut self, call: u8, args: &[u8]) -> String {
        let mut out = Buffers::default();
        match call {
            11 => out.words = vec![0; length(args)],
            13 => out.bytes = vec![0; length(args)],
            _ => {}
        }
        self.0.transport().count = 0;
        let (number, value) = match refusal(call, args) {
            Some(number) => (number, 0),
            None => match catch_unwind(AssertUnwindSafe(|| invoke(&mut self.0, call, args, &mut out))) {
                Ok(result) => ending(result),
                Err(payload) if payload.is::<Spent>() => (11, 0),
                Err(payload) => resume_unwind(payload),
            },
        };
        let mut text = take(&mut self.0.transport().log);
        let _ = writeln!(text, "{number} {value:08X}");
        if matches!(call, 11 | 13) || (call == 23 && number == 0) {
            let words: String = out.words.iter().map(|w| format!("{w:08X}")).collect();
            let _ = writeln!(text, "{}", format!("D {words}{}", hex(&out.bytes)).trim_end());
        }
        text
    }
}

/// The printed text of a call on a new engine over a line.
pub fn run(call: u8, args: &[u8], line: &mut Line) -> String {
    Engine::new(line).call(call, args)
}

/// A well-formed script.
pub struct Script<'a> {
    pub call: u8,
    pub args: &'a [u8],
    pub answers: Vec<Answer>,
}

/// The next record and what follows it.
fn record(bytes: &[u8]) -> Option<(&[u8], &[u8])> {
    let (head, rest) = bytes.split_first_chunk::<2>()?;
    let length = u16::from_be_bytes(*head).into();
    (length > 0 && length <= rest.len()).then(|| rest.split_at(length))
}

fn answer(record: &[u8]) -> Option<Answer> {
    if record.len() != 5 {
        return None;
    }
    let answer = Answer { code: record[0], value: word(record, 1) };
    (answer.code <= 3 && (answer.code != 1 || answer.value <= 255)).then_some(answer)
}

pub fn parse(bytes: &[u8]) -> Option<Script<'_>> {
    if bytes.len() > MAX_SCRIPT || bytes.first() != Some(&1) {
        return None;
    }
    let (first, mut rest) = record(&bytes[1..])?;
    let (&call, args) = first.split_first()?;
    let mut answers = Vec::new();
    while !rest.is_empty() {
        let (next, after) = record(rest)?;
        answers.push(answer(next)?);
        rest = after;
    }
    fits(call, args).then_some(Script { call, args, answers })
}

/// The text that `dapscript` must print for a script.
pub fn expected(bytes: &[u8]) -> String {
    let Some(script) = parse(bytes) else {
        return MALFORMED.into();
    };
    let mut answers = script.answers.iter().copied();
    run(script.call, script.args, &mut |_| answers.next())
}

/// The items of a batch, each a 4-byte length and its bytes.
pub fn unpack(mut batch: &[u8]) -> Vec<&[u8]> {
    let mut items = Vec::new();
    while !batch.is_empty() {
        let (item, rest) = batch[4..].split_at(word(batch, 0) as usize);
        items.push(item);
        batch = rest;
    }
    items
}
