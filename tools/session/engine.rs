//! The unchanged Rust over a transport that the target and its line answer, or
//! answers that are given.

use crate::target::{Target, Transfer};
use arm_debug_open::{ArmDebug, ArmError, CallFrame};
use driver::{word, words};
use list::{hex, Answer, Call, Fault};
use rust_dap::*;
use std::fmt::Write;
use std::mem::{replace, take};
use std::panic::{catch_unwind, resume_unwind, AssertUnwindSafe};

/// Results that the Rust does not have.
pub const SPENT: u32 = 11;
const TABLE_END: u32 = 12;

/// Entries that call 22 looks at before TableEnd.
const ENTRIES: u32 = 16_384;

/// Where the answers of a call come from.
pub enum Source {
    Line(Vec<Fault>),
    Given(Vec<Answer>),
}

/// How many words call 22 has read: the table's address, then the entries.
#[derive(Default)]
struct Table {
    read: u32,
    last: u32,
}

impl Table {
    /// A word of RDBUFF. The first has the table's address in its low half; an
    /// entry that is not at a multiple of 4 lies in two words.
    fn take(&mut self, word: u32) {
        if self.read == 0 {
            self.last = 1 + ENTRIES * if word % 4 == 0 { 1 } else { 2 };
        }
        self.read += 1;
    }

    fn at_end(&self) -> bool {
        self.read > 0 && self.read == self.last
    }
}

/// Unwinds out of the Rust with a result that it does not have.
struct Stop(u32);

fn stop(number: u32) -> ! {
    resume_unwind(Box::new(Stop(number))) // unlike panic!, prints nothing
}

/// The transport: answers each transport call of a call and writes it down.
pub struct Transport {
    pub target: Option<Target>,
    source: Source,
    budget: u32,
    count: u32,
    log: String,
    table: Option<Table>,
    /// The next transport call is an ABORT whose answer the engine ignores.
    abort_due: bool,
    /// A transport call failed other than by WAIT or FAULT.
    lost: bool,
}

impl Transport {
    fn make(&mut self, what: &str, transfer: Transfer) -> Result<u32, DapError> {
        // The Rust looks at the next entry of a table that has no end.
        if self.table.as_ref().is_some_and(Table::at_end) {
            stop(TABLE_END);
        }
        if self.count == self.budget {
            stop(SPENT);
        }
        self.count += 1;
        let _ = writeln!(self.log, "{} {what}", self.count);
        let answer = self.answer(transfer);
        self.note(transfer, answer);
        match answer.code {
            0 => Ok(answer.value),
            1 => Err(DapError::SwdError(answer.value as u8)),
            2 => Err(DapError::NotSupported),
            _ => Err(DapError::InternalError),
        }
    }

    fn answer(&mut self, transfer: Transfer) -> Answer {
        match &self.source {
            Source::Given(answers) => answers[self.count as usize - 1],
            Source::Line(faults) => {
                let found = faults.binary_search_by_key(&self.count, |f| f.at);
                let fault = found.ok().map(|i| faults[i]);
                self.target.as_mut().expect("a call without answers has a target").answer(transfer, fault)
            }
        }
    }

    /// What the session needs to know of an answer. An ABORT follows each
    /// transfer that failed other than by WAIT, and its own answer is ignored.
    fn note(&mut self, transfer: Transfer, answer: Answer) {
        let ignored = replace(&mut self.abort_due, false);
        let swd = |ack| answer.code == 1 && answer.value == ack;
        if answer.code != 0 && !ignored {
            self.lost |= !swd(2) && !swd(4);
            self.abort_due = transfer.is_some() && !swd(2);
        }
        if let (Some(table), Some((0xE, _)), 0) = (&mut self.table, transfer, answer.code) {
            table.take(answer.value);
        }
    }
}

impl DapTransport for Transport {
    fn capabilities(&self) -> DapCapabilities {
        DapCapabilities::SWD
    }
    fn connect(&mut self, port: ConnectPort, _: &DapConfig) -> Result<ActivePort, DapError> {
        assert!(port == ConnectPort::Swd);
        self.make("C", None).map(|_| ActivePort::Swd)
    }
    fn swj_sequence(&mut self, _: &DapConfig, count: usize, data: &[u8]) -> Result<(), DapError> {
        self.make(&format!("Q {count} {}", hex(data)), None).map(|_| ())
    }
    fn swd_transfer(&mut self, _: &DapConfig, request: SwdRequest, data: u32) -> Result<u32, DapError> {
        let request = request.bits();
        self.make(&format!("T {request:X} {data:08X}"), Some((request, data)))
    }
    fn swj_pins(&mut self, _: &DapConfig, _: SwjPins, _: SwjPins, _: u32) -> Result<SwjPins, DapError> {
        unreachable!("no call of a session drives pins")
    }
    fn swd_write_bits(&mut self, _: &DapConfig, _: usize, _: &[u8]) -> Result<(), DapError> {
        unreachable!("no call of a session writes bits")
    }
    fn swd_output_enable(&mut self, _: bool) -> Result<(), DapError> {
        unreachable!("no call of a session enables the output")
    }
}

/// What a call leaves behind.
pub struct Done {
    /// The lines of its transport calls.
    pub log: String,
    pub number: u32,
    pub value: u32,
    /// A transport call failed other than by WAIT or FAULT, and was not ignored.
    pub lost: bool,
}

/// The engine keeps what it remembers, and the target, from call to call.
pub struct Engine(ArmDebug<Transport>);

impl Engine {
    pub fn new() -> Self {
        let transport = Transport {
            target: None,
            source: Source::Given(vec![]),
            budget: 0,
            count: 0,
            log: String::new(),
            table: None,
            abort_due: false,
            lost: false,
        };
        Engine(ArmDebug::new(transport, DapConfig))
    }

    pub fn target(&mut self) -> &mut Option<Target> {
        &mut self.0.transport().target
    }

    pub fn remembered(&self) -> (u32, bool, u8) {
        self.0.remembered()
    }

    pub fn forget(&mut self) {
        self.0.forget();
    }

    /// Makes a call; `data` is the buffer of call 13, and gets the frame of call 23.
    pub fn call(&mut self, call: &Call, source: Source, data: &mut Vec<u8>) -> Done {
        let t = self.0.transport();
        t.budget = match &source {
            Source::Given(answers) => call.budget.min(answers.len() as u32),
            Source::Line(_) => call.budget,
        };
        t.source = source;
        t.table = (call.number == 22).then(Table::default);
        (t.count, t.abort_due, t.lost) = (0, false, false);
        let made = catch_unwind(AssertUnwindSafe(|| invoke(&mut self.0, call, data)));
        let (number, value) = match made {
            Ok(result) => ending(result),
            Err(payload) => match payload.downcast::<Stop>() {
                Ok(stop) => (stop.0, 0),
                Err(payload) => resume_unwind(payload),
            },
        };
        let t = self.0.transport();
        Done { log: take(&mut t.log), number, value, lost: t.lost }
    }
}

/// The method of a call, with its arguments in the Rust's order.
fn invoke(e: &mut ArmDebug<Transport>, call: &Call, data: &mut Vec<u8>) -> Result<u32, ArmError> {
    let a = &call.args[..];
    let four = |at| [word(a, at), word(a, at + 4), word(a, at + 8), word(a, at + 12)];
    let yes = |b: bool| b as u32;
    let none = |()| 0;
    match call.number {
        3 => e.connect_swd(),
        9 => e.read_word(word(a, 0)),
        10 => e.write_word(word(a, 0), word(a, 4)).map(none),
        13 => e.read_mem(word(a, 0), data).map(none),
        14 => e.write_mem(word(a, 0), &a[4..]).map(none),
        15 => e.debug_enable().map(none),
        16 => e.halt().map(none),
        17 => e.resume().map(none),
        18 => e.step().map(none),
        19 => e.is_halted().map(yes),
        20 => e.read_core_reg(a[0]),
        21 => e.write_core_reg(a[0], word(a, 1)).map(none),
        22 => e.rom_func_lookup([a[0], a[1]]).map(|f| f.unwrap_or(0xFFFF_FFFF)),
        23 => {
            let frame = e.start_function(word(a, 0), &four(4), word(a, 20), word(a, 24))?;
            *data = frame.words().iter().flat_map(|w| w.to_be_bytes()).collect();
            Ok(0)
        }
        24 => {
            let saved = words(&a[..32]).try_into().expect("eight words");
            e.finish_function(CallFrame::new(saved), word(a, 32))
        }
        25 => e.call_function(word(a, 0), &four(4), word(a, 20), word(a, 24), word(a, 28)),
        26 => e.hw_breakpoint_set(word(a, 0)).map(yes),
        27 => e.hw_breakpoint_clear(word(a, 0)).map(yes),
        28 => e.hw_breakpoint_at(word(a, 0)).map(yes),
        number => unreachable!("the session has no call {number}"),
    }
}

/// Result number and value.
fn ending(result: Result<u32, ArmError>) -> (u32, u32) {
    match result {
        Ok(value) => (0, value),
        Err(ArmError::Transfer(ack)) => (1, ack.into()),
        Err(ArmError::Wait) => (2, 0),
        Err(ArmError::NotSupported) => (3, 0),
        Err(ArmError::PowerUpTimeout) => (4, 0),
        Err(ArmError::CoreTimeout) => (5, 0),
        Err(ArmError::NoTarget) => (6, 0),
        Err(ArmError::Internal) => (7, 0),
    }
}
