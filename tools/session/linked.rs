//! `linked` prints for the list on standard input what `dapsession` prints, with the session of the crate in `rust/`: the library as
//! programs link it, over the reference's target and line. The crate does not show what a session remembers; SELECT and CSW are
//! printed as the line saw them, written and answered Ok since the last connect.

mod target;

use bazkondur::rust_dap::*;
use bazkondur::{CallFrame, Session, SessionError};
use list::{hex, Answer, Call, Fault, Record};
use std::fmt::Write as _;
use std::io::{self, Read, Write};
use target::{Target, Transfer};

const CONNECT: u8 = 3;
const UNKNOWN: u32 = 0xFFFF_FFFF;

struct Line {
    target: Option<Target>,
    faults: Vec<Fault>,
    given: Option<Vec<Answer>>,
    count: u32,
    log: String,
    select: u32,
    csw: u32,
}

impl Line {
    fn target(&mut self) -> &mut Target {
        self.target.as_mut().expect("the list has a target")
    }

    fn make(&mut self, what: &str, transfer: Transfer) -> Result<u32, DapError> {
        self.count += 1;
        let _ = writeln!(self.log, "{} {what}", self.count);
        let fault = self.faults.binary_search_by_key(&self.count, |f| f.at).ok().map(|i| self.faults[i]);
        let answer = match &self.given {
            Some(answers) => answers[self.count as usize - 1],
            None => self.target().answer(transfer, fault),
        };
        match (transfer, answer.code) {
            (Some((0x8, data)), 0) => self.select = data,
            (Some((0x1, data)), 0) => self.csw = data,
            _ => {}
        }
        match answer.code {
            0 => Ok(answer.value),
            1 => Err(DapError::SwdError(answer.value as u8)),
            2 => Err(DapError::NotSupported),
            _ => Err(DapError::InternalError),
        }
    }
}

impl DapTransport for Line {
    fn capabilities(&self) -> DapCapabilities {
        DapCapabilities::SWD
    }
    fn connect(&mut self, _: ConnectPort, _: &DapConfig) -> Result<ActivePort, DapError> {
        self.make("C", None).map(|_| ActivePort::Swd)
    }
    fn swj_sequence(&mut self, _: &DapConfig, count: usize, data: &[u8]) -> Result<(), DapError> {
        self.make(&format!("Q {count} {}", hex(data)), None).map(drop)
    }
    fn swd_transfer(&mut self, _: &DapConfig, request: SwdRequest, data: u32) -> Result<u32, DapError> {
        let request = request.bits();
        self.make(&format!("T {request:X} {data:08X}"), Some((request, data)))
    }
    fn swj_pins(&mut self, _: &DapConfig, _: SwjPins, _: SwjPins, _: u32) -> Result<SwjPins, DapError> {
        unreachable!("no call of a session drives pins")
    }
}

/// The method of a call. `data` is the buffer of call 13, and gets the frame of call 23.
fn invoke(s: &mut Session<Line>, call: &Call, data: &mut Vec<u8>) -> Result<u32, SessionError> {
    let a = &call.args[..];
    let w = |i: usize| u32::from_be_bytes(a[4 * i..4 * i + 4].try_into().expect("a word"));
    let four = || [w(1), w(2), w(3), w(4)];
    match call.number {
        CONNECT => s.connect_swd(),
        9 => s.read_word(w(0)),
        10 => s.write_word(w(0), w(1)).map(|()| 0),
        13 => s.read_mem(w(0), data).map(|()| 0),
        14 => s.write_mem(w(0), &a[4..]).map(|()| 0),
        15 => s.debug_enable().map(|()| 0),
        16 => s.halt().map(|()| 0),
        17 => s.resume().map(|()| 0),
        18 => s.step().map(|()| 0),
        19 => s.is_halted().map(u32::from),
        20 => s.read_core_reg(a[0]),
        21 => s.write_core_reg(a[0], u32::from_be_bytes([a[1], a[2], a[3], a[4]])).map(|()| 0),
        22 => s.rom_func_lookup([a[0], a[1]]).map(|f| f.unwrap_or(0xFFFF_FFFF)),
        23 => {
            let f = s.start_function(w(0), &four(), w(5), w(6))?;
            let frame = [f.r0, f.r1, f.r2, f.r3, f.sp, f.lr, f.pc, f.xpsr];
            *data = frame.iter().flat_map(|word| word.to_be_bytes()).collect();
            Ok(0)
        }
        24 => {
            let [r0, r1, r2, r3, sp, lr, pc, xpsr] = std::array::from_fn(w);
            s.finish_function(CallFrame { r0, r1, r2, r3, sp, lr, pc, xpsr }, w(8))
        }
        25 => s.call_function(w(0), &four(), w(5), w(6), w(7)),
        26 => s.hw_breakpoint_set(w(0)).map(u32::from),
        27 => s.hw_breakpoint_clear(w(0)).map(u32::from),
        28 => s.hw_breakpoint_at(w(0)).map(u32::from),
        number => unreachable!("the session has no call {number}"),
    }
}

/// The lines of a call behind its number.
fn run(s: &mut Session<Line>, call: &Call) -> String {
    let line = s.transport();
    line.count = 0;
    if call.number == CONNECT {
        (line.select, line.csw) = (UNKNOWN, UNKNOWN);
    }
    let given = line.given.as_ref().map_or(u32::MAX, |answers| answers.len() as u32);
    s.set_budget(call.budget.min(given));
    let read = call.number == 13;
    let mut data = if read { vec![0; u16::from_be_bytes([call.args[4], call.args[5]]).into()] } else { vec![] };
    let (number, value) = match invoke(s, call, &mut data) {
        Ok(value) => (0, value),
        Err(e @ SessionError::Arm(bazkondur::ArmError::Transfer(ack))) => (e.number(), ack.into()),
        Err(e) => (e.number(), 0),
    };
    let (open, made) = (s.is_open() as u8, s.made());
    let line = s.transport();
    assert_eq!(made, line.count);
    (line.faults, line.given) = (vec![], None);
    let mut text = std::mem::take(&mut line.log) + &format!("{number} {value:08X}\n");
    if read || (call.number == 23 && number == 0) {
        text += &format!("{}\n", format!("D {}", hex(&data)).trim_end());
    }
    text + &format!("S {open} {:08X} {:08X} 00\n", line.select, line.csw)
}

fn main() -> io::Result<()> {
    let mut list = Vec::new();
    io::stdin().read_to_end(&mut list)?;
    let mut out = io::BufWriter::new(io::stdout().lock());
    let Ok(records) = list::parse(&list) else {
        return out.write_all(b"13 00000000\n");
    };
    let line = Line { target: None, faults: vec![], given: None, count: 0, log: String::new(), select: UNKNOWN, csw: UNKNOWN };
    let mut s = Session::new(line, DapConfig);
    let mut calls = 0;
    for record in records {
        let line = s.transport();
        match record {
            Record::Target(fields) => line.target = Some(Target::new(fields)),
            Record::Memory { offset, bytes } => line.target().memory(offset, bytes.len()).copy_from_slice(&bytes),
            Record::Faults(faults) => line.faults = faults,
            Record::Answers(answers) => line.given = Some(answers),
            Record::Show { offset, length } => {
                let bytes = hex(line.target().memory(offset, length.into()));
                writeln!(out, "{}", format!("X {bytes}").trim_end())?;
            }
            Record::Registers => writeln!(out, "{}", line.target().registers())?,
            Record::Call(call) => {
                calls += 1;
                write!(out, "# {calls}\n{}", run(&mut s, &call))?;
            }
        }
    }
    Ok(())
}
