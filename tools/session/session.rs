//! The session over the unchanged Rust, and what `dapsession` must print for a
//! list of its calls.

mod engine;
mod target;

use driver::{length, word};
use engine::{Engine, Source, SPENT};
use list::{hex, Call, Record};
use std::io::{self, Write};
use target::Target;

const CONNECT: u8 = 3;
const RANGE: u32 = 8;
const ALIGN: u32 = 9;
const NO_SESSION: u32 = 10;
const CSW: u32 = 0x2300_0012;
const UNKNOWN: u32 = 0xFFFF_FFFF;
const MALFORMED: &[u8] = b"13 00000000\n";

/// The bytes from the call's address on, where Range looks at them.
fn span(call: &Call) -> usize {
    match call.number {
        13 => length(&call.args),
        14 => call.args.len() - 4,
        _ => 0,
    }
}

/// The refusals after NoSession: Align, then Range.
fn refusal(call: &Call) -> Option<u32> {
    let unit = match call.number {
        9 | 10 => 4,
        26..=28 => 2, // a breakpoint lies at a halfword
        _ => 1,
    };
    if unit > 1 && word(&call.args, 0) % unit != 0 {
        return Some(ALIGN);
    }
    let bytes = span(call) as u64;
    (bytes > 0 && u64::from(word(&call.args, 0)) + bytes >= 1 << 32).then_some(RANGE)
}

struct Session {
    engine: Engine,
    open: bool,
}

impl Session {
    /// The lines of transport calls, then number and value. A refusal makes no
    /// transport call and changes nothing.
    fn call(&mut self, call: &Call, source: Source, data: &mut Vec<u8>) -> (String, u32, u32) {
        let connect = call.number == CONNECT;
        let closed = (!self.open && !connect).then_some(NO_SESSION);
        if let Some(number) = closed.or_else(|| refusal(call)) {
            return (String::new(), number, 0);
        }
        if connect {
            self.engine.forget();
        }
        let done = self.engine.call(call, source, data);
        if done.lost || done.number == SPENT || (connect && done.number != 0) {
            self.open = false;
        } else if connect {
            self.open = true;
        }
        (done.log, done.number, done.value)
    }

    /// Whether the session is open, and what it remembers.
    fn state(&self) -> String {
        let (select, csw_known, apsel) = self.engine.remembered();
        let csw = if csw_known { CSW } else { UNKNOWN };
        format!("S {} {select:08X} {csw:08X} {apsel:02X}", self.open as u8)
    }
}

/// A list on its way.
struct Run<'a> {
    session: Session,
    calls: u32,
    /// What the last `F` or `A` says of the next call.
    next: Option<Source>,
    out: &'a mut dyn Write,
}

impl Run<'_> {
    fn target(&mut self) -> &mut Target {
        self.session.engine.target().as_mut().expect("the record needs a target")
    }

    fn record(&mut self, record: &Record) -> io::Result<()> {
        match record {
            Record::Target(fields) => *self.session.engine.target() = Some(Target::new(*fields)),
            Record::Memory { offset, bytes } => {
                self.target().memory(*offset, bytes.len()).copy_from_slice(bytes)
            }
            Record::Faults(faults) => self.next = Some(Source::Line(faults.clone())),
            Record::Answers(answers) => self.next = Some(Source::Given(answers.clone())),
            Record::Call(call) => return self.call(call),
            Record::Show { offset, length } => {
                let bytes = hex(self.target().memory(*offset, (*length).into()));
                return writeln!(self.out, "{}", format!("X {bytes}").trim_end());
            }
            Record::Registers => {
                let registers = self.target().registers();
                return writeln!(self.out, "{registers}");
            }
        }
        Ok(())
    }

    fn call(&mut self, call: &Call) -> io::Result<()> {
        let source = self.next.take().unwrap_or(Source::Line(vec![]));
        let read = call.number == 13;
        let mut data = if read { vec![0; length(&call.args)] } else { vec![] };
        let (log, number, value) = self.session.call(call, source, &mut data);
        self.calls += 1;
        write!(self.out, "# {}\n{log}{number} {value:08X}\n", self.calls)?;
        if read || (call.number == 23 && number == 0) {
            writeln!(self.out, "{}", format!("D {}", hex(&data)).trim_end())?;
        }
        writeln!(self.out, "{}", self.session.state())
    }
}

/// Prints what `dapsession` must print for a list.
pub fn print(list: &[u8], out: &mut dyn Write) -> io::Result<()> {
    let Ok(records) = list::parse(list) else {
        return out.write_all(MALFORMED);
    };
    let session = Session { engine: Engine::new(), open: false };
    let mut run = Run { session, calls: 0, next: None, out };
    records.iter().try_for_each(|record| run.record(record))
}

/// What `dapsession` must print for a list.
pub fn text(list: &[u8]) -> Vec<u8> {
    let mut out = Vec::new();
    print(list, &mut out).expect("writing to memory does not fail");
    out
}
