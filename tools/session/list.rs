//! Lists of session calls as data: their records, and the rules that they keep.
//! A list is a version byte, then records of a 2-byte length and their bytes;
//! numbers are big-endian.

/// An answer of the transport: code 0 Ok, 1 SwdError, 2 NotSupported, 3 other.
#[derive(Clone, Copy, PartialEq)]
pub struct Answer {
    pub code: u8,
    pub value: u32,
}

/// The big-endian word at a place.
fn word(bytes: &[u8], at: usize) -> u32 {
    u32::from_be_bytes(bytes[at..at + 4].try_into().unwrap())
}

pub const VERSION: u8 = 3;
pub const MAX_LIST: usize = 1_048_576;
const MAX_MEMORY: u32 = 65_536;

/// The fields of a target in the order of its record, and how many bytes each
/// has there.
pub const FIELDS: [(&str, usize); 12] = [
    ("dpidr", 4),
    ("d", 4),
    ("width", 1),
    ("select", 4),
    ("requests", 1),
    ("owed", 4),
    ("sticky", 1),
    ("rdbuff", 4),
    ("csw", 4),
    ("tar", 4),
    ("base", 4),
    ("size", 4),
];

pub type Fields = [u32; FIELDS.len()];

/// The places of some fields in that order.
pub mod field {
    pub const DPIDR: usize = 0;
    pub const D: usize = 1;
    pub const WIDTH: usize = 2;
    pub const SELECT: usize = 3;
    pub const REQUESTS: usize = 4;
    pub const STICKY: usize = 6;
    pub const CSW: usize = 8;
    pub const BASE: usize = 10;
    pub const SIZE: usize = 11;
}

/// The calls of a session by number and name, and the arguments of each: a word,
/// a number (a word, too), a byte, a length of two bytes, a code of two bytes,
/// and last the slice `*` of bytes.
pub const CALLS: [(u8, &str, &str); 19] = [
    (3, "connect", ""),
    (9, "read_word", "w"),
    (10, "write_word", "ww"),
    (13, "read_mem", "wl"),
    (14, "write_mem", "w*"),
    (15, "debug_enable", ""),
    (16, "halt", ""),
    (17, "resume", ""),
    (18, "step", ""),
    (19, "is_halted", ""),
    (20, "read_core_reg", "b"),
    (21, "write_core_reg", "bw"),
    (22, "rom_func_lookup", "c"),
    (23, "start_function", "wwwwwww"),
    (24, "finish_function", "wwwwwwwwn"),
    (25, "call_function", "wwwwwwwn"),
    (26, "hw_breakpoint_set", "w"),
    (27, "hw_breakpoint_clear", "w"),
    (28, "hw_breakpoint_at", "w"),
];

/// How many bytes an argument has; a slice has any number.
pub fn argument_bytes(kind: char) -> usize {
    match kind {
        'b' => 1,
        'l' | 'c' => 2,
        'w' | 'n' => 4,
        _ => 0,
    }
}

pub const WAIT: u8 = 1;
pub const LOST_UNDELIVERED: u8 = 2;
pub const LOST_DELIVERED: u8 = 3;

/// What the line does at a transport call, counted from 1.
#[derive(Clone, Copy)]
pub struct Fault {
    pub at: u32,
    pub act: u8,
    /// 1 SwdError, 2 NotSupported, 3 other: an answer's codes.
    pub error: u8,
    pub ack: u8,
}

#[derive(Clone)]
pub struct Call {
    pub number: u8,
    pub budget: u32,
    pub args: Vec<u8>,
}

#[derive(Clone)]
pub enum Record {
    Target(Fields),
    Memory { offset: u32, bytes: Vec<u8> },
    Faults(Vec<Fault>),
    Answers(Vec<Answer>),
    Call(Call),
    Show { offset: u32, length: u16 },
    Registers,
}

impl Record {
    /// The bytes of a record, its kind first.
    pub fn bytes(&self) -> Vec<u8> {
        let be = u32::to_be_bytes;
        match self {
            Record::Target(fields) => {
                let field = |(value, (_, size)): (&u32, (&str, usize))| be(*value)[4 - size..].to_vec();
                [vec![b'T'], fields.iter().zip(FIELDS).flat_map(field).collect()].concat()
            }
            Record::Memory { offset, bytes } => [b"M", &be(*offset)[..], bytes].concat(),
            Record::Faults(faults) => {
                let entry = |f: &Fault| [&be(f.at)[..], &[f.act, f.error, f.ack]].concat();
                [vec![b'F'], faults.iter().flat_map(entry).collect()].concat()
            }
            Record::Answers(answers) => {
                let entry = |a: &Answer| [&[a.code][..], &be(a.value)].concat();
                [vec![b'A'], answers.iter().flat_map(entry).collect()].concat()
            }
            Record::Call(c) => [&[b'C', c.number], &be(c.budget)[..], &c.args].concat(),
            Record::Show { offset, length } => [b"X", &be(*offset)[..], &length.to_be_bytes()].concat(),
            Record::Registers => vec![b'R'],
        }
    }

    /// The record that the bytes stand for.
    fn read(bytes: &[u8]) -> Result<Record, &'static str> {
        let (kind, rest) = bytes.split_first().ok_or("a record of length 0")?;
        match kind {
            b'T' => target(rest),
            b'M' if rest.len() >= 4 => Ok(Record::Memory { offset: word(rest, 0), bytes: rest[4..].to_vec() }),
            b'F' if rest.len() % 7 == 0 => faults(rest),
            b'A' if rest.len() % 5 == 0 => answers(rest),
            b'C' if rest.len() >= 5 => call(rest),
            b'X' if rest.len() == 6 => {
                Ok(Record::Show { offset: word(rest, 0), length: u16::from_be_bytes([rest[4], rest[5]]) })
            }
            b'R' if rest.is_empty() => Ok(Record::Registers),
            b'M' | b'F' | b'A' | b'C' | b'X' | b'R' => Err("a length that the kind of record does not have"),
            _ => Err("no such kind of record"),
        }
    }
}

fn require(good: bool, rule: &'static str) -> Result<(), &'static str> {
    if good { Ok(()) } else { Err(rule) }
}

fn target(mut rest: &[u8]) -> Result<Record, &'static str> {
    let all: usize = FIELDS.iter().map(|(_, bytes)| bytes).sum();
    require(rest.len() == all, "a length that a target does not have")?;
    let fields = FIELDS.map(|(_, bytes)| {
        let (field, after) = rest.split_at(bytes);
        rest = after;
        field.iter().fold(0, |value, &byte| value << 8 | u32::from(byte))
    });
    let [_, _, width, _, requests, _, sticky, _, csw, _, base, size] = fields;
    require((10..=32).contains(&width), "the width is 10 to 32")?;
    require(requests <= 3, "the requests have two bits")?;
    require(sticky <= 1, "sticky is 0 or 1")?;
    require(csw % 8 == 2, "CSW's size field is 2")?;
    require(base % 4 == 0 && size % 4 == 0, "base and size are multiples of 4")?;
    require(size <= MAX_MEMORY, "the size is at most 65536")?;
    require(u64::from(base) + u64::from(size) <= 1 << 32, "the memory ends at most at 2^32")?;
    Ok(Record::Target(fields))
}

fn faults(rest: &[u8]) -> Result<Record, &'static str> {
    let mut last = 0;
    let mut faults = Vec::new();
    for entry in rest.chunks_exact(7) {
        let f = Fault { at: word(entry, 0), act: entry[4], error: entry[5], ack: entry[6] };
        require(f.at > last, "transport calls count from 1 and rise")?;
        require((WAIT..=LOST_DELIVERED).contains(&f.act), "no such act of the line")?;
        if f.act != WAIT {
            require((1..=3).contains(&f.error), "no such error")?;
            require(f.error != 1 || !matches!(f.ack, 2 | 4), "a loss is not shown as ack 2 or 4")?;
        }
        last = f.at;
        faults.push(f);
    }
    Ok(Record::Faults(faults))
}

fn answers(rest: &[u8]) -> Result<Record, &'static str> {
    let mut answers = Vec::new();
    for entry in rest.chunks_exact(5) {
        let a = Answer { code: entry[0], value: word(entry, 1) };
        require(a.code <= 3, "no such answer")?;
        require(a.code != 1 || a.value <= 255, "an ack is at most 255")?;
        answers.push(a);
    }
    Ok(Record::Answers(answers))
}

fn call(rest: &[u8]) -> Result<Record, &'static str> {
    let call = Call { number: rest[0], budget: word(rest, 1), args: rest[5..].to_vec() };
    let row = CALLS.iter().find(|(number, ..)| *number == call.number);
    let (.., kinds) = row.ok_or("the session has no such call")?;
    let least: usize = kinds.chars().map(argument_bytes).sum();
    let exact = call.args.len() == least || kinds.ends_with('*') && call.args.len() > least;
    require(exact, "arguments of a length that the call does not have")?;
    Ok(Record::Call(call))
}

/// A rule that a list breaks, and at which record, from 0 on.
pub struct Broken {
    pub record: usize,
    pub rule: &'static str,
}

/// What is known of a list so far, to judge the order of its records.
#[derive(Default)]
struct Order {
    /// The size of the target's memory.
    target: Option<u32>,
    call_seen: bool,
    /// The place of an `F` or `A` that waits for its call, and whether it is an `A`.
    waiting: Option<(usize, bool)>,
}

impl Order {
    fn size(&self) -> Result<u32, &'static str> {
        self.target.ok_or("this record needs a target")
    }

    fn inside(&self, offset: u32, length: usize) -> Result<(), &'static str> {
        let end = u64::from(offset) + length as u64;
        require(end <= self.size()?.into(), "this is beyond the memory's size")
    }

    fn wait(&mut self, place: usize, answers: bool) -> Result<(), &'static str> {
        require(self.waiting.is_none(), "a call has faults (F) or answers (A), once")?;
        self.waiting = Some((place, answers));
        Ok(())
    }

    /// Judges the next record, at its place from 0 on.
    fn next(&mut self, record: &Record, place: usize) -> Result<(), &'static str> {
        match record {
            Record::Target(fields) => {
                require(place == 0, "a target is the first record")?;
                self.target = Some(fields[field::SIZE]);
            }
            Record::Memory { offset, bytes } => {
                self.inside(*offset, bytes.len())?;
                require(!self.call_seen, "memory is given before the first call")?;
            }
            Record::Faults(_) => {
                self.size()?;
                self.wait(place, false)?;
            }
            Record::Answers(_) => self.wait(place, true)?,
            Record::Call(_) => {
                let answered = self.waiting.take().is_some_and(|(_, answers)| answers);
                require(answered || self.target.is_some(), "without a target a call needs its answers")?;
                self.call_seen = true;
            }
            Record::Show { offset, length } => self.inside(*offset, (*length).into())?,
            Record::Registers => drop(self.size()?),
        }
        Ok(())
    }

    /// The next record, if it keeps the rules, and what follows it.
    fn take<'a>(&mut self, rest: &'a [u8], place: usize) -> Result<(Record, &'a [u8]), &'static str> {
        let (bytes, after) = split(rest)?;
        let record = Record::read(bytes)?;
        self.next(&record, place)?;
        Ok((record, after))
    }
}

/// The next record's bytes and what follows them.
fn split(bytes: &[u8]) -> Result<(&[u8], &[u8]), &'static str> {
    let (head, rest) = bytes.split_first_chunk::<2>().ok_or("a byte is left over")?;
    let length = u16::from_be_bytes(*head).into();
    rest.split_at_checked(length).ok_or("the record is cut short")
}

/// The records of a list that keeps all rules.
pub fn parse(bytes: &[u8]) -> Result<Vec<Record>, Broken> {
    let mut records = Vec::new();
    let mut order = Order::default();
    let mut rest = match bytes {
        [VERSION, rest @ ..] if bytes.len() <= MAX_LIST => rest,
        [VERSION, ..] => return Err(Broken { record: 0, rule: "the list is too long" }),
        _ => return Err(Broken { record: 0, rule: "a list starts with the version byte 3" }),
    };
    while !rest.is_empty() {
        let record = records.len();
        let (next, after) = order.take(rest, record).map_err(|rule| Broken { record, rule })?;
        records.push(next);
        rest = after;
    }
    match order.waiting {
        Some((record, _)) => Err(Broken { record, rule: "no call follows these faults (F) or answers (A)" }),
        None => Ok(records),
    }
}

/// The bytes of a list. A record of more than 65,535 bytes is none; its place
/// is the error.
pub fn write(records: &[Record]) -> Result<Vec<u8>, usize> {
    let mut out = vec![VERSION];
    for (i, record) in records.iter().enumerate() {
        let bytes = record.bytes();
        out.extend(u16::try_from(bytes.len()).map_err(|_| i)?.to_be_bytes());
        out.extend(bytes);
    }
    Ok(out)
}

pub fn hex(bytes: &[u8]) -> String {
    bytes.iter().map(|b| format!("{b:02X}")).collect()
}
