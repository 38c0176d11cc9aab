//! Lists that break each rule of the format, or only just keep it.

use super::{answer, call, write, List, CONNECT};
use list::field::{BASE, CSW, REQUESTS, SIZE, STICKY, WIDTH};
use list::{Fault, Fields, Record, CALLS, VERSION};

/// A target whose fields break no rule, with 16 bytes of memory.
pub const TARGET: Fields = [0x2BA0_1477, 0, 10, 0, 0, 0, 0, 0, 2, 0, 0x2000_0000, 16];

fn target() -> Record {
    Record::Target(TARGET)
}

/// A read, which a session that is not open refuses.
fn read() -> Record {
    call(9, vec![0x20, 0, 0, 0])
}

fn fault(at: u32, act: u8, error: u8, ack: u8) -> Fault {
    Fault { at, act, error, ack }
}

pub fn memory(offset: u32, bytes: &[u8]) -> Record {
    Record::Memory { offset, bytes: bytes.to_vec() }
}

pub fn show(offset: u32, length: u16) -> Record {
    Record::Show { offset, length }
}

/// A record of these bytes behind other records.
fn raw(before: &[Record], bytes: &[u8]) -> List {
    let mut list = write(before);
    list.extend((bytes.len() as u16).to_be_bytes());
    list.extend(bytes);
    list
}

/// A list with a record of each kind.
fn full() -> Vec<Record> {
    vec![
        target(),
        memory(4, &[1, 2, 3, 4]),
        Record::Faults(vec![fault(1, 3, 1, 7), fault(2, 1, 0, 0)]),
        Record::Registers,
        call(3, vec![]),
        show(4, 4),
        Record::Answers(vec![answer(0, 0), answer(1, 4)]),
        read(),
    ]
}

/// Version, lengths, kinds, and every place to cut a list off.
fn frames() -> Vec<List> {
    let good = write(&full());
    let mut out: Vec<List> = (0..=good.len()).map(|cut| good[..cut].to_vec()).collect();
    out.extend([0, 1, 2, 4, 255].map(|version| [&[version], &good[1..]].concat()));
    let cut: [&[u8]; 5] = [&[0], &[0, 0], &[0, 1], &[0, 2, b'R'], &[255, 255, b'R']];
    let whole: [&[u8]; 2] = [&[0, 1, b'R'], &[0, 2, b'R', 0]];
    out.extend(cut.iter().chain(&whole).map(|tail| [&good, *tail].concat()));
    out.extend([[VERSION, 0, 0].to_vec(), [VERSION, 0].to_vec(), [VERSION, 1].to_vec()]);
    for kind in [0, 1, 3, b'S', b'D', b'B', b't', b'm', b'f', b'a', b'c', b'x', b'r', 0xFF] {
        out.push(raw(&[target()], &[kind]));
    }
    // each kind with a byte less or a byte more
    for (i, record) in full().iter().enumerate() {
        let bytes = record.bytes();
        out.push(raw(&full()[..i], &bytes[..bytes.len() - 1]));
        out.push(raw(&full()[..i], &[&bytes[..], &[0]].concat()));
    }
    out
}

fn targets() -> Vec<List> {
    let with = |changes: &[(usize, u32)]| {
        let mut fields = TARGET;
        changes.iter().for_each(|&(place, value)| fields[place] = value);
        write(&[Record::Target(fields), Record::Registers])
    };
    let mut out = Vec::new();
    out.extend([0, 9, 10, 11, 31, 32, 33, 255].map(|width| with(&[(WIDTH, width)])));
    out.extend([0, 1, 2, 3, 4, 7, 128, 255].map(|requests| with(&[(REQUESTS, requests)])));
    out.extend([0, 1, 2, 128, 255].map(|sticky| with(&[(STICKY, sticky)])));
    out.extend((0..16).chain([0xFFFF_FFFA, 0xFFFF_FFFF]).map(|csw| with(&[(CSW, csw)])));
    for base in [0, 1, 2, 3, 4, 0xFFFF_FFEC, 0xFFFF_FFF0, 0xFFFF_FFF4, 0xFFFF_FFFC] {
        out.extend([0, 16].map(|size| with(&[(BASE, base), (SIZE, size)])));
    }
    for size in [1, 2, 3, 4, 6, 65_532, 65_536, 65_540, 0xFFFF_FFFC] {
        out.extend([0, 0x2000_0000, 0xFFFF_0000].map(|base| with(&[(BASE, base), (SIZE, size)])));
    }
    out.push(write(&[target(), target()]));
    out.push(write(&[Record::Answers(vec![]), target(), read()]));
    out.push(write(&[Record::Answers(vec![]), read(), target()]));
    out
}

/// `M` and `X`: inside the memory, before the first call, after the target.
fn memories() -> Vec<List> {
    let behind = |records: &[Record]| write(&[&[target()], records].concat());
    let inside = [(0, 0), (0, 15), (0, 16), (15, 1), (16, 0)];
    let outside = [(0, 17), (15, 2), (16, 1), (17, 0), (0xFFFF_FFFF, 1)];
    let mut out = vec![write(&[memory(0, &[])]), write(&[show(0, 0)]), write(&[Record::Registers])];
    for (offset, length) in inside.into_iter().chain(outside) {
        out.push(behind(&[memory(offset, &vec![0xA5; length]), show(0, 16)]));
        out.push(behind(&[show(offset, length as u16)]));
    }
    out.push(behind(&[show(0xFFFF_FFFF, 0xFFFF)]));
    out.push(behind(&[memory(0, &[1; 8]), memory(4, &[2; 8]), show(0, 16)]));
    out.push(behind(&[show(0, 4), memory(0, &[1; 4]), show(0, 4)]));
    out.push(behind(&[read(), memory(0, &[1])]));
    out.push(behind(&[Record::Faults(vec![]), memory(0, &[1]), read(), show(0, 4)]));
    out.push(behind(&[Record::Answers(vec![]), read(), show(0, 16), Record::Registers]));
    out
}

fn faults() -> Vec<List> {
    let with = |faults: Vec<Fault>| write(&[target(), Record::Faults(faults), read()]);
    let mut out: Vec<List> = (0..=4).chain([255]).map(|act| with(vec![fault(1, act, 1, 7)])).collect();
    for act in [1, 2, 3] {
        out.extend([0, 1, 2, 3, 4, 255].map(|error| with(vec![fault(1, act, error, 0)])));
        for ack in [0, 1, 2, 3, 4, 5, 255] {
            out.extend([1, 2, 3].map(|error| with(vec![fault(1, act, error, ack)])));
        }
    }
    let rising: [&[u32]; 3] = [&[], &[1, 2, 3], &[1, 0xFFFF_FFFF]];
    let falling: [&[u32]; 5] = [&[0], &[1, 1], &[2, 1], &[1, 2, 2], &[0xFFFF_FFFF, 0]];
    let row = |row: &&[u32]| with(row.iter().map(|&at| fault(at, 1, 0, 0)).collect());
    out.extend(rising.iter().chain(&falling).map(row));
    out.push(write(&[Record::Faults(vec![]), read()]));
    out
}

fn answers() -> Vec<List> {
    let with = |answers: Vec<_>| write(&[Record::Answers(answers), read()]);
    let values = [0, 255, 256, 0x0100_0004, 0xFFFF_FFFF];
    let mut out = vec![with(vec![]), with(vec![answer(0, 0); 9])];
    for code in [0, 1, 2, 3, 4, 255] {
        out.extend(values.map(|value| with(vec![answer(code, value)])));
        out.push(with([&CONNECT[..], &[answer(code, 256)]].concat()));
    }
    out
}

/// What may stand before a call, and between it and its `F` or `A`.
fn orders() -> Vec<List> {
    let (f, a) = (Record::Faults(vec![]), Record::Answers(vec![]));
    let (r, x) = (Record::Registers, show(0, 4));
    let between = [vec![], vec![r.clone()], vec![x.clone()], vec![x, r, show(0, 0)]];
    let mut out = vec![write(&[read()]), write(&[a.clone(), read(), read()]), write(&[target()]), write(&[])];
    for first in [&f, &a] {
        out.push(write(&[target(), first.clone()]));
        out.push(write(&[target(), read(), first.clone()]));
        out.push(write(&[target(), first.clone(), Record::Registers]));
        for second in [&f, &a] {
            out.push(write(&[target(), first.clone(), second.clone(), read()]));
            out.push(write(&[target(), first.clone(), Record::Registers, second.clone(), read()]));
            out.push(write(&[target(), first.clone(), read(), second.clone(), read()]));
        }
        for records in &between {
            out.push(write(&[&[target(), first.clone()], &records[..], &[read()]].concat()));
        }
    }
    out.push(write(&[a.clone(), read(), Record::Registers]));
    out.push(write(&[a.clone(), Record::Registers, read()]));
    out.push(write(&[a.clone(), a, read()]));
    out
}

/// Call numbers, and arguments with up to a word too little or too much.
fn calls() -> Vec<List> {
    let with = |number, args| write(&[Record::Answers(vec![]), call(number, args)]);
    let mut out = Vec::new();
    for number in (0..=46).chain([127, 128, 255]).filter(|n| !CALLS.iter().any(|(call, ..)| call == n)) {
        out.extend([0, 4].map(|n| with(number, vec![0; n])));
    }
    for (number, _, kinds) in CALLS {
        let right: usize = kinds.chars().map(list::argument_bytes).sum();
        let near = [right.checked_sub(4), right.checked_sub(1), Some(right), Some(right + 1), Some(right + 4)];
        out.extend(near.into_iter().flatten().map(|n| with(number, vec![0; n])));
    }
    // a record of a call is its kind, its number and its budget at least
    out.extend((1..=6).map(|n| raw(&[Record::Answers(vec![])], &[b'C', 3, 0, 0, 0, 0][..n])));
    out
}

/// Every rule of the format, broken and only just kept.
pub fn rules() -> Vec<List> {
    [frames(), targets(), memories(), faults(), answers(), orders(), calls()].concat()
}
