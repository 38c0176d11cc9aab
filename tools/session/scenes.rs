//! Lists made to a plan: each call with every budget and fault, what given
//! answers make a session believe, widths of TAR's increment, and long calls.

use super::bench::{acts, put, Bench};
use super::rules::{memory, show, TARGET};
use super::{answer, call, in_turn, lines_of, write, List, Rng, CONNECT, ENOUGH};
use list::field::{BASE, D, SIZE, WIDTH};
use list::{Call, Record, CALLS, MAX_LIST};

/// How many transport calls call k makes.
fn made(records: &[Record], k: usize) -> u32 {
    let is_call = |line: &&String| line.split(' ').nth(1).is_some_and(|kind| "TCQ".contains(kind));
    lines_of(records, k).iter().filter(is_call).count() as u32
}

/// A list around one call: connect, the call with what comes before it, then
/// registers, memory, and a read that shows whether the session is open.
fn around(bench: &Bench, before: Option<Record>, tried: &Call) -> Vec<Record> {
    let mut records = bench.records();
    if tried.number != 3 {
        records.push(call(3, vec![]));
    }
    records.extend(before);
    records.push(Record::Call(tried.clone()));
    records.extend([Record::Registers, bench.shown()]);
    records.push(call(9, bench.base().to_be_bytes().to_vec()));
    records
}

/// All places up to n, or where they are many those at both ends and some between.
fn places(n: u32, rng: &mut Rng) -> Vec<u32> {
    if n <= 24 {
        return (1..=n).collect();
    }
    let mut some: Vec<u32> = (1..=12).chain(n - 5..=n).collect();
    some.extend((0..6).map(|_| 13 + rng.below(n as usize - 18) as u32));
    some
}

/// A call without faults, and the same with each budget, each number of answers,
/// and each fault at each place.
fn tried(number: u8, rng: &mut Rng) -> (Vec<List>, Vec<List>) {
    let (mut bases, mut others) = (Vec::new(), Vec::new());
    for variant in 0..6 {
        let bench = Bench::suited(number, rng);
        let plain = bench.call(number, rng);
        let records = around(&bench, None, &plain);
        let n = made(&records, if number == 3 { 1 } else { 2 });
        bases.push(write(&records));
        let places = if variant < 2 { places(n, rng) } else { vec![1 + rng.below(n as usize + 1) as u32] };
        for at in places {
            let budget = Call { budget: at - 1, ..plain.clone() };
            others.push(write(&around(&bench, None, &budget)));
            let given = Record::Answers(vec![answer(0, 3 << 16); at as usize]);
            others.push(write(&around(&bench, Some(given), &plain)));
            for act in acts() {
                let faults = Record::Faults(put(at, &act));
                others.push(write(&around(&bench, Some(faults), &plain)));
            }
        }
    }
    rng.shuffle(&mut others);
    (bases, others)
}

/// Given answers make the session believe what the target does not hold: another
/// bank is selected, and CSW does not increment.
pub fn believed(rng: &mut Rng) -> Vec<List> {
    let mut out = Vec::new();
    for select in [0, 0xF0, 0x0100_0000, 0x7] {
        for csw in [0x02, 0x12, 0x22, 0x32] {
            let bench = Bench::holding(select, csw, rng);
            let mut records = bench.records();
            records.extend([Record::Answers(CONNECT[..11].to_vec()), call(3, vec![])]);
            records.extend([Record::Answers(vec![answer(0, 1); 4]), call(9, vec![0; 4])]);
            for number in [13, 14, 9] {
                records.push(Record::Call(bench.call(number, rng)));
                records.extend([Record::Registers, bench.shown()]);
            }
            out.push(write(&records));
        }
    }
    out
}

/// Each call of a session without faults, and with budgets and faults, by call
/// in turn.
pub fn calls(rng: &mut Rng) -> (Vec<List>, Vec<List>) {
    let (bases, others): (Vec<_>, Vec<_>) = CALLS.iter().map(|(number, ..)| tried(*number, rng)).unzip();
    (in_turn(bases), in_turn(others))
}

/// Runs that end at a power of two, about each width of TAR's increment.
pub fn widths() -> Vec<List> {
    let mut out = Vec::new();
    for width in 10..=32 {
        for power in [10, width - 1, width, width + 1] {
            if !(10..=32).contains(&power) {
                continue;
            }
            let mut fields = TARGET;
            let base = ((1u64 << power) - 16) as u32;
            (fields[WIDTH], fields[BASE]) = (width, base);
            let word = base.to_be_bytes();
            let read = call(13, [&word[..], &[0, 15]].concat());
            let written = call(14, [&word[..], &[0xA5; 14]].concat());
            let records = [read, Record::Registers, written, Record::Registers, show(0, 16)];
            out.push(write(&[&[Record::Target(fields), call(3, vec![])], &records[..]].concat()));
        }
    }
    out
}

/// A list of exactly so many bytes that fills the memory again and again.
fn filled(length: usize) -> List {
    let mut fields = TARGET;
    fields[SIZE] = 65_536;
    let mut records = vec![Record::Target(fields)];
    let last = show(0, 4);
    let mut left = length - write(&[records[0].clone(), last.clone()]).len();
    while left > 0 {
        // A record of memory has seven bytes beside those of the memory.
        let bytes = if left > 50_000 { 40_000 } else { left - 7 };
        records.push(memory(0, &vec![left as u8; bytes]));
        left -= 7 + bytes;
    }
    records.push(last);
    write(&records)
}

/// Connects to a target that takes d reads to power up.
fn power_up(d: u32) -> List {
    let mut fields = TARGET;
    fields[D] = d;
    write(&[Record::Target(fields), call(3, vec![]), Record::Registers])
}

/// A call that polls 4,096 times in vain, or as often as there are answers.
fn polled(number: u8, args: &[u8], answers: usize) -> List {
    let given = Record::Answers(vec![answer(0, 0); answers]);
    let connect = [Record::Answers(CONNECT[..11].to_vec()), call(3, vec![])];
    write(&[&connect[..], &[given, call(number, args.to_vec())]].concat())
}

/// A bootrom whose table has no end, with so many of its entries in memory. The
/// table begins at its own address.
fn table_end(entries: usize, budget: u32) -> List {
    let mut fields = TARGET;
    (fields[BASE], fields[SIZE]) = (0x14, 4 * entries as u32);
    let table = [0x14u8, 0, 0xAD, 0xDE].repeat(entries);
    let mut records = vec![Record::Target(fields)];
    for (i, part) in table.chunks(40_000).enumerate() {
        records.push(memory(40_000 * i as u32, part));
    }
    let lookup = Record::Call(Call { number: 22, budget, args: b"IF".to_vec() });
    records.extend([call(3, vec![]), lookup, Record::Registers, call(9, vec![0, 0, 0, 0x14])]);
    write(&records)
}

/// Lists that take long: in bytes, in power-up, in polls, in a table.
pub fn long() -> Vec<List> {
    let mut out = vec![filled(MAX_LIST), filled(MAX_LIST + 1)];
    out.extend([1022, 1023, 1024, 1025].map(power_up));
    for (number, args) in [(16, &[][..]), (18, &[]), (20, &[7]), (21, &[7, 0, 0, 0, 1])] {
        out.extend([12_291, 12_292, 12_293, 12_294, 12_295, 12_296].map(|n| polled(number, args, n)));
    }
    out.push(polled(25, &[&[0x20; 28][..], &[0, 0, 0, 9]].concat(), 13_000));
    out.extend([16_384, 16_383].map(|entries| table_end(entries, ENOUGH)));
    out.extend([49_156, 49_155].map(|budget| table_end(16_384, budget)));
    out
}
