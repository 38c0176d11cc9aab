//! Random lists, and damaged ones.

use super::bench::{acts, put, Bench};
use super::{answer, call, lines_of, write, List, Rng, CONNECT};
use list::{Answer, Fault, Record, CALLS};

/// The frame that call k, number 23, handed over.
fn frame(records: &[Record], k: usize) -> Option<Vec<u8>> {
    let lines = lines_of(records, k);
    let digits = lines.iter().find_map(|line| line.strip_prefix("D "))?;
    let byte = |i| u8::from_str_radix(&digits[i..i + 2], 16).expect("two digits");
    Some((0..digits.len()).step_by(2).map(byte).collect())
}

/// An Ok answer that lets a call go on, or one of another kind.
fn any_answer(rng: &mut Rng) -> Answer {
    match rng.below(16) {
        0 => answer(1, rng.pick(&[0, 1, 2, 2, 4, 4, 7, 255])),
        1 => answer(rng.pick(&[2, 3]), rng.pick(&[0, 1, 0xFFFF_FFFF])),
        2..=5 => answer(0, rng.word()),
        6..=9 => answer(0, rng.pick(&[0, 0, 0x20, 0x1000_0020, 0x4000_0101, 0x0001_0014])),
        _ => answer(0, 3 << 16), // halted, and registers ready
    }
}

/// Answers of any number; for a connect mostly those of one that succeeds.
fn any_answers(number: u8, rng: &mut Rng) -> Record {
    let mut answers = CONNECT[..rng.pick(&[11, 11, 11, 12])].to_vec();
    if number != 3 || rng.one_in(8) {
        let most = rng.pick(&[4, 8, 40, 400]);
        answers = (0..rng.below(most)).map(|_| any_answer(rng)).collect();
        if rng.one_in(2) {
            answers.retain(|a| a.code == 0);
        }
    } else if rng.one_in(8) {
        let at = rng.below(answers.len());
        answers[at] = any_answer(rng);
    }
    Record::Answers(answers)
}

/// Up to three faults that do not overlap.
fn any_faults(rng: &mut Rng) -> Record {
    let all = acts();
    let mut faults: Vec<Fault> = Vec::new();
    for _ in 0..rng.below(4) {
        let last = faults.last().map_or(0, |f| f.at);
        let reach = rng.pick(&[3, 12, 40]);
        let at = last + 1 + rng.below(reach) as u32;
        faults.extend(put(at, &all[rng.below(all.len())]));
    }
    Record::Faults(faults)
}

/// Call k of a random list, with what stands before it.
fn step(records: &mut Vec<Record>, k: usize, bench: &Option<Bench>, rng: &mut Rng) {
    let own = bench.as_ref().filter(|_| !rng.one_in(4)).map_or(&[][..], Bench::calls);
    let any = CALLS[rng.below(CALLS.len())].0;
    let number = if k == 1 || rng.one_in(5) { 3 } else { rng.pick(&[own, &[any]].concat()) };
    let mut next = match bench {
        Some(bench) => bench.call(number, rng),
        None => Bench::suited(number, rng).call(number, rng),
    };
    if rng.one_in(6) {
        next.budget = rng.pick(&[0, 1, 3, 4, 5, 11, 12, 13, 30, 200]);
    }
    if bench.is_none() || rng.one_in(6) {
        records.push(any_answers(number, rng));
    } else if rng.one_in(3) {
        records.push(any_faults(rng));
    }
    if let (Some(bench), true) = (bench, rng.one_in(4)) {
        records.push(if rng.one_in(2) { Record::Registers } else { bench.shown() });
    }
    records.push(Record::Call(next));
    // A frame that was handed over is what the next call finishes with.
    if let (23, Some(mut args)) = (number, frame(records, k)) {
        if bench.is_none() {
            records.push(any_answers(24, rng));
        }
        args.extend(rng.pick(&[0u32, 1, 3]).to_be_bytes());
        records.push(call(24, args));
    }
}

/// A list of up to eight calls, over a target or over given answers alone.
pub fn random(rng: &mut Rng) -> Vec<Record> {
    let bench = (!rng.one_in(5)).then(|| Bench::any(rng));
    let mut records = bench.as_ref().map_or(vec![], Bench::records);
    for _ in 0..1 + rng.below(8) {
        let calls = records.iter().filter(|r| matches!(r, Record::Call(_))).count();
        step(&mut records, calls + 1, &bench, rng);
    }
    records
}

/// A list with some byte changed, bytes cut off or added, or records moved.
pub fn damaged(rng: &mut Rng) -> List {
    let mut records = random(rng);
    let from = rng.below(records.len());
    let to = rng.below(records.len());
    match rng.below(8) {
        0 => records.swap(from, to),
        1 => drop(records.remove(from)),
        2 => records.insert(to, records[from].clone()),
        _ => {}
    }
    let mut list = write(&records);
    let at = rng.below(list.len());
    match rng.below(8) {
        0 => list.truncate(at),
        1 => list.extend((0..=rng.below(8)).map(|_| rng.pick(&[0u8, 0, 1, b'R']))),
        2 => drop(list.remove(at)),
        3 => list.insert(at, rng.next() as u8),
        4..=5 => list[at] = rng.pick(&[0, 1, 2, 3, 4, 5, 9, 255]),
        _ => {}
    }
    list
}
