//! Makes lists of session calls for the comparison; equal options give equal
//! lists.
//! Usage: gen --count N --seed S --out FILE [--bytes LIMIT]
//! Two thirds are systematic (the rules of the format, long calls, each call with
//! every budget and fault), one of each in turn; the rest is random. With a
//! limit, a list stays out if with its text it takes more bytes.
//! Usage: gen --rules --out FILE
//! Makes the lists that break each rule or only just keep it, but for the two of
//! a million bytes.

mod bench;
mod random;
mod rules;
mod scenes;

use list::{Answer, Call, Record};
use std::collections::HashSet;

type List = Vec<u8>;

/// SplitMix64.
pub struct Rng(u64);

impl Rng {
    fn next(&mut self) -> u64 {
        self.0 = self.0.wrapping_add(0x9E37_79B9_7F4A_7C15);
        let z = (self.0 ^ self.0 >> 30).wrapping_mul(0xBF58_476D_1CE4_E5B9);
        let z = (z ^ z >> 27).wrapping_mul(0x94D0_49BB_1331_11EB);
        z ^ z >> 31
    }
    fn word(&mut self) -> u32 {
        self.next() as u32
    }
    fn bytes(&mut self, n: usize) -> Vec<u8> {
        (0..n).map(|_| self.next() as u8).collect()
    }
    fn below(&mut self, n: usize) -> usize {
        (self.next() % n as u64) as usize
    }
    fn one_in(&mut self, n: usize) -> bool {
        self.below(n) == 0
    }
    fn pick<T: Copy>(&mut self, of: &[T]) -> T {
        of[self.below(of.len())]
    }
    fn shuffle<T>(&mut self, list: &mut [T]) {
        for i in (1..list.len()).rev() {
            list.swap(i, self.below(i + 1));
        }
    }
}

/// No list's call needs as many transport calls.
pub const ENOUGH: u32 = 1_000_000;

pub fn call(number: u8, args: Vec<u8>) -> Record {
    Record::Call(Call { number, budget: ENOUGH, args })
}

pub const fn answer(code: u8, value: u32) -> Answer {
    Answer { code, value }
}

/// The bytes of a list whose records are short enough.
fn write(records: &[Record]) -> List {
    list::write(records).expect("records of at most 65,535 bytes")
}

/// The lines that the reference prints for call k, from 1 on.
fn lines_of(records: &[Record], k: usize) -> Vec<String> {
    let text = String::from_utf8(session::text(&write(records))).expect("plain text");
    let from = text.lines().skip_while(|line| *line != format!("# {k}")).skip(1);
    from.take_while(|line| !line.starts_with('#')).map(String::from).collect()
}

/// The answers of a connect that succeeds, and one that comes too late.
const CONNECT: [Answer; 12] = [
    answer(0, 0),
    answer(0, 1),
    answer(0, 2),
    answer(0, 3),
    answer(0, 4),
    answer(0, 5),
    answer(0, 0x2BA0_1477),
    answer(0, 0),
    answer(0, 0xFFFF_FFFF),
    answer(0, 0),
    answer(0, 0xF000_0000),
    answer(1, 0),
];

/// One of each list in turn.
fn in_turn(lists: Vec<Vec<List>>) -> Vec<List> {
    let mut lists: Vec<_> = lists.into_iter().map(Vec::into_iter).collect();
    let mut out = Vec::new();
    loop {
        let before = out.len();
        out.extend(lists.iter_mut().filter_map(Iterator::next));
        if out.len() == before {
            return out;
        }
    }
}

/// Whether a list, with its text, takes at most so many bytes.
fn small(list: &[u8], limit: Option<u64>) -> bool {
    limit.is_none_or(|most| (8 + list.len() + session::text(list).len()) as u64 <= most)
}

/// The lists to write, none twice.
fn choose(count: usize, limit: Option<u64>, rng: &mut Rng) -> Vec<List> {
    let (calls, faults) = scenes::calls(rng);
    let families = vec![rules::rules(), scenes::long(), scenes::widths(), scenes::believed(rng), calls, faults];
    let lengths: Vec<_> = families.iter().map(Vec::len).collect();
    println!("rules, long, widths, believed, calls, budgets and faults: {lengths:?}");
    let mut seen = HashSet::new();
    let listed = in_turn(families).into_iter();
    let listed = listed.filter(|list| small(list, limit) && seen.insert(list.clone()));
    let mut lists: Vec<_> = listed.take(count - count / 3).collect();
    while lists.len() < count {
        let list = if rng.one_in(5) { random::damaged(rng) } else { write(&random::random(rng)) };
        if small(&list, limit) && seen.insert(list.clone()) {
            lists.push(list);
        }
    }
    lists
}

fn main() {
    let args: Vec<String> = std::env::args().collect();
    let option = |name: &str| args.iter().position(|a| a == name).map(|i| args[i + 1].clone());
    let number = |name: &str| option(name).map(|n| n.parse::<u64>().expect("not a number"));
    let lists = if args.iter().any(|a| a == "--rules") {
        rules::rules()
    } else {
        let count = number("--count").expect("--count N") as usize;
        choose(count, number("--bytes"), &mut Rng(number("--seed").unwrap_or(1)))
    };
    let mut batch = Vec::new();
    for list in lists {
        batch.extend((list.len() as u32).to_be_bytes());
        batch.extend(list);
    }
    std::fs::write(option("--out").expect("--out FILE"), batch).expect("cannot write");
}
