//! Makes scripts for the comparison; equal options give equal scripts.
//! Usage: gen --calls 1-35 --count N --seed S --out FILE [--bytes LIMIT]
//! Two thirds come from lists (malformed scripts, runs to the edges, the same
//! with every budget and fault), one of each in turn; the rest is random. With
//! a limit, what is long is left out.
//! Usage: gen --lists N --seed S --out FILE --texts FILE
//! Makes lists of calls on one engine, and what the Rust does.

mod lists;

use driver::Answer;
use std::collections::HashSet;
use std::mem::replace;

type Calls = std::ops::RangeInclusive<u8>;
type Script = Vec<u8>;

/// SplitMix64.
struct Rng(u64);

impl Rng {
    fn next(&mut self) -> u64 {
        self.0 = self.0.wrapping_add(0x9E37_79B9_7F4A_7C15);
        let z = (self.0 ^ self.0 >> 30).wrapping_mul(0xBF58_476D_1CE4_E5B9);
        let z = (z ^ z >> 27).wrapping_mul(0x94D0_49BB_1331_11EB);
        z ^ z >> 31
    }
    fn word(&mut self) -> u32 {
        self.next() as u32
    }
    fn bytes(&mut self, n: usize) -> Vec<u8> {
        (0..n).map(|_| self.next() as u8).collect()
    }
    fn below(&mut self, n: usize) -> usize {
        (self.next() % n as u64) as usize
    }
    fn pick<T: Copy>(&mut self, of: &[T]) -> T {
        of[self.below(of.len())]
    }
    fn shuffle<T>(&mut self, list: &mut [T]) {
        for i in (1..list.len()).rev() {
            list.swap(i, self.below(i + 1));
        }
    }
}

const fn answer(code: u8, value: u32) -> Answer {
    Answer { code, value }
}
const OK: Answer = answer(0, 7);
const WAIT: Answer = answer(1, 2);
const FAULT: Answer = answer(1, 4);
const NOT_SUPPORTED: Answer = answer(2, 0);
const OTHER: Answer = answer(3, 0xFFFF_FFFF);

/// Answers put into a run from one place on.
fn faults() -> Vec<Vec<Answer>> {
    let mut list: Vec<_> = [1, 64, 65].map(|n| vec![WAIT; n]).into();
    list.extend([0, 1, 4, 7, 255].map(|ack| vec![answer(1, ack)]));
    list.extend([vec![NOT_SUPPORTED], vec![OTHER]]);
    list.extend([vec![FAULT, WAIT], vec![FAULT, OTHER]]); // the second meets the ABORT
    list.push([vec![WAIT; 64], vec![FAULT]].concat());
    list
}

/// A target whose answers let a call go far.
struct Target {
    rng: Rng,
    dpidr: u32,
    /// CTRL/STAT reads that come before the power-up acks.
    owed: u32,
    /// A ROM function's code or a breakpoint that the call looks for.
    wanted: u32,
    /// DHCSR always shows the core halted.
    halted: bool,
    tar: u32,
    buffer: u32,
}

impl Target {
    fn new(seed: u64, case: &Case) -> Self {
        let mut rng = Rng(seed);
        let (owed, halted) = (rng.below(3) as u32, rng.below(4) == 0);
        let wanted = match case.args[..] {
            [a, b] => u32::from_be_bytes([0, 0, b, a]),
            [a, b, c, d, ..] => u32::from_be_bytes([a, b, c, d]),
            _ => 0,
        };
        Target { rng, dpidr: 0x2BA0_1477, owed, wanted, halted, tar: 0, buffer: 0 }
    }

    fn answer(&mut self, transfer: Option<(u8, u32)>) -> Answer {
        let value = match transfer {
            Some((0x2, _)) => self.dpidr,
            Some((0x6, _)) if self.owed > 0 => {
                self.owed -= 1;
                self.rng.pick(&[0, 0x5000_0000, 0x7000_0000, 0xD000_0000])
            }
            Some((0x6, _)) => 0xF000_0000,
            Some((0x5, tar)) => replace(&mut self.tar, tar),
            Some((0xB, _)) => replace(&mut self.buffer, self.rng.pick(&[0, 0, 1])), // erasing
            Some((0xF, _)) => {
                let word = self.memory();
                self.tar = self.tar.wrapping_add(4);
                replace(&mut self.buffer, word)
            }
            Some((0xE, _)) => self.buffer,
            _ => self.rng.word(),
        };
        answer(0, value)
    }

    /// The word at TAR. Nordic's own AP is read with TAR never written.
    fn memory(&mut self) -> u32 {
        let w = self.wanted;
        match self.tar {
            0..4 => self.rng.pick(&[0x0288_0000, 0x0288_0001, 1]),
            0x14 => self.rng.pick(&[0x0094_0100, 0x0102, 0xFFFD, 0x0101]), // ROM table
            0x100..=0x2_0000 => {
                let mut half = || self.rng.pick(&[w & 0xFFFF, 0x4142, 0x4344, 0, 0]);
                half() | half() << 16
            }
            0xE000_EDF0 if self.halted => 3 << 16,
            0xE000_EDF0 => self.rng.pick(&[0, 1 << 16, 1 << 17, 3 << 16, 3 << 16]), // DHCSR
            0xE000_2000 => self.rng.pick(&[0x20, 0x40, 0x1000_0040, 0x1000_0080, 0x1010, 0]), // FP_CTRL
            0xE000_2008..=0xE000_2204 => {
                let half = if w & 2 != 0 { 0x8000_0001 } else { 0x4000_0001 };
                let held = self.rng.pick(&[half | w & 0x1FFF_FFFC, w | 1]);
                self.rng.pick(&[held, 0, 0x4000_1001, 0x4000_2001, 0x4000_3000])
            }
            0x4001_E400 | 0x4004_B400 => self.rng.pick(&[0, 1, 1, 3]), // flash ready
            _ => self.rng.word(),
        }
    }
}

/// A call with its arguments.
struct Case {
    call: u8,
    args: Vec<u8>,
}

impl Case {
    /// `first` is the address or the small first argument, `n` a length.
    fn new(call: u8, (first, n, polls): (u32, usize, u32), rng: &mut Rng) -> Self {
        let head = first.to_be_bytes().to_vec();
        let polls = polls.to_be_bytes().to_vec();
        let args = match call {
            2 | 3 | 15..=19 | 29 | 33 => vec![],
            6 | 7 | 20 => vec![first as u8],
            8 | 21 => [vec![first as u8], rng.bytes(4)].concat(),
            10 => [head, rng.bytes(4)].concat(),
            11 | 13 => [head, (n as u16).to_be_bytes().to_vec()].concat(),
            12 => [head, rng.bytes(4 * n)].concat(),
            14 => [head, rng.bytes(n)].concat(),
            22 => (first as u16).to_be_bytes().to_vec(),
            23 => [head, rng.bytes(24)].concat(),
            24 => [rng.bytes(32), polls].concat(),
            25 => [head, rng.bytes(24), polls].concat(),
            30 | 34 => polls,
            31 => [head, polls].concat(),
            32 | 35 => [head, polls, rng.bytes(4 * n)].concat(),
            _ => head,
        };
        Case { call, args }
    }

    /// A call with arguments from everywhere, mostly short.
    fn random(calls: &Calls, rng: &mut Rng) -> Self {
        let near = rng.pick(&[0, 0x3F0, 0x2000_0000, 0x2000_03F0, 0xFFFF_FFF0]) + rng.below(16) as u32;
        let any = rng.word();
        let first = rng.pick(&[any, near, near, near & !3, near & !3]);
        let n = rng.below(300) >> rng.pick(&[0, 4, 5, 5, 6, 7]);
        let polls = rng.pick(&[0, 1, 2, 5, 100, 0xFFFF_FFFF]);
        Case::new(calls.start() + rng.below(calls.len()) as u8, (first, n, polls), rng)
    }

    /// The answers of a run: those of the plan, else the target's.
    fn record(&self, mut target: Target, plan: impl Fn(usize) -> Option<Answer>) -> Vec<Answer> {
        let mut answers = Vec::new();
        let most = (driver::MAX_SCRIPT - 4 - self.args.len()) / 7;
        driver::run(self.call, &self.args, &mut |transfer| {
            if answers.len() == most {
                return None;
            }
            answers.push(plan(answers.len()).unwrap_or_else(|| target.answer(transfer)));
            answers.last().copied()
        });
        answers
    }

    /// The answers of a run without faults.
    fn base(&self, seed: u64) -> Vec<Answer> {
        self.record(Target::new(seed, self), |_| None)
    }

    fn script(&self, answers: &[Answer]) -> Script {
        let mut out = vec![1];
        out.extend((1 + self.args.len() as u16).to_be_bytes());
        out.push(self.call);
        out.extend(&self.args);
        for a in answers {
            out.extend([0, 5, a.code]);
            out.extend(a.value.to_be_bytes());
        }
        out
    }
}

/// First argument, length and polls of the runs that go to the edges. The first
/// of each call meets every fault at every place, the others at one.
fn edges(call: u8) -> Vec<(u32, usize, u32)> {
    let firsts = |list: &[u32]| list.iter().map(|&first| (first, 0, 3)).collect();
    let spans = |list: &[(u32, usize)]| list.iter().map(|&(first, n)| (first, n, 3)).collect();
    match call {
        1 | 5 => firsts(&[0x0100_2927, 0x1100_2927, 0, 0xFFFF_FFFF]),
        4 => firsts(&[100, 0, 0xFFFF_FFFF]),
        6 => firsts(&[0, 1, 255]),
        7 | 8 => firsts(&[0x0C, 0, 3, 4, 0x1B, 0xF4, 0xFC, 0xFF]),
        9 | 10 => firsts(&[0x2000_0000, 0x2000_03FC, 0x2000_0001, 0xFFFF_FFFC, 0xFFFF_FFFF, 0]),
        11 | 12 => {
            let long = [64, 65, 300].map(|n| (0x2000_0000, n));
            let short = [(0x2000_0000, 3), (0, 0), (0x2000_03FC, 2), (0xFFFF_FFFC, 2), (0x2000_0102, 1)];
            spans(&[&short[..], &long].concat())
        }
        13 | 14 => {
            let mut list = vec![(0x2000_03FB, 15), (0x2000_0003, 6), (0x2000_03FC, 8), (0x2000_0201, 1100)];
            list.extend((0..4).flat_map(|a| (0..=9).map(move |n| (0x2000_0400 + a, n))));
            list.extend([256, 257, 260, 1020, 1024, 1028].map(|n| (0x2000_0000, n)));
            list.extend((0..4).flat_map(|a| (0..=4).map(move |n| (0xFFFF_FFFC + a, n))));
            list.extend([15, 16, 17].map(|n| (0xFFFF_FFF0, n)));
            spans(&list)
        }
        20 | 21 => firsts(&[16, 0, 15, 255]),
        22 => firsts(&[0x4946, 0x5245, 0, 0xFFFF]),
        23 | 31 => firsts(&[0x2001, 0x1FFF, 0xFFFF_FFFF]),
        24 | 25 | 30 | 34 => [2, 1, 0, 5, 0xFFFF_FFFF].map(|polls| (0x2001, 0, polls)).into(),
        26..=28 => firsts(&[0x102, 0x100, 0x1FFF_FFFE, 0x2000_0000, 0x2000_0101, 0xFFFF_FFFF]),
        32 | 35 => {
            let refused = [(0x3FD, 1), (0x3FE, 1), (0xFFFF_FFFC, 1), (0xFFFF_FFFD, 1), (0xFFFF_FFF8, 2)];
            let made = [(0x3F8, 4), (0x3FD, 0), (0xFFFF_FFF8, 1), (0x100, 300)];
            spans(&[&made[..], &refused].concat())
        }
        _ => vec![(0, 0, 0)],
    }
}

/// The listing of document 01; call 24 where the first SELECT is lost, so that it
/// has to be written again; and connects to targets that do not answer or take
/// long to power up.
fn known(calls: &Calls, rng: &mut Rng) -> Vec<Script> {
    let mut out = Vec::new();
    if calls.contains(&9) {
        let case = Case::new(9, (0x2000_0000, 0, 0), rng);
        out.push(case.script(&[OK, OK, OK, OK, answer(0, 0x1234_5678)]));
    }
    if calls.contains(&24) {
        let case = Case::new(24, (0, 0, 1), rng);
        out.push(case.script(&[&[answer(1, 0)], &[OK; 9][..]].concat()));
    }
    for call in [1, 2, 3, 5].into_iter().filter(|c| calls.contains(c)) {
        let case = Case::new(call, (0x0100_2927, 0, 0), rng);
        for (dpidr, owed) in [(0, 0), (0xFFFF_FFFF, 0), (1, 7), (0xFFFF_FFFE, 1023), (2, 1024)] {
            let target = Target { dpidr, owed, ..Target::new(1, &case) };
            out.push(case.script(&case.record(target, |_| None)));
        }
    }
    out
}

/// One of each list in turn.
fn in_turn(lists: Vec<Vec<Script>>) -> Vec<Script> {
    let mut lists: Vec<_> = lists.into_iter().map(Vec::into_iter).collect();
    let mut out = Vec::new();
    loop {
        let before = out.len();
        out.extend(lists.iter_mut().filter_map(Iterator::next));
        if out.len() == before {
            return out;
        }
    }
}

/// Base runs, and the same runs with each budget and each fault, by call in turn.
fn runs(calls: &Calls, rng: &mut Rng) -> (Vec<Script>, Vec<Script>) {
    let (mut bases, mut of_calls) = (known(calls, rng), Vec::new());
    for call in calls.clone() {
        let mut others = Vec::new();
        for (k, edge) in edges(call).into_iter().enumerate() {
            let case = Case::new(call, edge, rng);
            let seed = rng.next();
            let base = case.base(seed);
            bases.push(case.script(&base));
            if call >= 15 {
                // These depend on what the target holds.
                bases.extend((1..=4).map(|k| case.script(&case.base(seed ^ k))));
            }
            others.push(case.script(&[&base[..], &[OTHER, OK]].concat()));
            let one = rng.below(base.len().max(1));
            for at in (0..base.len()).filter(|&at| k == 0 || at == one) {
                others.push(case.script(&base[..at]));
                others.push(case.script(&[&base[..at], &[FAULT]].concat()));
                for fault in faults() {
                    let plan = |i: usize| fault.get(i.wrapping_sub(at)).copied();
                    others.push(case.script(&case.record(Target::new(seed, &case), plan)));
                }
            }
        }
        rng.shuffle(&mut others);
        of_calls.push(others);
    }
    (bases, in_turn(of_calls))
}

/// An answer of any kind, mostly Ok.
fn any_answer(rng: &mut Rng) -> Answer {
    match rng.below(12) {
        0..=2 => answer(1, rng.pick(&[0, 1, 2, 2, 2, 4, 4, 8, 255])),
        3 => rng.pick(&[NOT_SUPPORTED, OTHER]),
        _ => answer(0, rng.pick(&[0, 3 << 16, 0xFFFF_FFFF, 0xF000_0000]) ^ rng.word() >> rng.below(32)),
    }
}

/// A run with up to three faults, or random answers, and any budget.
fn random_run(calls: &Calls, rng: &mut Rng) -> Script {
    let case = Case::random(calls, rng);
    let seed = rng.next();
    let mut answers = if rng.below(6) == 0 {
        (0..rng.below(40)).map(|_| any_answer(rng)).collect()
    } else {
        let (faults, reach) = (faults(), case.base(seed).len() + 4);
        let mut put = || (rng.below(reach), &faults[rng.below(faults.len())]);
        let puts = [put(), put(), put()];
        let puts = &puts[..rng.below(4)];
        let plan = |i: usize| puts.iter().find_map(|(at, fault)| fault.get(i.wrapping_sub(*at)).copied());
        case.record(Target::new(seed, &case), plan)
    };
    match rng.below(4) {
        0 => answers.truncate(rng.below(answers.len() + 1)),
        1 => answers.push(any_answer(rng)),
        _ => {}
    }
    case.script(&answers)
}

/// A run with some byte changed, or bytes cut off or added.
fn damaged(calls: &Calls, rng: &mut Rng) -> Script {
    let mut script = random_run(calls, rng);
    let at = rng.below(script.len());
    match rng.below(5) {
        0 => script.truncate(at),
        1 => script.extend((0..=rng.below(8)).map(|_| rng.pick(&[0u8, 0, 1, 5]))),
        2 => drop(script.remove(at)),
        3 => script.insert(at, rng.next() as u8),
        _ => script[at] = rng.pick(&[0, 1, 2, 4, 5, 6, 255]),
    }
    script
}

/// Scripts that break each rule of the format, and some that only just don't.
fn malformed(calls: &Calls, rng: &mut Rng) -> Vec<Script> {
    let case = Case::new(*calls.start(), (1, 0, 0), rng);
    let good = case.script(&[OK, WAIT]);
    let mut out: Vec<Script> = (0..good.len()).map(|cut| good[..cut].to_vec()).collect();
    out.extend([vec![1, 0, 0], vec![1, 0, 0, 0, 5, 0, 0, 0, 0, 0]]);
    out.extend([0, 2, 49, 255].map(|version| [&[version], &good[1..]].concat()));
    let short: [&[u8]; 4] = [&[0], &[0, 0], &[0, 1, 0], &[255, 255, 0]];
    let near: [&[u8]; 2] = [&[0, 4, 0, 0, 0, 0], &[0, 6, 0, 0, 0, 0, 0, 0]];
    out.extend(short.iter().chain(&near).map(|tail| [&good, *tail].concat()));
    for (code, value) in [(4, 0), (255, 0), (1, 256), (1, 0x0100_0004), (1, 255), (2, 256), (3, 256)] {
        out.push(case.script(&[answer(code, value)]));
        out.push(case.script(&[&[OK; 30][..], &[answer(code, value)]].concat()));
    }
    for call in [0, 36, 37, 127, 128, 255] {
        out.extend([0, 1, 4, 6, 8].map(|n| Case { call, args: vec![0; n] }.script(&[OK])));
    }
    for call in calls.clone() {
        let right = Case::new(call, (0x2000_0000, 1, 1), rng).args.len();
        let wrong = (0..=9).chain([right + 1, right + 4]);
        out.extend(wrong.map(|n| Case { call, args: vec![0; n] }.script(&[OK; 6])));
    }
    if calls.contains(&11) {
        out.extend([8192, 8193, 65_535].map(|n| Case::new(11, (0, n, 0), rng).script(&[OK; 4])));
    }
    for call in [8, 13, 21].into_iter().filter(|c| calls.contains(c)) {
        out.push(Case::new(call, (0, 1, 0), rng).script(&[OK; 9361])); // 65,536 bytes; 13: one more
    }
    out
}

/// Whether a script, with its text, takes at most so many bytes.
fn small(script: &Script, limit: Option<u64>) -> bool {
    limit.is_none_or(|most| (8 + script.len() + driver::expected(script).len()) as u64 <= most)
}

/// The scripts to write: from the lists, then random ones, none twice.
fn choose(calls: &Calls, count: usize, limit: Option<u64>, rng: &mut Rng) -> Vec<Script> {
    let wrong = malformed(calls, rng);
    let (bases, others) = runs(calls, rng);
    let lengths = (wrong.len(), bases.len(), others.len());
    println!("lists (format, base runs, budgets and faults): {lengths:?}");
    let mut seen = HashSet::new();
    let listed = in_turn(vec![wrong, bases, others]).into_iter();
    let listed = listed.filter(|script| small(script, limit) && seen.insert(script.clone()));
    let mut list: Vec<_> = listed.take(count - count / 3).collect();
    while list.len() < count {
        let script = if rng.below(8) == 0 { damaged(calls, rng) } else { random_run(calls, rng) };
        // A damaged call number can be that of a call which is not chosen.
        let chosen = driver::parse(&script).is_none_or(|s| calls.contains(&s.call));
        if chosen && small(&script, limit) && seen.insert(script.clone()) {
            list.push(script);
        }
    }
    list
}

fn main() {
    let args: Vec<String> = std::env::args().collect();
    let option = |name: &str| args.iter().position(|a| a == name).map(|i| args[i + 1].clone());
    let number = |name: &str| option(name).map(|n| n.parse::<u64>().expect("not a number"));
    let mut rng = Rng(number("--seed").unwrap_or(1));
    let file = |name: &str| option(name).expect("a file");
    if let Some(count) = number("--lists") {
        let (input, texts) = lists::make(count as usize, &mut rng);
        std::fs::write(file("--out"), input).expect("cannot write");
        std::fs::write(file("--texts"), texts).expect("cannot write");
        return;
    }
    let range = option("--calls").expect("--calls FIRST-LAST");
    let (first, last) = range.split_once('-').expect("--calls FIRST-LAST");
    let calls = first.parse().unwrap()..=last.parse().unwrap();
    let count = number("--count").expect("--count N") as usize;
    let mut batch = Vec::new();
    for script in choose(&calls, count, number("--bytes"), &mut rng) {
        batch.extend((script.len() as u32).to_be_bytes());
        batch.extend(script);
    }
    std::fs::write(file("--out"), batch).expect("cannot write");
}
