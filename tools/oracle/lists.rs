//! Lists of calls on one engine, as `crates/test_lists` reads them, and what the
//! unchanged Rust does. tools/README.md has the format.

use super::{answer, faults, Case, Rng, Target, OK};
use driver::{length, word, words, Answer, Engine};
use std::cell::RefCell;

/// As many transport calls are printed; of a longer call only their number.
const SHOWN: usize = 1000;
/// As many answers as `crates/test_lists` has room for.
const ROOM: usize = 16_384;

/// A call, and the answers put into its run; without a target every other
/// answer is Ok 0. The run has at most so many answers.
struct Planned {
    case: Case,
    target: Option<Target>,
    puts: Vec<(usize, Vec<Answer>)>,
    budget: usize,
    answers: Vec<Answer>,
}

impl Planned {
    fn new(case: Case, target: Option<Target>) -> Self {
        Planned { case, target, puts: vec![], budget: ROOM, answers: vec![] }
    }

    /// A transport call's answer; it is written down.
    fn next(&mut self, transfer: Option<(u8, u32)>) -> Option<Answer> {
        let i = self.answers.len();
        if i == self.budget {
            return None;
        }
        let put = self.puts.iter().find_map(|(at, fault)| fault.get(i.wrapping_sub(*at)).copied());
        let own = self.target.as_mut().map_or(answer(0, 0), |t| t.answer(transfer));
        self.answers.push(put.unwrap_or(own));
        self.answers.last().copied()
    }

    /// Up to eight arguments, and the words and bytes that are lent.
    fn lent(&self) -> (Vec<u32>, Vec<u32>, Vec<u8>) {
        let a = &self.case.args[..];
        let first = |k: usize| words(&a[..4 * k]);
        match self.case.call {
            6 | 7 | 20 => (vec![a[0].into()], vec![], vec![]),
            8 | 21 => (vec![a[0].into(), word(a, 1)], vec![], vec![]),
            11 => (first(1), vec![0; length(a)], vec![]),
            12 => (first(1), words(&a[4..]), vec![]),
            13 => (first(1), vec![], vec![0; length(a)]),
            14 => (first(1), vec![], a[4..].to_vec()),
            22 => (vec![a[0].into(), a[1].into()], vec![], vec![]),
            23 => (first(7), vec![0; 8], vec![]),
            24 => (vec![word(a, 32)], first(8), vec![]),
            32 | 35 => (first(2), words(&a[8..]), vec![]),
            _ => (words(a), vec![], vec![]),
        }
    }

    /// The call as `crates/test_lists` reads it.
    fn record(&self, new: bool) -> Vec<u8> {
        let (mut args, words, bytes) = self.lent();
        args.resize(8, 0);
        let runs: Vec<_> = self.answers.chunk_by(|a, b| a == b).collect();
        let mut out = vec![new as u8, self.case.call];
        for n in [words.len(), bytes.len(), runs.len()] {
            out.extend((n as u16).to_be_bytes());
        }
        out.extend(args.iter().chain(&words).flat_map(|w| w.to_be_bytes()));
        out.extend(bytes);
        for run in runs {
            out.extend((run.len() as u16).to_be_bytes());
            out.push(run[0].code);
            out.extend(run[0].value.to_be_bytes());
        }
        out
    }
}

/// A call over a target: of eight, three have a fault and one has a budget.
fn random(rng: &mut Rng) -> Planned {
    let case = Case::random(&(1..=35), rng);
    let target = Target::new(rng.next(), &case);
    let mut planned = Planned::new(case, Some(target));
    match rng.below(8) {
        0..3 => {
            let all = faults();
            planned.puts.push((rng.below(24), all[rng.below(all.len())].clone()));
        }
        3 => planned.budget = rng.below(24),
        _ => {}
    }
    planned
}

/// What a list is there to show.
fn known(rng: &mut Rng) -> Vec<Vec<Planned>> {
    let mut make = |call: u8, first: u32, polls: u32| {
        let case = Case::new(call, (first, 2, polls), rng);
        let target = Target { owed: 0, halted: true, ..Target::new(7, &case) };
        Planned::new(case, Some(target))
    };
    let read = 0x2000_0000;
    let mut out = vec![
        vec![make(9, read, 0), make(9, read + 4, 0)],
        vec![make(6, 1, 0), make(9, read, 0), make(6, 1, 0), make(10, read, 0), make(7, 0xFC, 0)],
        vec![make(6, 3, 0), make(5, 1, 0), make(1, 1, 0), make(9, read, 0), make(3, 0, 0), make(9, read, 0)],
        vec![make(23, 0x2001, 0), make(24, 0, 2), make(25, 0x2001, 2)],
        vec![make(26, 0x102, 0), make(28, 0x102, 0), make(27, 0x102, 0)],
        // An odd address is taken for the even one below it.
        vec![make(26, 0x103, 0), make(28, 0x103, 0), make(27, 0x103, 0)],
        vec![make(32, 0x3F8, 2), make(29, 0, 0), make(31, 0x1FFF, 2), make(35, 0x3F8, 2)],
    ];
    // A connect that is lost at once forgets nothing.
    let mut lost = make(3, 0, 0);
    lost.puts.push((0, vec![answer(1, 0)]));
    out.push(vec![make(9, read, 0), lost, make(9, read, 0)]);
    // Mass erase: each transfer fails once, and APSEL stays as it was set.
    for at in 0..6 {
        for call in [30, 34] {
            let mut erase = make(call, 0, 1);
            erase.puts.push((at, vec![answer(1, 4), OK]));
            out.push(vec![make(9, read, 0), erase, make(9, read, 0)]);
        }
    }
    // What is remembered after each budget of a first read.
    for budget in 0..5 {
        let mut spent = make(9, read, 0);
        spent.budget = budget;
        out.push(vec![spent, make(9, read, 0)]);
    }
    // The 4,096 polls, on a new engine and on a used one.
    for call in [16, 18, 20, 21] {
        let mut poll = || Planned { target: None, ..make(call, 5, 0) };
        out.push(vec![poll(), poll()]);
    }
    out
}

/// Runs a list on one engine; adds its records and its text.
fn perform(list: Vec<Planned>, input: &mut Vec<u8>, text: &mut String) {
    let now = RefCell::new(None::<Planned>);
    let mut line = |transfer| now.borrow_mut().as_mut().and_then(|p| p.next(transfer));
    let mut engine = Engine::new(&mut line);
    text.push_str("list\n");
    for (i, planned) in list.into_iter().enumerate() {
        let (call, args) = (planned.case.call, planned.case.args.clone());
        *now.borrow_mut() = Some(planned);
        let said = engine.call(call, &args).to_lowercase();
        let planned = now.borrow_mut().take().unwrap();
        input.extend(planned.record(i == 0));
        text.push_str(&format!("call {call}\n"));
        let lines: Vec<_> = said.lines().collect();
        let count = lines.len() - if lines[lines.len() - 1].starts_with('d') { 2 } else { 1 };
        if count > SHOWN {
            text.push_str(&format!("{count} transport calls\n"));
        }
        let shown = if count > SHOWN { &lines[count..] } else { &lines };
        text.push_str(&(shown.join("\n") + "\n"));
    }
}

/// The lists to show something, and as many random ones: records and texts.
pub fn make(count: usize, rng: &mut Rng) -> (Vec<u8>, String) {
    let (mut input, mut text) = (Vec::new(), String::new());
    let mut lists = known(rng);
    lists.extend((0..count).map(|_| (0..4 + rng.below(5)).map(|_| random(rng)).collect()));
    for list in lists {
        perform(list, &mut input, &mut text);
    }
    (input, text)
}
