//! From lines of text to a list.

use super::{BUDGET, CODES, DEFAULTS, NOBODY};
use list::{argument_bytes, Answer, Call, Fault, Record, CALLS, FIELDS, LOST_DELIVERED, LOST_UNDELIVERED, WAIT};

/// The words of a line that are still to be read.
struct Words<'a>(&'a [&'a str]);

impl<'a> Words<'a> {
    fn next(&mut self) -> Result<&'a str, String> {
        let (word, rest) = self.0.split_first().ok_or("something is missing at the end")?;
        self.0 = rest;
        Ok(word)
    }

    /// Takes the next word if it is this one.
    fn takes(&mut self, word: &str) -> bool {
        let found = self.0.first() == Some(&word);
        if found {
            self.0 = &self.0[1..];
        }
        found
    }

    fn number(&mut self, most: u32) -> Result<u32, String> {
        number(self.next()?, most)
    }

    /// A number behind a word, if the word is there.
    fn number_after(&mut self, word: &str, most: u32, default: u32) -> Result<u32, String> {
        if self.takes(word) { self.number(most) } else { Ok(default) }
    }

    /// The place of the next word in a row of names.
    fn one_of(&mut self, names: &[&str]) -> Result<usize, String> {
        let word = self.next()?;
        names.iter().position(|name| *name == word).ok_or(format!("{word} is none of {}", names.join(", ")))
    }

    /// Bytes in hexadecimal, unless the line ends or another word comes first.
    fn bytes(&mut self, unless: &str) -> Result<Vec<u8>, String> {
        match self.0.first() {
            Some(word) if *word != unless => hex_bytes(self.next()?),
            _ => Ok(vec![]),
        }
    }
}

fn number(word: &str, most: u32) -> Result<u32, String> {
    let (digits, radix) = word.strip_prefix("0x").map_or((word, 10), |digits| (digits, 16));
    match u32::from_str_radix(digits, radix) {
        Ok(value) if value <= most && !digits.starts_with('+') => Ok(value),
        _ => Err(format!("{word} is no number from 0 to {most}")),
    }
}

fn hex_bytes(word: &str) -> Result<Vec<u8>, String> {
    if word.len() % 2 != 0 || !word.bytes().all(|b| b.is_ascii_hexdigit()) {
        return Err(format!("{word} are no bytes in hexadecimal, two digits each"));
    }
    let byte = |i| u8::from_str_radix(&word[i..i + 2], 16).expect("two digits");
    Ok((0..word.len()).step_by(2).map(byte).collect())
}

fn target(words: &mut Words) -> Result<Record, String> {
    let mut fields = DEFAULTS;
    while let Ok(word) = words.next() {
        let (name, value) = word.split_once('=').ok_or(format!("{word} is not FIELD=NUMBER"))?;
        let place = FIELDS.iter().position(|(field, _)| *field == name);
        let place = place.ok_or(format!("a target has no field {name}"))?;
        let most = u32::MAX >> (32 - 8 * FIELDS[place].1);
        fields[place] = number(value, most)?;
    }
    Ok(Record::Target(fields))
}

fn memory(words: &mut Words) -> Result<Record, String> {
    let offset = words.number(u32::MAX)?;
    let bytes = words.bytes("times")?;
    let times = words.number_after("times", 65_535, 1)?;
    Ok(Record::Memory { offset, bytes: bytes.repeat(times as usize) })
}

fn wait(words: &mut Words) -> Result<Record, String> {
    let at = words.number(u32::MAX)?;
    let error = words.number_after("error", 255, 0)? as u8;
    let ack = words.number_after("ack", 255, 0)? as u8;
    in_a_row(Fault { at, act: WAIT, error, ack }, words)
}

fn lose(words: &mut Words) -> Result<Record, String> {
    let at = words.number(u32::MAX)?;
    let act = [LOST_UNDELIVERED, LOST_DELIVERED][words.one_of(&["undelivered", "delivered"])?];
    let (error, ack) = match words.0.first() {
        None | Some(&("ack" | "times")) => (1, NOBODY),
        Some(_) => (2 + words.one_of(&CODES[2..])? as u8, 0),
    };
    let ack = words.number_after("ack", 255, ack)? as u8;
    in_a_row(Fault { at, act, error, ack }, words)
}

/// A fault at as many transport calls, one after the other, as the line says.
fn in_a_row(first: Fault, words: &mut Words) -> Result<Record, String> {
    let times = words.number_after("times", 65_535, 1)?;
    let place = |i| first.at.checked_add(i).ok_or("transport calls have 32 bits");
    let faults = (0..times).map(|i| Ok(Fault { at: place(i)?, ..first })).collect::<Result<_, String>>();
    Ok(Record::Faults(faults?))
}

fn answer(words: &mut Words) -> Result<Record, String> {
    let code = words.one_of(&CODES)? as u8;
    let value = match words.0.first() {
        None | Some(&"times") => 0,
        Some(_) => words.number(u32::MAX)?,
    };
    let times = words.number_after("times", 65_535, 1)?;
    Ok(Record::Answers(vec![Answer { code, value }; times as usize]))
}

fn call(name: &str, words: &mut Words) -> Result<Record, String> {
    let row = CALLS.iter().find(|(_, call, _)| *call == name);
    let &(number, _, kinds) = row.ok_or(format!("there is no record and no call {name}"))?;
    let mut args = Vec::new();
    for kind in kinds.chars() {
        match kind {
            '*' => args.extend(words.bytes("budget")?),
            'c' => args.extend(code(words)?),
            _ => {
                let size = argument_bytes(kind);
                let value = words.number(u32::MAX >> (32 - 8 * size))?;
                args.extend(&value.to_be_bytes()[4 - size..]);
            }
        }
    }
    let budget = words.number_after("budget", u32::MAX, BUDGET)?;
    Ok(Record::Call(Call { number, budget, args }))
}

/// A code of the bootrom: two letters in quotes, or two numbers.
fn code(words: &mut Words) -> Result<[u8; 2], String> {
    if let Some([b'"', one, two, b'"']) = words.0.first().map(|word| word.as_bytes()) {
        words.next()?;
        return Ok([*one, *two]);
    }
    Ok([words.number(255)? as u8, words.number(255)? as u8])
}

fn record(words: &mut Words) -> Result<Record, String> {
    let record = match words.next()? {
        "target" => target(words)?,
        "memory" => memory(words)?,
        "wait" => wait(words)?,
        "lose" => lose(words)?,
        "no_faults" => Record::Faults(vec![]),
        "answer" => answer(words)?,
        "no_answers" => Record::Answers(vec![]),
        "show" => Record::Show { offset: words.number(u32::MAX)?, length: words.number(65_535)? as u16 },
        "registers" => Record::Registers,
        name => call(name, words)?,
    };
    words.0.first().map_or(Ok(record), |word| Err(format!("{word} is too much")))
}

/// The records so far, and the line where each began.
#[derive(Default)]
struct Lines {
    records: Vec<Record>,
    lines: Vec<usize>,
}

impl Lines {
    /// Faults, and answers, that stand before one call are one record.
    fn add(&mut self, line: usize, record: Record) {
        let before = self.records.iter_mut().rev().take_while(|r| !matches!(r, Record::Call(_)));
        for earlier in before {
            match (earlier, &record) {
                (Record::Faults(all), Record::Faults(more)) => return all.extend(more),
                (Record::Answers(all), Record::Answers(more)) => return all.extend(more),
                _ => {}
            }
        }
        self.records.push(record);
        self.lines.push(line);
    }
}

/// The list that the lines stand for, or what is wrong at which line.
pub fn encode(text: &str) -> Result<Vec<u8>, String> {
    let mut all = Lines::default();
    for (i, line) in text.lines().enumerate() {
        let words: Vec<_> = line.split('#').next().unwrap_or("").split_whitespace().collect();
        if !words.is_empty() {
            let record = record(&mut Words(&words)).map_err(|why| format!("line {}: {why}", i + 1))?;
            all.add(i + 1, record);
        }
    }
    let at = |record: usize, why| format!("line {}: {why}", all.lines.get(record).unwrap_or(&1));
    let list = list::write(&all.records).map_err(|record| at(record, "too much for one record"))?;
    list::parse(&list).map_err(|broken| at(broken.record, broken.rule))?;
    Ok(list)
}
