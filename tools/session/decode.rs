//! From a list to lines of text.

use super::{BUDGET, CODES, DEFAULTS};
use list::{argument_bytes, hex, Answer, Call, Fault, Fields, Record, CALLS, FIELDS, LOST_DELIVERED, WAIT};
use std::fmt::Write;

/// The fields of a target that are counts.
const COUNTS: [&str; 6] = ["d", "width", "requests", "owed", "sticky", "size"];

/// The line of a target: the fields that are not as they would be without.
fn target_line(fields: &Fields) -> String {
    let mut line = "target".to_string();
    for ((value, default), (name, _)) in fields.iter().zip(DEFAULTS).zip(FIELDS) {
        if *value != default {
            let _ = match COUNTS.contains(&name) {
                true => write!(line, " {name}={value}"),
                false => write!(line, " {name}=0x{value:08X}"),
            };
        }
    }
    line
}

/// A number behind a word, left out where it is what it would be without.
fn unless(default: usize, word: &str, value: usize) -> String {
    if value == default { String::new() } else { format!(" {word} {value}") }
}

/// The line of faults that are the same, one after the other.
fn fault_line(same: &[Fault]) -> String {
    let Fault { at, act, error, ack } = same[0];
    let free = unless(0, "ack", ack.into());
    let what = match (act, error) {
        (WAIT, _) => format!("wait {at}{}{free}", unless(0, "error", error.into())),
        (LOST_DELIVERED, 1) => format!("lose {at} delivered ack {ack}"),
        (LOST_DELIVERED, _) => format!("lose {at} delivered {}{free}", CODES[error as usize]),
        (_, 1) => format!("lose {at} undelivered ack {ack}"),
        _ => format!("lose {at} undelivered {}{free}", CODES[error as usize]),
    };
    what + &unless(1, "times", same.len())
}

/// The line of answers that are all the same.
fn answer_line(same: &[Answer]) -> String {
    let Answer { code, value } = same[0];
    let value = match (code, value) {
        (1, _) => format!(" {value}"),
        (2 | 3, 0) => String::new(),
        _ => format!(" 0x{value:08X}"),
    };
    format!("answer {}{value}{}", CODES[code as usize], unless(1, "times", same.len()))
}

fn call_line(call: &Call) -> String {
    let &(_, name, kinds) = CALLS.iter().find(|(number, ..)| *number == call.number).expect("a session's call");
    let mut line = name.to_string();
    let mut rest = &call.args[..];
    for kind in kinds.chars() {
        let size = if kind == '*' { rest.len() } else { argument_bytes(kind) };
        let (bytes, after) = rest.split_at(size);
        rest = after;
        let value = || bytes.iter().fold(0, |value, &byte| value << 8 | u32::from(byte));
        let _ = match (kind, bytes) {
            ('*', []) => Ok(()),
            ('*', _) => write!(line, " {}", hex(bytes)),
            ('c', [a, b]) if [a, b].iter().all(|c| c.is_ascii_alphanumeric()) => {
                write!(line, " \"{}{}\"", *a as char, *b as char)
            }
            ('c', [a, b]) => write!(line, " {a} {b}"),
            ('w', _) => write!(line, " 0x{:08X}", value()),
            _ => write!(line, " {}", value()),
        };
    }
    line + &unless(BUDGET as usize, "budget", call.budget as usize)
}

fn follows(a: &Fault, b: &Fault) -> bool {
    a.at.checked_add(1) == Some(b.at) && (a.act, a.error, a.ack) == (b.act, b.error, b.ack)
}

fn lines(record: &Record) -> Vec<String> {
    match record {
        Record::Target(fields) => vec![target_line(fields)],
        Record::Memory { offset, bytes } => {
            vec![format!("memory 0x{offset:X} {}", hex(bytes)).trim_end().into()]
        }
        Record::Faults(faults) if faults.is_empty() => vec!["no_faults".into()],
        Record::Faults(faults) => faults.chunk_by(follows).map(fault_line).collect(),
        Record::Answers(answers) if answers.is_empty() => vec!["no_answers".into()],
        Record::Answers(answers) => answers.chunk_by(|a, b| a == b).map(answer_line).collect(),
        Record::Call(call) => vec![call_line(call)],
        Record::Show { offset, length } => vec![format!("show 0x{offset:X} {length}")],
        Record::Registers => vec!["registers".into()],
    }
}

/// The lines of a list that keeps the rules, or which record does not.
pub fn decode(list: &[u8]) -> Result<String, String> {
    let records = list::parse(list).map_err(|broken| format!("record {}: {}", broken.record + 1, broken.rule))?;
    Ok(records.iter().flat_map(lines).map(|line| line + "\n").collect())
}
