//! Lists of session calls as text: `text encode` reads lines on standard input
//! and writes the list, `text decode` reads a list and writes its lines.
//! lists/README.md has what a line may say.

mod decode;
mod encode;

use list::Fields;
use std::io::{self, Read, Write};
use std::process::ExitCode;

/// The budget of a call that names none: no call of a bench needs as many
/// transport calls, and one that polls for ever comes to an end.
const BUDGET: u32 = 1_000_000;
/// The ack of a loss that names no error: what a line reads as that nobody drives.
const NOBODY: u32 = 7;
/// The fields of a target that names none.
const DEFAULTS: Fields = [0, 0, 10, 0, 0, 0, 0, 0, 2, 0, 0, 0];
/// An answer's codes and the errors of a loss by name.
const CODES: [&str; 4] = ["ok", "swd", "not_supported", "other"];

fn converted() -> Result<Vec<u8>, String> {
    let mut input = Vec::new();
    io::stdin().read_to_end(&mut input).map_err(|why| why.to_string())?;
    match std::env::args().nth(1).as_deref() {
        Some("encode") => encode::encode(&String::from_utf8(input).map_err(|why| why.to_string())?),
        Some("decode") => decode::decode(&input).map(String::into_bytes),
        _ => Err("usage: text encode | text decode".into()),
    }
}

fn main() -> ExitCode {
    let written = converted().and_then(|out| io::stdout().write_all(&out).map_err(|why| why.to_string()));
    match written {
        Ok(()) => ExitCode::SUCCESS,
        Err(why) => {
            eprintln!("{why}");
            ExitCode::FAILURE
        }
    }
}
