//! `oracle` prints what `dapscript` must print for the script on standard input.
//! `oracle --batch IN OUT` writes the text of each script of a batch file, its
//! 4-byte length before it. `oracle --vectors IN OUT` writes for each script
//! both lengths, the script and its text.

use std::io::{self, Read, Write};
use std::{env, fs};

fn texts(batch: &[u8], with_scripts: bool) -> Vec<u8> {
    let mut out = Vec::new();
    for script in driver::unpack(batch) {
        let text = driver::expected(script);
        let script = if with_scripts { script } else { &[] };
        if with_scripts {
            out.extend((script.len() as u32).to_be_bytes());
        }
        out.extend((text.len() as u32).to_be_bytes());
        out.extend([script, text.as_bytes()].concat());
    }
    out
}

fn main() -> io::Result<()> {
    let args: Vec<String> = env::args().skip(1).collect();
    match args.iter().map(String::as_str).collect::<Vec<_>>()[..] {
        [] => {
            let mut script = Vec::new();
            io::stdin().read_to_end(&mut script)?;
            io::stdout().write_all(driver::expected(&script).as_bytes())
        }
        ["--batch", input, output] => fs::write(output, texts(&fs::read(input)?, false)),
        ["--vectors", input, output] => fs::write(output, texts(&fs::read(input)?, true)),
        _ => Err(io::Error::other("usage: oracle [--batch IN OUT | --vectors IN OUT]")),
    }
}
