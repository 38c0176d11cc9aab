//! `reference` prints what `dapsession` must print for the list on standard
//! input. `reference --batch IN OUT` writes the text of each list of a batch
//! file, its 4-byte length before it.

use std::io::{self, Read};
use std::{env, fs};

fn texts(batch: &[u8]) -> Vec<u8> {
    let mut out = Vec::new();
    for list in driver::unpack(batch) {
        let text = session::text(list);
        out.extend((text.len() as u32).to_be_bytes());
        out.extend(text);
    }
    out
}

fn main() -> io::Result<()> {
    let args: Vec<String> = env::args().skip(1).collect();
    match args.iter().map(String::as_str).collect::<Vec<_>>()[..] {
        [] => {
            let mut list = Vec::new();
            io::stdin().read_to_end(&mut list)?;
            session::print(&list, &mut io::BufWriter::new(io::stdout().lock()))
        }
        ["--batch", input, output] => fs::write(output, texts(&fs::read(input)?)),
        _ => Err(io::Error::other("usage: reference [--batch IN OUT]")),
    }
}
