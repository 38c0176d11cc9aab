//! `runner PROGRAM SCRIPTS EXPECTED FOLDER` runs the program on each script of
//! a batch, two at a time, and compares every byte that it prints. The first
//! script that differs is kept in the folder with both outputs.

use std::fs::{self, File};
use std::process::{Command, ExitCode, Stdio};
use std::sync::atomic::{AtomicUsize, Ordering};
use std::thread;

/// The program's standard output for a script handed over in a file.
fn printed(program: &str, script: &[u8], file: &str) -> Vec<u8> {
    fs::write(file, script).expect("cannot write the script");
    let input = File::open(file).expect("cannot open the script");
    let child = Command::new(program).stdin(input).stderr(Stdio::null()).output();
    child.expect("cannot run the program").stdout
}

/// Takes scripts until none is left; gives the numbers of those that differ.
fn work(program: &str, pairs: &[(&[u8], &[u8])], next: &AtomicUsize, file: &str) -> Vec<usize> {
    let mut differ = Vec::new();
    loop {
        let i = next.fetch_add(1, Ordering::Relaxed);
        let Some((script, expected)) = pairs.get(i) else {
            return differ;
        };
        if printed(program, script, file) != *expected {
            differ.push(i);
        }
    }
}

fn main() -> ExitCode {
    let args: Vec<String> = std::env::args().skip(1).collect();
    let [program, scripts, expected, folder] = &args[..] else {
        eprintln!("usage: runner PROGRAM SCRIPTS EXPECTED FOLDER");
        return ExitCode::FAILURE;
    };
    let read = |path| fs::read(path).expect("cannot read the batch");
    let (scripts, expected) = (read(scripts), read(expected));
    let (scripts, expected) = (driver::unpack(&scripts), driver::unpack(&expected));
    assert_eq!(scripts.len(), expected.len());
    let pairs: Vec<_> = scripts.into_iter().zip(expected).collect();

    let next = AtomicUsize::new(0);
    let half = |k: u8| work(program, &pairs, &next, &format!("{folder}/input{k}"));
    let mut differ = thread::scope(|s| {
        let other = s.spawn(|| half(1));
        [half(0), other.join().unwrap()].concat()
    });
    differ.sort();

    if let Some(&first) = differ.first() {
        let (script, expected) = pairs[first];
        fs::write(format!("{folder}/expected"), expected).unwrap();
        let again = printed(program, script, &format!("{folder}/script"));
        fs::write(format!("{folder}/printed"), again).unwrap();
        println!("script {first} differs first; see {folder}/script, expected and printed");
    }
    let (all, bad) = (pairs.len(), differ.len());
    println!("compared {all} scripts: {} agree, {bad} differ", all - bad);
    if bad == 0 { ExitCode::SUCCESS } else { ExitCode::FAILURE }
}
