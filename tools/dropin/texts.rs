//! `texts SCRIPTS EXPECTED PRINTED FOLDER` compares two batches of texts, one of
//! each for a script of the first batch. The first script whose texts differ is
//! kept in the folder with both.

use std::fs;
use std::process::ExitCode;

fn main() -> ExitCode {
    let args: Vec<String> = std::env::args().skip(1).collect();
    let [scripts, expected, printed, folder] = &args[..] else {
        eprintln!("usage: texts SCRIPTS EXPECTED PRINTED FOLDER");
        return ExitCode::FAILURE;
    };
    let batches = [scripts, expected, printed].map(|path| fs::read(path).expect("cannot read the batch"));
    let [scripts, expected, printed] = batches.each_ref().map(|batch| driver::unpack(batch));
    assert!(scripts.len() == expected.len() && scripts.len() == printed.len());

    let all = scripts.len();
    let differ: Vec<_> = (0..all).filter(|&i| expected[i] != printed[i]).collect();
    if let Some(&first) = differ.first() {
        for (name, item) in [("script", scripts[first]), ("expected", expected[first]), ("printed", printed[first])] {
            fs::write(format!("{folder}/{name}"), item).expect("cannot write");
        }
        println!("script {first} differs first; see {folder}/script, expected and printed");
    }
    println!("compared {all} scripts: {} agree, {} differ", all - differ.len(), differ.len());
    if differ.is_empty() { ExitCode::SUCCESS } else { ExitCode::FAILURE }
}
