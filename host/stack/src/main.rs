//! `stack ARCHIVE [FILE..]`: the stack bytes of each call of an archive, and
//! whether the tables of these files say the same. The status is 1 if one
//! doesn't.

mod chains;
mod listing;
mod object;
mod table;

use std::env;
use std::fs;
use std::path::Path;
use std::process::ExitCode;

fn main() -> ExitCode {
    let words: Vec<String> = env::args().skip(1).collect();
    let Some((archive, files)) = words.split_first() else {
        eprintln!("stack ARCHIVE [FILE..]");
        return ExitCode::FAILURE;
    };
    let all = listing::functions(&object::disassembled(Path::new(archive)));
    let calls = chains::calls(&all);
    chains::show(&all, &calls);
    let mut told = ExitCode::SUCCESS;
    for file in files {
        let text = fs::read_to_string(file).unwrap_or_else(|why| panic!("{file}: {why}"));
        for miss in table::misses(&text, &calls) {
            eprintln!("{file}: {miss}");
            told = ExitCode::FAILURE;
        }
    }
    told
}
