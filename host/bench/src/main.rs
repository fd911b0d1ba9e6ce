//! `bench RUNLOG REFERENCE-RUNLOG`: the static library and the reference on the
//! same logs, in one run. (`bench once CONTENDER` is what the first of them has
//! counted of itself.)

mod counted;
mod events;
mod plain;
mod plain_words;
mod programs;
mod sampled;

use std::env;
use std::path::Path;
use std::process::ExitCode;

fn main() -> ExitCode {
    let words: Vec<String> = env::args().skip(1).collect();
    match words.iter().map(String::as_str).collect::<Vec<_>>().as_slice() {
        ["once", contender] => events::once(contender),
        [runlog, reference] => {
            events::show();
            println!();
            programs::show(Path::new(runlog), Path::new(reference));
        }
        _ => {
            eprintln!("bench RUNLOG REFERENCE-RUNLOG");
            return ExitCode::FAILURE;
        }
    }
    ExitCode::SUCCESS
}
