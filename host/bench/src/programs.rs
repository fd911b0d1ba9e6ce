//! `runlog` over a log of 65,536 bytes, the project's and the reference's: by
//! time, and by instructions as callgrind counts them.

use crate::counted::instructions;
use crate::sampled::{by_turns, ratio, Sampled};
use reference::generate::plausible_events;
use reference::record::encode;
use reference::run::MOST_INPUT;
use std::fs::{self, File};
use std::path::{Path, PathBuf};
use std::process::{Command, Stdio};

/// A log of exactly as many bytes as a program takes, filled up with kind 4.
fn long_log() -> Vec<u8> {
    let mut log = Vec::new();
    for event in plausible_events(1, MOST_INPUT / 2) {
        let record = encode(&event);
        if log.len() + record.len() > MOST_INPUT {
            break;
        }
        log.extend(record);
    }
    log.resize(MOST_INPUT, 4);
    log
}

/// A log in a file of its own, which goes when this does.
struct Stored(PathBuf);

impl Stored {
    fn new(name: &str, log: &[u8]) -> Stored {
        let path = std::env::temp_dir().join(format!("cheukdane-{}-{name}", std::process::id()));
        fs::write(&path, log).expect("the log is stored");
        Stored(path)
    }

    fn open(&self) -> File {
        File::open(&self.0).expect("the stored log")
    }
}

impl Drop for Stored {
    fn drop(&mut self) {
        // A file that stays in the temporary folder does no harm.
        let _ = fs::remove_file(&self.0);
    }
}

fn printed(program: &Path, log: &Stored) -> Vec<u8> {
    let output = Command::new(program).stdin(log.open()).output().expect("the program starts");
    assert!(output.status.success(), "{} ended with {}", program.display(), output.status);
    output.stdout
}

fn run(program: &Path, log: &Stored) {
    let status = Command::new(program).stdin(log.open()).stdout(Stdio::null()).status();
    assert!(status.expect("the program starts").success());
}

/// Prints the table.
pub fn show(ours: &Path, reference: &Path) {
    let long = Stored::new("long", &long_log());
    let empty = Stored::new("empty", &[]);
    let [one, other] = [ours, reference].map(|path| printed(path, &long));
    assert!(one == other, "the two programs print alike");
    let records = one.iter().filter(|byte| **byte == b'\n').count() - 1;
    let log = &long;
    let [ours_time, reference_time] =
        by_turns([ours, reference].map(|path| move || run(path, log)));
    let counted = [ours, reference].map(|path| {
        let whole = instructions(path, &[], long.open().into());
        (whole, whole - instructions(path, &[], empty.open().into()))
    });
    println!("runlog, {MOST_INPUT} bytes, {records} records   best ms   median ms   best ns/record   instructions   less an empty log's");
    line("runlog", &ours_time, records, counted[0]);
    line("reference", &reference_time, records, counted[1]);
    println!(
        "runlog to the reference: {:.2} by best time, {:.2} by instructions, {:.2} less an empty log's",
        ratio(ours_time.best, reference_time.best),
        counted[0].0 as f64 / counted[1].0 as f64,
        counted[0].1 as f64 / counted[1].1 as f64,
    );
}

fn line(name: &str, time: &Sampled, records: usize, (whole, of_records): (u64, u64)) {
    let [best, median] = [time.best, time.median].map(|taken| taken.as_secs_f64() * 1e3);
    let each = best * 1e6 / records as f64;
    println!("  {name:<33} {best:>9.2} {median:>11.2} {each:>16.1} {whole:>14} {of_records:>21}");
}
