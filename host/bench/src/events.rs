//! Records a second, and nanoseconds and instructions a record, of contenders
//! that do the same work: the library's `replay` and the reference with its
//! model in memory play a log on a model; the library's `play` and the plain
//! one besides load, test and save an image and show what they did for each
//! record. The tests' own `play`, with vectors, stands beside them.

use crate::counted::instructions;
use crate::plain;
use crate::sampled::{by_turns, ratio, Sampled};
use library::answers::Played;
use library::layout::{IMAGE, SHOWN};
use library::{calls, expected};
use reference::generate::plausible_log;
use reference::record::{Reader, Reading};
use reference::Model;
use std::env;
use std::hint::black_box;
use std::process::Stdio;

const LOGS: u64 = 40;
const RECORDS: usize = 2_000;

/// Plays a log and gives how many records it has.
type Player = fn(&[u8]) -> usize;

/// What is measured, and what its line says.
const CONTENDERS: [(&str, Player); 5] = [
    ("library, replay", replayed),
    ("reference, model in memory", in_memory),
    ("library, play over an image", |log| over_an_image(log, calls::play)),
    ("reference, plain play", |log| over_an_image(log, plain::play)),
    ("reference, play of the tests", |log| over_an_image(log, expected::play)),
];

/// Which of them are set against each other, and in what.
const PAIRS: [(usize, usize, &str); 2] =
    [(0, 1, "replay to the model in memory"), (2, 3, "play to the plain play")];

/// A whole log in one call.
fn replayed(log: &[u8]) -> usize {
    let mut image = [0; IMAGE];
    let replayed = calls::replay(&mut image, log, 0);
    black_box(&image);
    replayed.records as usize
}

/// Over an image, with one of the implementations of `play`.
fn over_an_image(log: &[u8], play: fn(&mut [u8], &[u8], usize, &mut [u8]) -> Played) -> usize {
    let (mut image, mut shown) = ([0; IMAGE], [0; SHOWN]);
    let mut place = 0;
    let mut records = 0;
    loop {
        let played = play(&mut image, log, place, &mut shown);
        black_box(&shown);
        if played.kind == 0 {
            return records;
        }
        place = played.next as usize;
        records += 1;
    }
}

/// The reference as it stands: the model stays in memory, and no report is
/// made. It tests before each record that the model holds what it may; a replay
/// does so once for many records.
fn in_memory(log: &[u8]) -> usize {
    let mut reader = Reader::new(log);
    let mut model = Model::Off;
    let mut records = 0;
    while let Reading::Record { event, .. } = reader.read() {
        let step = model.step(&event);
        black_box((step.pulse, step.handed));
        model = step.model;
        records += 1;
    }
    records
}

fn logs() -> Vec<Vec<u8>> {
    (0..LOGS).map(|seed| plausible_log(seed, RECORDS)).collect()
}

fn play_all(logs: &[Vec<u8>], play: Player) {
    let records: usize = logs.iter().map(|log| play(log)).sum();
    assert_eq!(records, LOGS as usize * RECORDS);
}

/// Makes the logs and plays them once with the contender of this number, or
/// with none: what `show` has counted.
pub fn once(contender: &str) {
    let logs = black_box(logs());
    let number: Option<usize> = contender.parse().ok();
    if let Some((_, play)) = number.and_then(|number| CONTENDERS.get(number)) {
        play_all(&logs, *play);
    }
}

/// The instructions of `once`.
fn counted(contender: &str) -> u64 {
    let this = env::current_exe().expect("this program's path");
    instructions(&this, &["once", contender], Stdio::null())
}

/// The instructions of each contender, a record.
fn counted_each() -> [u64; CONTENDERS.len()] {
    let making = counted("none");
    std::array::from_fn(|number| (counted(&number.to_string()) - making) / (LOGS * RECORDS as u64))
}

/// Prints the table.
pub fn show() {
    let logs = &logs();
    let sampled = by_turns(CONTENDERS.map(|(_, play)| move || play_all(logs, play)));
    let each = counted_each();
    println!(
        "{LOGS} logs of {RECORDS} records          best records/s      median   best ns/record   median   instructions/record"
    );
    for ((name, _), (sampled, each)) in CONTENDERS.iter().zip(sampled.iter().zip(each)) {
        line(name, sampled, each);
    }
    for (one, other, name) in PAIRS {
        println!(
            "library to the reference, {name}: {:.2} by best time, {:.2} by instructions",
            ratio(sampled[one].best, sampled[other].best),
            each[one] as f64 / each[other] as f64
        );
    }
}

fn line(name: &str, sampled: &Sampled, each: u64) {
    let records = (LOGS as usize * RECORDS) as f64;
    let [best, median] = [sampled.best, sampled.median].map(|taken| taken.as_secs_f64());
    let [a_second, by_median] = [best, median].map(|taken| (records / taken) as u64);
    let [least, middle] = [best, median].map(|taken| taken * 1e9 / records);
    println!("  {name:<30} {a_second:>14} {by_median:>11} {least:>16.1} {middle:>8.1} {each:>21}");
}
