//! The stored answers of the program test_spelling, by the reference: each file
//! read at every place, cut off at every length, and its first event written
//! into rooms of every size.

use std::fs;
use std::path::{Path, PathBuf};

use reference::record::{encode, read, write, Reading};

/// What fills a room before a record is written.
const BEFORE: u8 = 0xEE;
/// A place past the end of every file.
const FAR: usize = 300;

fn folder() -> PathBuf {
    Path::new(env!("CARGO_MANIFEST_DIR")).join("../../crates/test_spelling")
}

fn text(name: &str) -> String {
    fs::read_to_string(folder().join(name)).expect("a file of text")
}

fn told(log: &[u8], place: usize) -> String {
    match read(log, place) {
        Reading::Record { event, next } => format!("record {} to {next}\n", event.kind()),
        Reading::Refused(refused) => {
            format!("refused {} at {}\n", refused.code.number(), refused.place)
        }
        Reading::End => "end\n".to_string(),
    }
}

/// A record written into so much room.
fn room(log: &[u8], size: usize) -> String {
    let Reading::Record { event, .. } = read(log, 0) else { unreachable!("it was read") };
    let mut part = vec![BEFORE; size];
    let answer = match write(&mut part, &event) {
        Ok(count) => format!("wrote {count}"),
        Err(refused) => format!("refused {}", refused.code.number()),
    };
    let changed = part.iter().filter(|byte| **byte != BEFORE).count();
    format!("room {size}: {answer}, {}changed {changed}\n", told(&part, 0))
}

/// What the program prints for a file.
fn printed(name: &str) -> String {
    let log = fs::read(folder().join("data").join(name)).expect("a stored file");
    let places = (0..=log.len()).chain([FAR]);
    let mut lines = format!("== {name}\n");
    lines.extend(places.map(|place| format!("place {place}: {}", told(&log, place))));
    lines.extend((0..log.len()).map(|length| format!("cut {length}: {}", told(&log[..length], 0))));
    if let Reading::Record { event, .. } = read(&log, 0) {
        lines.extend((0..encode(&event).len() + 2).map(|size| room(&log, size)));
    }
    lines
}

#[test]
fn stored_answers() {
    let printed: String = text("args").lines().map(printed).collect();
    for (made, wanted) in printed.lines().zip(text("stdout").lines()) {
        assert_eq!(made, wanted);
    }
    assert_eq!(printed, text("stdout"));
}
