//! The project's stored logs through the library alone: runlog's lines, what
//! the model holds after each record, and where two logs part.

use library::calls;
use library::layout::{words_of, IMAGE, REPORT, SETTINGS, SHOWN};
use std::fs;
use std::ops::RangeInclusive;
use std::path::{Path, PathBuf};

/// The registers whose bytes the stored lines of `state` have.
const BYTES: RangeInclusive<u32> = 0x00..=0x26;

/// The bands' names by their numbers, which TS_STAT has; 5 and 6 are none.
const BANDS: [&str; 8] = ["normal", "cold", "hot", "cool", "warm", "", "", "mixed"];

/// The address of TS_STAT, bits 2:0.
const TS_STAT: u32 = 0x1E;

/// The longest input a program takes.
const MOST_INPUT: usize = 65_536;

fn folder(name: &str) -> PathBuf {
    Path::new(env!("CARGO_MANIFEST_DIR")).join("../../crates/test_vectors/data").join(name)
}

fn bytes(path: &Path) -> Vec<u8> {
    fs::read(path).unwrap_or_else(|error| panic!("can't read {}: {error}", path.display()))
}

/// Compares `made` of each stored answer's path with the answer.
fn compare(name: &str, made: impl Fn(&Path) -> String) {
    let entries = fs::read_dir(folder(name)).expect("the folder of stored answers");
    let paths = entries.map(|entry| entry.expect("an entry of the folder").path());
    let mut compared = 0;
    for path in paths.filter(|path| path.extension().is_some_and(|found| found == "out")) {
        let wanted = String::from_utf8(bytes(&path)).expect("text");
        assert_eq!(made(&path), wanted, "{}", path.display());
        compared += 1;
    }
    assert!(compared > 0, "no stored answers in {name}");
}

fn log_of(path: &Path) -> Vec<u8> {
    let name = path.file_stem().expect("a file's name");
    bytes(&folder("runlog").join(name).with_extension("log"))
}

fn words(bytes: &[u8]) -> Vec<u32> {
    words_of(bytes).expect("whole words")
}

fn spaced(numbers: &[u32]) -> String {
    numbers.iter().map(u32::to_string).collect::<Vec<_>>().join(" ")
}

/// One record that was played.
struct Played<'head> {
    number: usize,
    kind: u32,
    answer: u32,
    image: &'head [u8],
    /// What it showed, if it was accepted.
    shown: Option<Vec<u32>>,
}

/// Plays a log to its end, or to what can't be read, and shows `see` each
/// record; gives the last line.
fn play(log: &[u8], mut see: impl FnMut(Played)) -> String {
    let mut image = [0; IMAGE];
    let mut shown = [0; SHOWN];
    let mut place = 0;
    for number in 0.. {
        let played = calls::play(&mut image, log, place, &mut shown);
        if played.kind == 0 {
            return format!("end {number} {} {}\n", played.number, played.place);
        }
        let shown = (played.number == 0).then(|| words(&shown));
        let (kind, answer) = (played.kind, played.number);
        assert!(played.next > place as u64, "a record has bytes");
        see(Played { number: number + 1, kind, answer, image: &image, shown });
        place = played.next as usize;
    }
    unreachable!("a log has an end")
}

/// Phase, current, voltage, input limit, flags and STAT; zeros before a
/// power-on.
fn report(image: &[u8]) -> Vec<u32> {
    let mut report = [0; REPORT];
    let answer = calls::report(image, &mut report);
    assert!(matches!(answer.number, 0 | 6));
    words(&report)
}

fn run_line(played: &Played) -> String {
    let held = report(played.image);
    let pulse = played.shown.as_ref().map_or(0, |shown| shown[4]);
    if let Some(shown) = &played.shown {
        assert_eq!((&shown[..4], shown[5]), (&held[..4], held[4]));
    }
    let line = [&[played.kind, played.answer], &held[..4], &[pulse, held[4]]].concat();
    format!("{} {}\n", played.number, spaced(&line))
}

fn runlog(log: &[u8]) -> String {
    if log.len() > MOST_INPUT {
        return "end 0 13 0\n".to_string();
    }
    let mut lines = String::new();
    let last = play(log, |played| lines.push_str(&run_line(&played)));
    lines + &last
}

fn state_line(played: &Played) -> String {
    let registers: Vec<u32> =
        BYTES.map(|address| calls::register(played.image, address).byte).collect();
    let held = words(played.image);
    let band = BANDS[calls::register(played.image, TS_STAT).byte as usize & 7];
    let stat = ["low", "blinking", "high"][report(played.image)[5] as usize];
    let handed = played.shown.as_ref().map_or(0, |shown| shown[6]);
    let settings = spaced(&held[SETTINGS..SETTINGS + 14]);
    format!("{} : {} : {settings} : {band} {stat} {handed}\n", played.number, spaced(&registers))
}

fn statelog(log: &[u8]) -> String {
    let mut lines = String::new();
    play(log, |played| {
        if words(played.image)[0] != 0 {
            lines.push_str(&state_line(&played));
        }
    });
    lines
}

fn partlog(first: &[u8], second: &[u8]) -> String {
    if first.len().max(second.len()) > MOST_INPUT {
        return "refused 13 0 0\n".to_string();
    }
    let answer = calls::compare(first, second);
    match answer.log {
        1 => format!("rest FIRST {}\n", answer.place),
        2 => format!("rest SECOND {}\n", answer.place),
        _ => format!("refused {} {} {}\n", answer.number, answer.record, answer.place),
    }
}

#[test]
fn runlogs_lines() {
    compare("runlog", |path| runlog(&log_of(path)));
}

#[test]
fn what_the_model_holds() {
    compare("state", |path| statelog(&log_of(path)));
}

#[test]
fn where_two_logs_part() {
    compare("part", |path| {
        partlog(&bytes(&path.with_extension("a")), &bytes(&path.with_extension("b")))
    });
}
