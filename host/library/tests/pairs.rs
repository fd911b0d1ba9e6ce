//! Two logs side by side.

use library::both;
use library::tally::Tally;
use reference::generate::{any_log, damaged_log, log_pair, plausible_log, times, Rng};

#[test]
fn generated_pairs() {
    let mut tally = Tally::default();
    for seed in 0..times(60_000) {
        let (first, second) = log_pair(seed, 12);
        tally.count(both::compare(&first, &second).number);
        tally.count(both::compare(&second, &first).number);
    }
    tally.met_exactly([0, 1, 2, 3, 4, 5, 14]);
}

#[test]
fn pairs_of_damaged_logs() {
    let mut tally = Tally::default();
    for seed in 0..times(30_000) {
        let one = damaged_log(seed + 9_000_000, 8);
        let other = plausible_log(seed + 9_000_000, 8);
        tally.count(both::compare(&one, &other).number);
        tally.count(both::compare(&other, &one).number);
        tally.count(both::compare(&one, &one).number);
        tally.count(both::compare(&one, &any_log(seed, 2)).number);
    }
    tally.met_exactly([0, 1, 2, 3, 4, 5, 14]);
}

/// A log beside each of its starts: whole records are a start, others are 1.
#[test]
fn a_log_and_each_of_its_starts() {
    let mut tally = Tally::default();
    for seed in 0..times(300) {
        let log = plausible_log(seed, 10);
        for length in 0..=log.len() {
            let start = &log[..length];
            let forth = both::compare(start, &log);
            let back = both::compare(&log, start);
            assert_eq!(forth.number, back.number);
            let longer = if length < log.len() { 2 } else { 1 };
            assert!(forth.number != 0 || (forth.log == longer && back.log == 1));
            tally.count(forth.number);
        }
    }
    tally.met_exactly([0, 1]);
}

/// A damaged log beside each of its starts: often neither can be read, each at
/// a place of its own.
#[test]
fn a_damaged_log_and_each_of_its_starts() {
    let mut tally = Tally::default();
    for seed in 0..times(300) {
        let log = damaged_log(seed + 8_000_000, 10);
        for length in 0..=log.len() {
            tally.count(both::compare(&log[..length], &log).number);
            tally.count(both::compare(&log, &log[..length]).number);
        }
    }
    tally.met_exactly(0..=5);
}

/// Each byte of a log changed in one of the two.
#[test]
fn a_log_and_one_with_a_byte_changed() {
    let mut rng = Rng::new(21);
    let mut tally = Tally::default();
    for seed in 0..times(200) {
        let log = plausible_log(seed, 8);
        for at in 0..log.len() {
            let mut other = log.clone();
            other[at] ^= rng.pick(&[1, 2, 0x40, 0x80, 0xFF]);
            tally.count(both::compare(&log, &other).number);
            tally.count(both::compare(&other, &log).number);
        }
    }
    tally.met_exactly([1, 2, 3, 4, 5, 14]);
}

/// A sixth record that can't be read, its number, and the place of what
/// decided it, from the record's start; the last can be read, to its end.
const SIXTH: [(&[u8], u32, u64); 13] = [
    (&[2], 1, 1),
    (&[2, 1, 0x80], 1, 3),
    (&[9], 1, 1),
    (&[2, 0x80, 0], 2, 2),
    (&[2, 0xFF, 0xFF, 0xFF, 0xFF, 0x7F, 0x80], 3, 5),
    (&[8], 1, 1),
    (&[8, 5, 1], 1, 3),
    (&[8, 5, 0, 1], 5, 2),
    (&[8, 0x85, 1, 0x80, 1], 5, 3),
    (&[10, 1, 2, 3, 4, 5, 6], 1, 7),
    (&[11, 1, 2, 3, 4, 5, 6, 7, 8, 9, 10], 1, 11),
    (&[18], 4, 0),
    (&[2, 1, 1], 0, 3),
];

/// Both unreadable at one record: the first log's answer, with a place in it.
#[test]
fn the_first_log_comes_first() {
    let start = plausible_log(1, 5);
    for in_first in SIXTH {
        for in_second in SIXTH {
            let answer = both::compare(
                &[start.as_slice(), in_first.0].concat(),
                &[start.as_slice(), in_second.0].concat(),
            );
            let (_, number, place) = if in_first.1 != 0 { in_first } else { in_second };
            assert_eq!((answer.number, answer.place), (number, start.len() as u64 + place));
            assert_eq!(answer.record, if number == 0 { 0 } else { 6 });
        }
    }
}

#[test]
fn empty_logs() {
    let log = plausible_log(2, 3);
    let none = both::compare(&[], &[]);
    assert_eq!((none.number, none.log, none.place), (0, 1, 0));
    assert_eq!(both::compare(&log, &[]).log, 1);
    assert_eq!(both::compare(&[], &log).log, 2);
    assert_eq!(both::compare(&[], &[0xFF]).number, 0, "the rest isn't read");
}

/// A long pair that parts at its last record, past what 16 bits can count.
#[test]
fn long_logs_that_part_at_the_end() {
    let log = plausible_log(3, 10_000);
    assert!(log.len() > 1 << 16);
    let one = [log.as_slice(), &[6]].concat();
    let other = [log.as_slice(), &[7]].concat();
    let answer = both::compare(&one, &other);
    assert_eq!((answer.number, answer.record, answer.place), (14, 10_001, log.len() as u64));
}
