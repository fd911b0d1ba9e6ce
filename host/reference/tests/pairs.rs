//! What holds of two logs read side by side, and what the generated pairs
//! reach.

use std::collections::BTreeSet;

use reference::generate::{damaged_log, events_of, log_pair, times};
use reference::part::{part, Answer, Which};
use reference::{record, Event, Reading, Refusal};

const SEEDS: u64 = 300;

/// The number and place of a record that both logs have reached: that of the
/// first log if it can't be read, else that of the second, else 14 and where
/// it starts.
fn parted(first: &[u8], second: &[u8], record: usize) -> (Refusal, usize) {
    let start: usize = events_of(first)[..record - 1].iter().map(length).sum();
    assert_eq!(first[..start], second[..start]);
    match (record::read(first, start), record::read(second, start)) {
        (Reading::Refused(refused), _) | (_, Reading::Refused(refused)) => {
            (refused.code, refused.place)
        }
        (one, other) => {
            assert_ne!(one, other);
            (Refusal::LogsPart, start)
        }
    }
}

fn length(event: &Event) -> usize {
    record::encode(event).len()
}

/// What is owed of the answer to two logs; gives it.
fn check_pair(first: &[u8], second: &[u8]) -> Answer {
    let parting = part(first, second);
    match parting.answer {
        Answer::Rest { which: Which::First, place } => {
            assert_eq!(first[..place], *second);
            assert_eq!(parting.rest, &first[place..]);
        }
        Answer::Rest { which: Which::Second, place } => {
            assert_eq!(second[..place], *first);
            assert_eq!(parting.rest, &second[place..]);
        }
        Answer::Refused { code, record, place } => {
            assert_eq!((code, place), parted(first, second, record));
            assert!(parting.rest.is_empty());
        }
    }
    parting.answer
}

#[test]
fn pairs_reach_every_answer() {
    let mut codes = BTreeSet::new();
    let mut sides = [false; 3];
    for seed in 0..times(2_000) {
        let (first, second) = log_pair(seed, 20);
        match check_pair(&first, &second) {
            Answer::Rest { which: Which::First, place } => {
                sides[usize::from(first.len() == place)] = true;
            }
            Answer::Rest { which: Which::Second, .. } => sides[2] = true,
            Answer::Refused { code, .. } => drop(codes.insert(code.number())),
        }
    }
    assert_eq!(sides, [true; 3]);
    assert_eq!(codes, BTreeSet::from([1, 2, 3, 4, 5, 14]));
}

/// A damaged log beside each of its starts: often neither can be read, each at
/// a place of its own.
#[test]
fn damaged_logs_and_their_starts() {
    for seed in 0..times(SEEDS) {
        let log = damaged_log(seed, 8);
        for length in 0..=log.len() {
            check_pair(&log, &log[..length]);
            check_pair(&log[..length], &log);
        }
    }
}
