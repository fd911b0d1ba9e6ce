//! The place of a record that can't be read is "the offset of the byte that
//! decided it", and damaged logs reach all of them.

use std::collections::BTreeSet;

use reference::generate::{any_log, damaged_log, times, Rng};
use reference::record::{self, Reader, Reading};
use reference::{number, Refusal, Refused};

const HIGH_BIT: u8 = 0x80;
/// The kind of a run of written bytes.
const RUN: u8 = 8;
/// From this on a fifth group is worth 2^32 or more.
const TOO_LARGE: u8 = 0x10;

fn refused(code: Refusal, place: usize) -> Reading {
    Reading::Refused(Refused { code, place })
}

/// How many groups with the high bit stand right before `place`, in the record
/// that starts at `start`.
fn groups(log: &[u8], start: usize, place: usize) -> usize {
    log[start + 1..place].iter().rev().take_while(|byte| **byte & HIGH_BIT != 0).count()
}

/// How many numbers of that record end before `place`.
fn numbers(log: &[u8], start: usize, place: usize) -> usize {
    log[start + 1..place].iter().filter(|byte| **byte & HIGH_BIT == 0).count()
}

/// What is owed of the record at `start`, which is refused.
fn check(rng: &mut Rng, log: &[u8], start: usize, Refused { code, place }: Refused) {
    match code {
        Refusal::EndsInside => return check_end(log, start, place),
        Refusal::NotShortest => {
            assert!(log[place] == 0 && groups(log, start, place) > 0, "{start} of {log:02X?}");
        }
        Refusal::TooLarge => {
            assert!(log[place] >= TOO_LARGE, "{start} of {log:02X?}");
            assert_eq!(groups(log, start, place), 4, "{start} of {log:02X?}");
        }
        Refusal::UnknownKind => assert!(place == start && !matches!(log[start], 1..=11 | 14)),
        Refusal::OutOfRange => return check_length(rng, log, start, place),
        _ => panic!("{code:?} isn't the reader's"),
    }
    check_decided(rng, log, start, Refused { code, place });
}

/// "The reader's 5: the first byte of the length number", a number that
/// can be read and isn't 1-32. It ends the bytes that decide.
fn check_length(rng: &mut Rng, log: &[u8], start: usize, place: usize) {
    assert_eq!((log[start], numbers(log, start, place)), (RUN, 1), "{start} of {log:02X?}");
    let (length, next) = number::read(log, place).expect("a length");
    assert!(!(1..=32).contains(&length), "{start} of {log:02X?}");
    for tail in any_tails(rng, &log[next..]) {
        let other = [&log[..next], &tail].concat();
        assert_eq!(record::read(&other, start), refused(Refusal::OutOfRange, place));
    }
    for cut in place..next {
        assert_eq!(record::read(&log[..cut], start), refused(Refusal::EndsInside, cut));
    }
}

/// "the log's end for 1". A longer log may be refused otherwise, by a last
/// group of zero or a fifth one, or not at all.
fn check_end(log: &[u8], start: usize, place: usize) {
    assert_eq!(place, log.len());
    for length in start + 1..place {
        assert_eq!(record::read(&log[..length], start), refused(Refusal::EndsInside, length));
    }
    match (log[start], numbers(log, start, place)) {
        (RUN, 0) => check_end_of_number(log, start, place, &[1; 34]),
        (RUN, 1) if groups(log, start, place) == 0 => {
            check_end_of_number(log, start, place, &[1; 34]);
        }
        // A length of more groups than one is above 127, or ends with a zero group.
        (RUN, 1) => {}
        (RUN, _) => check_end_of_raw(log, start),
        _ => check_end_of_number(log, start, place, &[0; 11]),
    }
}

/// A log that ends inside raw bytes: any that are missing make it whole.
fn check_end_of_raw(log: &[u8], start: usize) {
    let (_, at) = number::read(log, start + 1).expect("an address");
    let (length, raw) = number::read(log, at).expect("a length");
    let next = raw + length as usize;
    assert!((1..=32).contains(&length) && next > log.len(), "{start} of {log:02X?}");
    for missing in [0x00, 0x80, 0xFF] {
        let whole = [log, &vec![missing; next - log.len()]].concat();
        let read = record::read(&whole, start);
        assert!(matches!(read, Reading::Record { next: after, .. } if after == next), "{read:?}");
    }
}

/// A log that ends inside a number, or before one; `rest` makes it whole.
fn check_end_of_number(log: &[u8], start: usize, place: usize, rest: &[u8]) {
    let zero = [log, &[HIGH_BIT, 0]].concat();
    let other = match groups(log, start, place) {
        4 => refused(Refusal::TooLarge, place),
        _ => refused(Refusal::NotShortest, place + 1),
    };
    assert_eq!(record::read(&zero, start), other, "{start} of {log:02X?}");
    let whole = [log, &[1], rest].concat();
    assert!(matches!(record::read(&whole, start), Reading::Record { .. }), "{whole:02X?}");
}

/// The bytes up to and including the place decide for 2, 3 and 4: whatever
/// follows them, the answer is the same; and without that byte the log ends
/// inside the record, or has none.
fn check_decided(rng: &mut Rng, log: &[u8], start: usize, Refused { code, place }: Refused) {
    let (decided, rest) = log.split_at(place + 1);
    for tail in any_tails(rng, rest) {
        let other = [decided, &tail].concat();
        assert_eq!(record::read(&other, start), refused(code, place), "{start} of {other:02X?}");
    }
    let without = match code {
        Refusal::UnknownKind => Reading::End,
        _ => refused(Refusal::EndsInside, place),
    };
    assert_eq!(record::read(&log[..place], start), without, "{start} of {log:02X?}");
}

/// What may follow in a log: `rest`, nothing, and other bytes.
fn any_tails(rng: &mut Rng, rest: &[u8]) -> [Vec<u8>; 7] {
    let any: Vec<u8> = (0..rng.place(12)).map(|_| rng.any() as u8).collect();
    [vec![], rest.to_vec(), any, vec![0], vec![1; 50], vec![HIGH_BIT], vec![0xFF; 6]]
}

/// Reads a log from every byte on; gives which refusals were met.
fn check_all(rng: &mut Rng, log: &[u8]) -> BTreeSet<u32> {
    let mut met = BTreeSet::new();
    for start in 0..log.len() {
        if let Reading::Refused(refused) = record::read(log, start) {
            check(rng, log, start, refused);
            met.insert(refused.code.number());
        }
    }
    met
}

#[test]
fn the_byte_that_decided_it() {
    let mut rng = Rng::new(23);
    let mut met = BTreeSet::new();
    for seed in 0..times(1_000) {
        met.extend(check_all(&mut rng, &damaged_log(seed, 12)));
        met.extend(check_all(&mut rng, &any_log(seed, 6)));
    }
    assert_eq!(met, BTreeSet::from([1, 2, 3, 4, 5]));
}

/// Bytes at which numbers are judged otherwise.
const BYTES: [u8; 7] = [0x00, 0x01, 0x0F, 0x10, 0x7F, 0x80, 0xFF];

/// The refusal of bytes as a number, by the rows of the paper's table.
fn by_rows(bytes: &[u8]) -> Option<Refused> {
    let high = bytes.iter().take(5).take_while(|byte| **byte & HIGH_BIT != 0).count();
    let (code, place) = match bytes.get(high) {
        _ if high == 5 => (Refusal::TooLarge, 4),
        None => (Refusal::EndsInside, bytes.len()),
        Some(TOO_LARGE..) if high == 4 => (Refusal::TooLarge, 4),
        Some(0) if high > 0 => (Refusal::NotShortest, high),
        Some(_) => return None,
    };
    Some(Refused { code, place })
}

#[test]
fn numbers_of_up_to_six_bytes() {
    let mut all = vec![Vec::new()];
    for _ in 0..=6 {
        for bytes in &all {
            assert_eq!(number::parse(bytes).err(), by_rows(bytes), "{bytes:02X?}");
        }
        let longer = all.iter().flat_map(|start| BYTES.map(|byte| [start, &[byte][..]].concat()));
        all = longer.collect();
    }
}

/// Which number of which kind can't be read, why, and how many groups stand
/// before what decided it.
type Spot = (u32, u8, usize, usize);

/// The spot at which a log can't be read, if it is a number's.
fn spot(log: &[u8]) -> Option<Spot> {
    let mut reader = Reader::new(log);
    loop {
        let start = reader.place();
        match reader.read() {
            Reading::Record { .. } => {}
            Reading::End | Reading::Refused(Refused { code: Refusal::UnknownKind, .. }) => {
                return None
            }
            Reading::Refused(Refused { code, place }) => {
                let number = numbers(log, start, place);
                if (log[start], code) == (RUN, Refusal::EndsInside) && number >= 2 {
                    return Some((code.number(), RUN, 2, 0));
                }
                return Some((code.number(), log[start], number, groups(log, start, place)));
            }
        }
    }
}

/// Each number of each kind that has any: cut off after none to four groups,
/// with a group of zero after one to four, and with a fifth that is too large;
/// a run's length that is another, and its raw bytes cut off.
#[test]
fn damaged_logs_reach_every_spot() {
    let mut wanted = BTreeSet::from([(5, RUN, 1, 0), (1, RUN, 2, 0)]);
    let powers = [(1, 10), (9, 10), (11, 11)];
    let others = [(2, 2), (3, 2), (5, 6), (RUN, 2), (10, 7), (14, 1)];
    for (kind, count) in powers.into_iter().chain(others) {
        for number in 0..count {
            wanted.extend((0..=4).map(|groups| (1, kind, number, groups)));
            wanted.extend((1..=4).map(|groups| (2, kind, number, groups)));
            wanted.insert((3, kind, number, 4));
        }
    }
    let met: BTreeSet<Spot> =
        (0..times(60_000)).filter_map(|seed| spot(&damaged_log(seed, 20))).collect();
    assert_eq!(met, wanted);
}
