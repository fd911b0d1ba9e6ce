//! Logs, whole and damaged, replayed in one call: answers and images, that the
//! records played one by one come to the same, and that a log which grows is
//! caught up with.

use library::answers::Replayed;
use library::both;
use library::image::{self, Held, Powered};
use library::layout::{IMAGE, SHOWN};
use library::tally::Tally;
use reference::generate::{
    any_log, any_state, damaged_log, plausible_log, spoiled_state, times, Rng,
};

/// Replays a log from a place on.
fn replayed(image: &[u8], log: &[u8], place: usize) -> (Replayed, Vec<u8>) {
    let mut image = image.to_vec();
    let answer = both::replay(&mut image, log, place);
    (answer, image)
}

/// The same by `play`, record by record.
fn played(image: &[u8], log: &[u8], place: usize) -> (Replayed, Vec<u8>) {
    let mut image = image.to_vec();
    let mut place = place;
    let mut records = 0;
    loop {
        let played = library::calls::play(&mut image, log, place, &mut [0; SHOWN]);
        if played.kind == 0 {
            let (code, place, next) = (played.number, played.place, played.next);
            return (Replayed { number: 0, code, records, place, next }, image);
        }
        place = played.next as usize;
        records += 1;
    }
}

/// Replays each log from its start, and from a place inside it on what that
/// left.
fn replay_all(logs: impl Iterator<Item = Vec<u8>>) -> Tally {
    let mut tally = Tally::default();
    let mut rng = Rng::new(12);
    for log in logs {
        let (whole, after) = replayed(&[0; IMAGE], &log, 0);
        assert_eq!((whole, after.clone()), played(&[0; IMAGE], &log, 0));
        replayed(&after, &log, rng.place(log.len() + 1));
        tally.count(whole.code);
    }
    tally
}

#[test]
fn plausible_logs() {
    let logs = (0..times(20_000)).map(|seed| plausible_log(seed, (seed % 70) as usize));
    replay_all(logs).met_exactly([0]);
}

#[test]
fn long_logs() {
    let logs = (0..times(300)).map(|seed| plausible_log(!seed, 2_000));
    replay_all(logs).met_exactly([0]);
}

/// Longer than 16 bits can count.
#[test]
fn a_log_above_65536_bytes() {
    let log = plausible_log(1, 10_000);
    assert!(log.len() > 1 << 16);
    replay_all([log].into_iter()).met_exactly([0]);
}

#[test]
fn damaged_logs() {
    let logs = (0..times(40_000)).map(|seed| damaged_log(seed + 2_000_000, 40));
    replay_all(logs).met_exactly(0..=5);
}

#[test]
fn logs_of_any_numbers() {
    let logs = (0..times(20_000)).map(|seed| any_log(seed, 40));
    replay_all(logs).met_exactly([0]);
}

/// Every place of a log, on models from outside, such as pass and such as
/// don't; the latter refuse every record and stay.
#[test]
fn every_place_on_any_model() {
    let mut rng = Rng::new(13);
    let mut tally = Tally::default();
    for seed in 0..times(300) {
        let log = damaged_log(seed, 20);
        for place in 0..=log.len() {
            let passes = image::of(&Held::On(Powered::new(1, 0, any_state(&mut rng))));
            tally.count(replayed(&passes, &log, place).0.code);
            let spoiled = image::of(&Held::On(Powered::new(1, 0, spoiled_state(&mut rng))));
            assert_eq!(replayed(&spoiled, &log, place).1, spoiled);
        }
    }
    tally.met_exactly(0..=5);
}

/// An answer without a record: place and next are as given.
fn none(number: u32, place: usize) -> Replayed {
    Replayed { number, code: 0, records: 0, place: place as u64, next: place as u64 }
}

/// At the log's end and past it no record is read, and no byte changes.
#[test]
fn the_end_and_past_it() {
    let log = plausible_log(1, 40);
    let far = [1 << 16, 1 << 32, usize::MAX - 1, usize::MAX];
    for place in (log.len()..log.len() + 20).chain(far) {
        for log in [&log[..], &[]] {
            let (answer, image) = replayed(&[0; IMAGE], log, place);
            assert_eq!((answer, &image[..]), (none(0, place), &[0; IMAGE][..]));
        }
    }
}

/// With bytes that aren't an image no record is looked for, at no place.
#[test]
fn bytes_that_are_no_image() {
    let log = damaged_log(1, 40);
    for place in (0..log.len() + 20).chain([1 << 16, 1 << 32, usize::MAX]) {
        for bytes in [&[2; IMAGE][..], &[0; IMAGE - 1]] {
            let (answer, left) = replayed(bytes, &log, place);
            assert_eq!((answer, &left[..]), (none(5, place), bytes));
        }
    }
}

/// "Once it is longer, a replay of it from `next`, on the image as it was left,
/// comes to what replaying the longer log whole would have". Gives the code at
/// which the shorter log was left.
fn caught_up(image: &[u8], log: &[u8], length: usize, whole: &(Replayed, Vec<u8>)) -> u32 {
    let (early, left) = replayed(image, &log[..length], 0);
    let (late, after) = replayed(&left, log, early.next as usize);
    let records = early.records + late.records;
    assert_eq!(&(Replayed { records, ..late }, after), whole, "{length} of {log:02X?}");
    early.code
}

/// Logs cut at every place, on models that are off and such as pass.
#[test]
fn logs_that_grow() {
    let mut rng = Rng::new(24);
    let mut tally = Tally::default();
    for seed in 0..times(400) {
        let log = match seed % 3 {
            0 => plausible_log(seed + 3_000_000, 20),
            _ => damaged_log(seed + 3_000_000, 20),
        };
        let on = image::of(&Held::On(Powered::new(1, 0, any_state(&mut rng))));
        for image in [&[0; IMAGE][..], &on] {
            let whole = replayed(image, &log, 0);
            for length in 0..=log.len() {
                tally.count(caught_up(image, &log, length, &whole));
            }
        }
    }
    tally.met_exactly(0..=5);
}

/// A head that replays its log whenever it has a few bytes more, from `next`.
#[test]
fn a_log_that_grows_by_a_few_bytes() {
    let mut rng = Rng::new(25);
    for seed in 0..times(1_000) {
        let log = damaged_log(seed + 4_000_000, 30);
        let (whole, after) = replayed(&[0; IMAGE], &log, 0);
        let (mut last, mut image) = (none(0, 0), vec![0; IMAGE]);
        let mut length = 0;
        let mut records = 0;
        while length < log.len() {
            length = log.len().min(length + 1 + rng.place(4));
            (last, image) = replayed(&image, &log[..length], last.next as usize);
            records += last.records;
        }
        assert_eq!((Replayed { records, ..last }, image), (whole, after), "{log:02X?}");
    }
}
