//! Single events outside a log, by kind and words.

use library::both;
use library::given;
use library::image::{self, Held, Powered};
use library::layout::{bytes_of, IMAGE, SHOWN};
use library::tally::Tally;
use reference::generate::{any_event, any_state, plausible_events, times, Rng};
use reference::record::encode;
use reference::Event;

/// How many words each kind has.
const COUNTS: [(u32, usize); 12] = [
    (1, 10),
    (2, 2),
    (3, 2),
    (4, 0),
    (5, 6),
    (6, 0),
    (7, 0),
    (8, 10),
    (9, 10),
    (10, 7),
    (11, 11),
    (14, 1),
];

fn give(image: &mut [u8], event: &Event, shown: &mut [u8]) -> u32 {
    let words = given::words(event);
    let answer = both::event(image, event.kind().into(), &words, shown);
    assert_eq!(answer.place, 0, "an event given outside a log has place 0");
    answer.number
}

fn any_powered(rng: &mut Rng) -> Vec<u8> {
    let state = any_state(rng);
    image::of(&Held::On(Powered::new(rng.within(0, 7), rng.any(), state)))
}

/// A run of events, each given outside a log and played from one.
#[test]
fn runs_outside_a_log_are_runs_of_one() {
    let mut tally = Tally::default();
    for seed in 0..times(10_000) {
        let (mut outside, mut inside) = ([0; IMAGE], [0; IMAGE]);
        for event in plausible_events(seed + 5_000_000, 20) {
            let (mut shown, mut played) = ([0xEE; SHOWN], [0xEE; SHOWN]);
            let number = give(&mut outside, &event, &mut shown);
            let answer = both::play(&mut inside, &encode(&event), 0, &mut played);
            assert_eq!((number, outside, shown), (answer.number, inside, played));
            tally.count(number);
        }
    }
    tally.met_exactly([0, 5, 6, 7, 8, 9, 10, 11, 15]);
}

#[test]
fn any_events_on_any_model() {
    let mut rng = Rng::new(16);
    let mut tally = Tally::default();
    for _ in 0..times(100_000) {
        let mut image = any_powered(&mut rng);
        tally.count(give(&mut image, &any_event(&mut rng), &mut [0xEE; SHOWN]));
        let mut off = [0; IMAGE];
        tally.count(give(&mut off, &any_event(&mut rng), &mut [0xEE; SHOWN]));
    }
    tally.met_exactly([0, 5, 6, 7, 8, 9, 10, 11, 15]);
}

/// "words that aren't as many are 5", be it by a byte.
#[test]
fn words_of_every_count() {
    let mut rng = Rng::new(17);
    let words: Vec<u8> = bytes_of(&[1; 20]);
    for (kind, count) in COUNTS {
        for length in (0..=words.len()).filter(|length| *length != 4 * count) {
            for mut image in [vec![0; IMAGE], any_powered(&mut rng)] {
                let answer = both::event(&mut image, kind, &words[..length], &mut [0xEE; SHOWN]);
                assert_eq!(answer.number, 5, "kind {kind}, {length} bytes");
            }
            let written = both::write(kind, &words[..length], &mut [0xEE; 60]);
            assert_eq!((written.number, written.count), (5, 0));
        }
    }
}

/// "An unknown kind is 4", whatever the words and whatever the model holds.
#[test]
fn unknown_kinds() {
    let mut rng = Rng::new(18);
    let words = bytes_of(&[1; 11]);
    let large = (8..32).flat_map(|shift| (0..15).map(move |low| (1u32 << shift) + low));
    let small = [0, 12, 13, u32::MAX].into_iter();
    for kind in small.chain(15..=300).chain(large) {
        let mut bad = [1; 4].repeat(IMAGE / 4);
        bad[..4].copy_from_slice(&1u32.to_le_bytes());
        for length in [0, 3, 8, 24, 28, 40, 44] {
            for mut image in [vec![0; IMAGE], any_powered(&mut rng)] {
                let answer = both::event(&mut image, kind, &words[..length], &mut [0xEE; SHOWN]);
                assert_eq!(answer.number, 4);
            }
            assert_eq!(both::event(&mut bad, kind, &words[..length], &mut [0; SHOWN]).number, 5);
            let written = both::write(kind, &words[..length], &mut [0xEE; 60]);
            assert_eq!((written.number, written.count), (4, 0));
        }
    }
}

/// A model that doesn't pass: an unknown kind is no event, and 4 all the same;
/// of words that aren't as many, 5 either way.
#[test]
fn unknown_kinds_on_a_model_that_does_not_pass() {
    let mut rng = Rng::new(19);
    for _ in 0..times(1_000) {
        let state = reference::State { ohms: 33_001, ..any_state(&mut rng) };
        let bytes = image::of(&Held::On(Powered::new(0, 0, state)));
        let give = |kind| both::event(&mut bytes.clone(), kind, &[], &mut [0; SHOWN]).number;
        assert_eq!([0, 13, 15, 18].map(give), [4; 4]);
        assert_eq!([4, 1, 9, 8, 10, 11, 14].map(give), [5; 7]);
    }
}

/// Any kind and any words, as a head with a fault might give them.
#[test]
fn any_kinds_and_words() {
    let mut rng = Rng::new(20);
    let mut tally = Tally::default();
    for _ in 0..times(50_000) {
        let kind = if rng.once_in(8) { rng.any_length() } else { rng.within(0, 15) };
        let count = COUNTS.iter().find(|row| row.0 == kind).map_or(0, |row| row.1);
        let count = if rng.once_in(4) { rng.place(12) } else { count };
        let any = |at| match at {
            // A run's bytes: mostly none, so that some runs have a record.
            2.. if kind == 8 && !rng.once_in(12) => 0,
            _ if rng.coin() => rng.within(0, 40),
            _ => rng.any_length(),
        };
        let words: Vec<u32> = (0..count).map(any).collect();
        let mut image = any_powered(&mut rng);
        let words = bytes_of(&words);
        tally.count(both::event(&mut image, kind, &words, &mut [0xEE; SHOWN]).number);
        both::write(kind, &words, &mut vec![0xEE; rng.place(60)]);
    }
    tally.met_exactly([0, 4, 5, 7, 8, 9, 10, 11, 15]);
}
