//! What an event leaves of an image and shows, by each of the calls that take
//! it: given by its words, or played and replayed by its record; the words of
//! what is left; and what the tests of a kind share: images and numbers to try,
//! its refusals, and what its records lead to and are compared by.

use crate::both;
use crate::image::{self, Held, Powered};
use crate::layout::{bytes_of, words_of, BANDS, IMAGE, RECORD, SHOWN, WORD};
use crate::tally::Tally;
use reference::generate::{any_state, events_of, plausible_events, spelled, spoiled_state, Rng};
use reference::record::numbers_of;
use reference::{number, Event};

/// The word at an index of bytes.
pub fn word(bytes: &[u8], index: usize) -> u32 {
    words_of(bytes).expect("whole words")[index]
}

/// An image with another word at an index.
pub fn with_word(image: &[u8], index: usize, word: u32) -> Vec<u8> {
    let mut bytes = image.to_vec();
    bytes[WORD * index..][..WORD].copy_from_slice(&word.to_le_bytes());
    bytes
}

/// The two thermistors' bands that an image has.
pub fn bands(image: &[u8]) -> [u32; 2] {
    [word(image, BANDS), word(image, BANDS + 1)]
}

/// An image with other bands of the two thermistors.
pub fn with_bands(image: &[u8], [first, second]: [u32; 2]) -> Vec<u8> {
    with_word(&with_word(image, BANDS, first), BANDS + 1, second)
}

/// An event's numbers with another at an index.
pub fn with_number<const N: usize>(mut numbers: [u32; N], index: usize, value: u32) -> [u32; N] {
    numbers[index] = value;
    numbers
}

/// What an event leaves: its answer, the image, and what it shows.
pub type Left = (u32, Vec<u8>, [u8; SHOWN]);

/// By its words.
pub fn given(image: &[u8], kind: u32, numbers: &[u32]) -> Left {
    let (mut image, mut shown) = (image.to_vec(), [0xEE; SHOWN]);
    let answer = both::event(&mut image, kind, &bytes_of(numbers), &mut shown);
    (answer.number, image, shown)
}

/// By its record, which is written and played.
pub fn played(image: &[u8], kind: u32, numbers: &[u32]) -> Left {
    let (mut image, mut shown) = (image.to_vec(), [0xEE; SHOWN]);
    let record = written(kind, numbers);
    let answer = both::play(&mut image, &record, 0, &mut shown);
    assert_eq!((answer.kind, answer.next), (kind, record.len() as u64));
    (answer.number, image, shown)
}

/// The image alone, by its record, which is written and replayed.
pub fn replayed(image: &[u8], kind: u32, numbers: &[u32]) -> Vec<u8> {
    let mut image = image.to_vec();
    let answer = both::replay(&mut image, &written(kind, numbers), 0);
    assert_eq!((answer.number, answer.code, answer.records), (0, 0, 1));
    image
}

/// What every call leaves of an event: the same. A refusal changes no byte.
pub fn by_each(image: &[u8], kind: u32, numbers: &[u32]) -> Left {
    let left = given(image, kind, numbers);
    assert_eq!(left, played(image, kind, numbers));
    assert_eq!(left.1, replayed(image, kind, numbers));
    if left.0 != 0 {
        assert_eq!((&left.1[..], left.2), (image, [0xEE; SHOWN]), "a refusal changes no byte");
    }
    left
}

/// Fails unless an event with any of these numbers, each at its place, is
/// refused by every call with this answer, and changes no byte.
pub fn each_refused<const N: usize>(
    image: &[u8],
    kind: u32,
    numbers: [u32; N],
    refused: &[(usize, u32)],
    answer: u32,
) {
    for (index, value) in refused {
        let left = by_each(image, kind, &with_number(numbers, *index, *value));
        assert_eq!(left, (answer, image.to_vec(), [0xEE; SHOWN]), "{index} {value}");
    }
}

/// Numbers of a power-on, of any kind, that are one too many, or too few, each
/// at its place: from the ohms on.
pub const POWER_ON_REFUSED: [(usize, u32); 9] = [
    (3, 33_001),
    (3, 100_000),
    (5, 4_349),
    (5, 4_715),
    (6, 172_801),
    (7, 172_801),
    (8, 172_801),
    (9, 172_801),
    (9, u32::MAX),
];

/// Fails unless a power-on ends 6, which is for other kinds, and a refused one
/// doesn't.
pub fn ends_6(kind: u32, taken: &[u32], refused: &[u32]) {
    for (numbers, wanted) in [(taken, (0, 0)), (refused, (5, 6))] {
        let (answer, image, _) = by_each(&[0; IMAGE], kind, numbers);
        assert_eq!((answer, given(&image, 6, &[]).0), wanted, "{numbers:?}");
    }
}

/// The record of an event.
pub fn written(kind: u32, numbers: &[u32]) -> Vec<u8> {
    let mut out = vec![0xEE; RECORD];
    let answer = both::write(kind, &bytes_of(numbers), &mut out);
    assert_eq!(answer.number, 0);
    out.truncate(answer.count as usize);
    out
}

/// The records of an event, each with one of its numbers one more: of the first
/// so many numbers.
pub fn written_apart<const N: usize>(kind: u32, numbers: [u32; N], count: usize) -> Vec<Vec<u8>> {
    let apart = |index: usize| with_number(numbers, index, numbers[index] + 1);
    (0..count).map(|index| written(kind, &apart(index))).collect()
}

/// The image of a model that is on and passes, is on and doesn't, or is off.
pub fn any_image(rng: &mut Rng) -> Vec<u8> {
    let state = if rng.once_in(6) { spoiled_state(rng) } else { any_state(rng) };
    let on = image::of(&Held::On(Powered::new(rng.within(0, 7), rng.any(), state)));
    if rng.once_in(6) || image::read(&on).is_none() {
        return vec![0; IMAGE];
    }
    on
}

/// An image, once in three with any one of its words damaged: one of these
/// values, or any.
pub fn any_damaged(rng: &mut Rng, image: Vec<u8>, values: &[u32]) -> Vec<u8> {
    if !rng.once_in(3) {
        return image;
    }
    let index = rng.place(IMAGE / WORD);
    let odd = rng.any_length();
    with_word(&image, index, rng.pick(&[values, &[odd]].concat()))
}

/// Fails unless each event of a kind in a log, alone on any model, leaves by its
/// words what it does by its record; counts the answers.
pub fn alone(rng: &mut Rng, log: &[u8], kind: u32, tally: &mut Tally) {
    for event in events_of(log).iter().filter(|event| u32::from(event.kind()) == kind) {
        let image = any_image(rng);
        let numbers = numbers_of(event);
        let left = given(&image, kind, &numbers);
        assert_eq!(left.1, replayed(&image, kind, &numbers));
        tally.count(left.0);
    }
}

/// Fails unless a plausible log leaves the same image when each of its events is
/// said otherwise.
pub fn leaves_alike(seed: u64, said: impl Fn(&Event) -> Event) {
    let events = plausible_events(seed, 40);
    let otherwise: Vec<Event> = events.iter().map(said).collect();
    let [one, other] = [events, otherwise].map(|events| {
        let mut image = vec![0; IMAGE];
        let answer = both::replay(&mut image, &spelled(&events), 0);
        assert_eq!((answer.code, answer.records), (0, events.len() as u64));
        image
    });
    assert_eq!(one, other);
}

/// A number that can't be read: its bytes, the refusal's number, and which of
/// the bytes decided it.
const MISSPELLED: [(&[u8], u32, usize); 4] = [
    (&[], 1, 0),
    (&[0x80], 1, 1),
    (&[0x80, 0x00, 0x00], 2, 1),
    (&[0xFF, 0xFF, 0xFF, 0xFF, 0x10], 3, 4),
];

/// Fails unless a record with any of its numbers misspelled is refused at the
/// byte that decided it: played, replayed and compared.
pub fn each_misspelled(kind: u8, numbers: &[u32]) {
    for count in 0..numbers.len() {
        let mut start = vec![6, kind];
        numbers[..count].iter().for_each(|value| number::append(*value, &mut start));
        for (end, wanted, place) in MISSPELLED {
            let log = [&start[..], end].concat();
            let decided = (start.len() + place) as u64;
            let answer = both::play(&mut [0; IMAGE], &log, 1, &mut [0xEE; SHOWN]);
            assert_eq!((answer.number, answer.place, answer.next), (wanted, decided, 1));
            let answer = both::replay(&mut [0; IMAGE], &log, 0);
            assert_eq!((answer.code, answer.place, answer.next), (wanted, decided, 1));
            let answer = both::compare(&[6, 6], &log);
            assert_eq!((answer.number, answer.record, answer.place), (wanted, 2, decided));
        }
    }
}

/// Fails unless each of these records is equal to itself alone.
pub fn each_apart(records: &[Vec<u8>]) {
    for (at, first) in records.iter().enumerate() {
        for (index, second) in records.iter().enumerate() {
            let answer = both::compare(&[&[6], &first[..]].concat(), &[&[6], &second[..]].concat());
            let wanted = if at == index { (0, 0) } else { (14, 2) };
            assert_eq!((answer.number, answer.record), wanted);
        }
    }
}
