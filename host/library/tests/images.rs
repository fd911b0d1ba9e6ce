//! Bytes lent as images: of every length, with every word damaged, off with a
//! word that isn't 0, and models that hold what they may not.

use library::both;
use library::image::{self, Held, Powered};
use library::layout::{BANDS, FORMAT, IMAGE, IMAGE_WORDS, PROFILE, REPORT, SHOWN, WORD};
use library::left::{with_word, word};
use library::tally::Tally;
use reference::generate::{any_event, any_state, plausible_events, spoiled_state, times, Rng};
use reference::record::encode;
use reference::{Event, Model};

/// Lends the bytes to every call that takes an image; gives the answers of
/// play, event, report and a register's read.
fn lend(bytes: &[u8], event: &Event) -> [u32; 4] {
    let kind = event.kind().into();
    let words = library::given::words(event);
    let (mut played, mut given) = (bytes.to_vec(), bytes.to_vec());
    let answers = [
        both::play(&mut played, &encode(event), 0, &mut [0xEE; SHOWN]).number,
        both::event(&mut given, kind, &words, &mut [0xEE; SHOWN]).number,
        both::report(bytes, &mut [0xEE; REPORT]).number,
        both::register(bytes, 0x1B).number,
    ];
    assert_eq!(played, given, "an event is the same in a log and outside one");
    let mut replayed = bytes.to_vec();
    let answer = both::replay(&mut replayed, &encode(event), 0);
    assert_eq!(answer.number == 5, image::read(bytes).is_none(), "5 exactly for what is no image");
    assert_eq!(replayed, played, "and in a log that is replayed");
    let some = bytes.iter().map(|byte| u32::from(*byte)).sum::<u32>() % 5;
    for address in (some..=0x28).step_by(5) {
        both::register(bytes, address);
    }
    answers
}

/// A model as a run leaves it.
fn run(seed: u64, records: usize) -> Powered {
    let mut held = Held::Off;
    for event in plausible_events(seed, records) {
        let step = held.model().step(&event);
        if step.refusal.is_none() {
            held = held.after(&event, &step.model);
        }
    }
    match held {
        Held::On(powered) => powered,
        Held::Off => run(!seed, records + 1),
    }
}

#[test]
fn bytes_of_every_length() {
    let image = image::of(&Held::On(run(1, 40)));
    let mut longer = image.clone();
    longer.resize((1 << 16) + IMAGE, 0);
    for length in (0..=300).filter(|length| *length != IMAGE).chain([longer.len()]) {
        for bytes in [&longer[..length], &vec![0; length]] {
            assert_eq!(lend(bytes, &Event::TakeFlags), [5; 4], "{length}");
            assert_eq!(both::off(&mut bytes.to_vec()).number, 5);
        }
    }
    assert_eq!(lend(&image, &Event::TakeFlags), [0; 4]);
    assert_eq!(lend(&[0; IMAGE], &Event::TakeFlags), [6; 4]);
}

/// Any bytes of an image's length become the image of a model that is off.
#[test]
fn any_bytes_are_made_off() {
    let mut rng = Rng::new(7);
    for _ in 0..times(1_000) {
        let mut bytes: Vec<u8> = (0..IMAGE).map(|_| rng.any() as u8).collect();
        assert_eq!(both::off(&mut bytes).number, 0);
        assert_eq!(bytes, [0; IMAGE]);
    }
}

/// Words near a word, at the ends of every field's type, and any.
fn damages(rng: &mut Rng, held: u32) -> Vec<u32> {
    let mut words = vec![0, 1, 2, 4, 5, 6, 7, 8, 255, 256, 4_095, 4_096, 1 << 31, u32::MAX];
    words.extend([held.wrapping_add(1), held.wrapping_sub(1), held ^ 0x0100_0000]);
    words.extend([held + (held == 0) as u32 * 2, held.wrapping_mul(2), held / 2]);
    words.extend([held ^ 1 << rng.within(0, 31), rng.any(), rng.any_length()]);
    words
}

#[test]
fn every_word_damaged() {
    let mut rng = Rng::new(8);
    let mut met: [Tally; 4] = Default::default();
    for round in 0..times(250) {
        let powered = match round % 2 {
            0 => run(round, 30),
            _ => Powered::new(rng.within(0, 7), rng.any(), any_state(&mut rng)),
        };
        let bytes = image::of(&Held::On(powered));
        for index in 0..IMAGE_WORDS {
            for damage in damages(&mut rng, word(&bytes, index)) {
                let answers = lend(&with_word(&bytes, index, damage), &any_event(&mut rng));
                met.iter_mut().zip(answers).for_each(|(tally, number)| tally.count(number));
            }
        }
    }
    met[0].met_exactly([0, 5, 7, 8, 9, 10, 11, 15]);
    met[1].met_exactly([0, 5, 7, 8, 9, 10, 11, 15]);
    met[2].met_exactly([0, 5]);
    met[3].met_exactly([0, 5]);
}

#[test]
fn every_bit_of_an_image_flipped() {
    let bytes = image::of(&Held::On(run(2, 40)));
    for bit in 0..8 * IMAGE {
        let mut damaged = bytes.clone();
        damaged[bit / 8] ^= 1 << (bit % 8);
        lend(&damaged, &Event::Service);
        lend(&damaged, &Event::TakeFlags);
    }
}

#[test]
fn several_words_damaged() {
    let mut rng = Rng::new(9);
    for round in 0..times(20_000) {
        let mut bytes = image::of(&Held::On(run(round % 500, 20)));
        for _ in 0..rng.within(2, 4) {
            let index = rng.place(IMAGE_WORDS);
            let choices = damages(&mut rng, word(&bytes, index));
            bytes = with_word(&bytes, index, rng.pick(&choices));
        }
        lend(&bytes, &any_event(&mut rng));
    }
}

/// "Word 0 is 0 before a power-on, and then all other words are 0 too".
#[test]
fn off_with_a_word_that_is_not_zero() {
    for at in WORD..IMAGE {
        for bit in 0..8 {
            let mut bytes = [0; IMAGE];
            bytes[at] = 1 << bit;
            assert_eq!(lend(&bytes, &Event::TakeFlags), [5; 4]);
        }
    }
}

/// "An image of another format is 5", an older one too, of a model that is on
/// and of zeros.
#[test]
fn another_format() {
    let on = image::of(&Held::On(run(4, 40)));
    let near = (0..32).map(|bit| FORMAT ^ 1 << bit).chain([FORMAT + 1, FORMAT + 2, u32::MAX]);
    for first in near.chain(1..FORMAT).filter(|first| *first != 0) {
        for bytes in [&on[..], &[0; IMAGE]] {
            assert_eq!(lend(&with_word(bytes, 0, first), &Event::TakeFlags), [5; 4], "{first}");
        }
    }
}

/// A model that may not hold what it does is an image if each word is
/// within its field's type: events are 5, reads answer.
#[test]
fn models_that_do_not_pass() {
    let mut rng = Rng::new(10);
    let mut reads = Tally::default();
    for _ in 0..times(50_000) {
        let state = spoiled_state(&mut rng);
        assert!(!reference::may_hold(&Model::On(state)));
        let bytes = image::of(&Held::On(Powered::new(1, 0, state)));
        let [played, given, reported, read] = lend(&bytes, &any_event(&mut rng));
        assert_eq!((played, given), (5, 5));
        assert_eq!(reported, read);
        reads.count(read);
    }
    reads.met_exactly([0, 5]);
}

/// The power-on's cell code is a field of its own.
#[test]
fn a_cell_code_above_seven() {
    let powered = Powered { cell: 8, ..run(3, 30) };
    let bytes = image::of(&Held::On(powered));
    assert_eq!(lend(&bytes, &Event::Service), [5, 5, 0, 0]);
}

/// With another word for a thermistor's band than 0 to 4 the bytes are no image.
#[test]
fn every_word_of_a_band() {
    let bytes = image::of(&Held::On(run(5, 40)));
    let far = (0..32).flat_map(|bit| [0, 4, 7].map(|low| (1u32 << bit).wrapping_add(low)));
    for word in (0..=300).chain(far).chain([u32::MAX]) {
        let wanted = if word <= 4 { [0; 4] } else { [5; 4] };
        for index in [BANDS, BANDS + 1] {
            assert_eq!(lend(&with_word(&bytes, index, word), &Event::TakeFlags), wanted, "{word}");
        }
    }
}

/// Any word is an image's edition; of another than 1 and 2 an event is 5, and
/// reads answer.
#[test]
fn every_word_of_an_edition() {
    let mut rng = Rng::new(27);
    let bytes = image::of(&Held::On(run(6, 40)));
    let far = (2..32).flat_map(|bit| [0, 1, 2].map(|low| (1u32 << bit) + low));
    for word in (0..=300).chain(far).chain([u32::MAX]) {
        let number = if matches!(word, 1 | 2) { 0 } else { 5 };
        let other = with_word(&bytes, PROFILE + 10, word);
        assert_eq!(lend(&other, &Event::TakeFlags), [number, number, 0, 0], "{word}");
        lend(&other, &any_event(&mut rng));
    }
}

/// The bands are held: flag 7 is between the band of both before the event and
/// after it, and the report is by them.
#[test]
fn bands_that_are_not_the_samples() {
    let mut rng = Rng::new(11);
    for round in 0..times(6_000) {
        let bytes = image::of(&Held::On(run(round % 1_000, 25)));
        for band in 0..5 {
            let other = with_word(&bytes, BANDS, band);
            let other = with_word(&other, BANDS + 1, rng.within(0, 4));
            lend(&other, &any_event(&mut rng));
            lend(&other, &Event::TakeFlags);
            lend(&other, &Event::ReadFlags { address: 0x20 });
            lend(&other, &Event::ReadFlags { address: 0x21 });
        }
    }
}
