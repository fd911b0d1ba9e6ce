//! Observations of two thermistors, kind 10: in every call they leave and show
//! the band of both, and with equal values what kind 5 does; what is refused
//! changes no byte; the image has both values; and records are compared as they
//! are.

use library::both;
use library::image::{self, Held, Powered};
use library::layout::{bytes_of, words_of, FLAGS, IMAGE, PHASE, REPORT, SAMPLE, SHOWN};
use library::left::{
    alone, any_damaged, any_image, bands, by_each, each_apart, each_misspelled, each_refused,
    given, leaves_alike, with_bands, with_number, with_word, word, written, written_apart,
};
use library::tally::Tally;
use reference::generate::{
    any_log, any_state, any_two_sample, damaged_log, plausible_events, spelled, times, Rng,
};
use reference::record::numbers_of;
use reference::{Event, TwoSample};

const OBSERVE: u32 = 5;
const OBSERVE_TWO: u32 = 10;
const SERVICE: u32 = 6;
const TAKE_FLAGS: u32 = 4;
/// The most that either TS may be.
const MOST: u32 = 100_000;
/// The place of the second TS in kind 10's numbers, and in an image's sample.
const SECOND: usize = 5;
/// The address of TS_STAT.
const TS_STAT: u32 = 0x1E;

/// The paper's example log: a power-on, and an observation.
const EXAMPLE: [u8; 28] = [
    0x01, 0x02, 0x05, 0x04, 0x00, 0x00, 0x94, 0x23, 0x90, 0x1C, 0xA0, 0x38, 0xA0, 0x99, 0x02, 0x00,
    0x05, 0xE8, 0x07, 0xE0, 0x5D, 0xB0, 0x3B, 0x00, 0xD8, 0xAD, 0x03, 0x00,
];

/// Kind 10's numbers after the example, each in its range.
const NUMBERS: [u32; 7] = [1_001, 12_000, 7_600, 180, 55_000, 54_000, 0];

/// The image after the example.
fn powered() -> Vec<u8> {
    let mut image = vec![0; IMAGE];
    assert_eq!(both::replay(&mut image, &EXAMPLE, 0).records, 2);
    image
}

fn of_two(ts: u32, second: u32) -> [u32; 7] {
    with_number(with_number(NUMBERS, SECOND, second), SECOND - 1, ts)
}

/// A sample for an image, mostly at a time that passes.
fn any_two_for(rng: &mut Rng, image: &[u8]) -> TwoSample {
    let ahead = rng.pick(&[0, 1, 1_000, 3_599_999, 3_600_000, 3_600_001, u32::MAX]);
    let mut two = if rng.once_in(4) { any_two_sample(rng) } else { any_state(rng).observed() };
    two.sample.stamp = word(image, SAMPLE).wrapping_add(ahead);
    two
}

/// Given, played and replayed, on models that are off, that pass and that don't.
#[test]
fn on_any_model() {
    let mut rng = Rng::new(91);
    let mut tally = Tally::default();
    for _ in 0..times(40_000) {
        let image = any_image(&mut rng);
        let two = any_two_for(&mut rng, &image);
        let left = by_each(&image, OBSERVE_TWO, &numbers_of(&Event::ObserveTwo(two)));
        tally.count(left.0);
    }
    tally.met_exactly([0, 5, 6, 7]);
}

/// "kind 5 stands for two equal ones": on any model, with any word of its image
/// damaged too, the two leave and show the same.
#[test]
fn equal_values_are_kind_5() {
    let mut rng = Rng::new(92);
    let mut tally = Tally::default();
    for _ in 0..times(40_000) {
        let image = any_image(&mut rng);
        let sample = any_two_for(&mut rng, &image).sample;
        let image = any_damaged(&mut rng, image, &[0, 1, 7, 8, MOST, MOST + 1]);
        let one = given(&image, OBSERVE, &numbers_of(&Event::Observe(sample)));
        let equal = numbers_of(&Event::ObserveTwo(sample.of_two()));
        assert_eq!(equal[SECOND - 1], equal[SECOND]);
        assert_eq!(given(&image, OBSERVE_TWO, &equal), one, "{sample:?} on {image:02X?}");
        tally.count(one.0);
    }
    tally.met_exactly([0, 5, 6, 7]);
}

/// The images after logs in which kind 5 is said by kind 10.
#[test]
fn logs_of_kind_5_said_by_kind_10() {
    for seed in 0..times(2_000) {
        leaves_alike(seed + 11_000_000, |event| match event {
            Event::Observe(sample) => Event::ObserveTwo(sample.of_two()),
            _ => *event,
        });
    }
}

/// A TS of each band by the registers' resets, in the order of their numbers.
const OF_BANDS: [u32; 5] = [55_000, 75_320, 34_375, 68_250, 44_750];

/// The band of both, by the first's and the second's, from the request.
const TABLE: [[u32; 5]; 5] =
    [[0, 1, 2, 3, 4], [1, 1, 1, 1, 1], [2, 1, 2, 2, 2], [3, 1, 2, 3, 7], [4, 1, 2, 7, 4]];

/// Each pair: both bands in the image, that of both in TS_STAT, its phase, and
/// flag 7 where the band has changed.
#[test]
fn every_pair_of_bands() {
    let start = given(&powered(), TAKE_FLAGS, &[]).1;
    for (first, row) in TABLE.into_iter().enumerate() {
        for (second, wanted) in row.into_iter().enumerate() {
            let numbers = of_two(OF_BANDS[first], OF_BANDS[second]);
            let (number, image, shown) = by_each(&start, OBSERVE_TWO, &numbers);
            let held = bands(&image).map(|band| band as usize);
            assert_eq!((number, held), (0, [first, second]));
            assert_eq!(both::register(&image, TS_STAT).byte, wanted, "{first} {second}");
            let suspended = matches!(wanted, 1 | 2 | 7);
            assert_eq!(word(&shown, 0), if suspended { 6 } else { 3 });
            assert_eq!(word(&image, FLAGS) & 128 != 0, wanted != 0);
        }
    }
}

/// From each pair of bands to each other: flag 7 by the band of both alone.
#[test]
fn every_move_between_pairs() {
    let start = given(&powered(), TAKE_FLAGS, &[]).1;
    let pairs = || (0..25).map(|pair| (pair / 5, pair % 5));
    let numbers = |(first, second): (usize, usize)| of_two(OF_BANDS[first], OF_BANDS[second]);
    for from in pairs() {
        let before = given(&start, OBSERVE_TWO, &numbers(from)).1;
        let before = given(&before, TAKE_FLAGS, &[]).1;
        for to in pairs() {
            let after = given(&before, OBSERVE_TWO, &numbers(to)).1;
            let changed = TABLE[from.0][from.1] != TABLE[to.0][to.1];
            assert_eq!(word(&after, FLAGS) & 128 != 0, changed, "{from:?} {to:?}");
        }
    }
}

/// An image in the band of cool beside warm, whatever else it holds: its report
/// has no cut and no share, and TS_STAT reads 7.
#[test]
fn the_mixed_band_of_any_image() {
    let mut rng = Rng::new(93);
    for _ in 0..times(5_000) {
        let state = any_state(&mut rng);
        let image = image::of(&Held::On(Powered::new(rng.within(0, 7), rng.any(), state)));
        for phase in 0..8 {
            let image = with_word(&image, PHASE, phase);
            let [normal, mixed] = [[0, 0], [3, 4]].map(|bands| with_bands(&image, bands));
            let [one, other] = [&normal, &mixed].map(|image| {
                let mut report = [0xEE; REPORT];
                assert_eq!(both::report(image, &mut report).number, 0);
                report
            });
            assert_eq!(one, other);
            assert_eq!(both::register(&mixed, TS_STAT).byte, 7);
            for kind in [TAKE_FLAGS, SERVICE] {
                given(&mixed, kind, &[]);
            }
        }
    }
}

/// "whatever ISETC and VSET are": every byte of 0x19, cool beside warm.
#[test]
fn suspension_whatever_the_registers_say() {
    let start = powered();
    for byte in 0..=255 {
        let (number, written, _) = given(&start, 3, &[0x19, byte]);
        assert_eq!(number, 0);
        for (ts, second) in [(68_250, 44_750), (44_750, 68_250)] {
            let (_, image, shown) = given(&written, OBSERVE_TWO, &of_two(ts, second));
            let wanted = if byte & 3 == 3 { (7, 6) } else { (0, 3) };
            let ts_stat = both::register(&image, TS_STAT).byte;
            assert_eq!((ts_stat, word(&shown, 0)), wanted, "{byte:#04X}");
        }
    }
}

/// The image has the seven numbers in the log's order, IBAT as it is logged.
#[test]
fn the_samples_words() {
    let start = powered();
    let held = |image: &[u8]| words_of(image).expect("whole words")[SAMPLE..PHASE].to_vec();
    assert_eq!(held(&start), [1_000, 12_000, 7_600, 0, 55_000, 55_000, 0]);
    let seen = [1_002, 12_001, 7_601, 599, 55_001, 54_002, 4];
    assert_eq!(held(&given(&start, OBSERVE_TWO, &seen).1), seen);
    let one = given(&start, OBSERVE, &[1_002, 12_001, 7_601, 599, 55_001, 4]).1;
    assert_eq!(held(&one), [1_002, 12_001, 7_601, 599, 55_001, 55_001, 4]);
    let mut power_on = vec![0; IMAGE];
    both::play(&mut power_on, &EXAMPLE, 0, &mut [0; SHOWN]);
    assert_eq!(held(&power_on), [0, 0, 0, 0, 55_000, 55_000, 0]);
}

/// Any word is an image's second TS: above 100,000 an event is 5, and reads
/// answer by the held band.
#[test]
fn every_second_that_an_image_may_have() {
    let mut rng = Rng::new(94);
    let start = powered();
    let near = [0, 1, MOST - 1, MOST, MOST + 1, 1 << 16, 1 << 17, u32::MAX];
    let any: Vec<u32> = (0..times(2_000)).map(|_| rng.any_length()).collect();
    for second in near.into_iter().chain(any) {
        let image = with_word(&start, SAMPLE + SECOND, second);
        let wanted = if second <= MOST { 0 } else { 5 };
        assert_eq!(given(&image, SERVICE, &[]).0, wanted, "{second}");
        assert_eq!(given(&image, OBSERVE_TWO, &NUMBERS).0, wanted);
        assert_eq!(both::register(&image, TS_STAT).byte, 0);
        assert_eq!(both::report(&image, &mut [0; REPORT]).number, 0);
    }
}

/// A number of each that is outside its range; IBAT as logged.
const REFUSED: [(usize, u32); 12] = [
    (1, 45_001),
    (2, 45_001),
    (3, 10_002),
    (3, 20_001),
    (4, MOST + 1),
    (4, u32::MAX),
    (5, MOST + 1),
    (5, MOST + 65_536),
    (5, u32::MAX),
    (6, 64),
    (6, 54_000),
    (6, u32::MAX),
];

/// 6, 5, 7 in this order; what is refused changes no byte.
#[test]
fn a_refused_one_changes_no_byte() {
    let (on, off) = (powered(), vec![0; IMAGE]);
    let ahead = with_number(NUMBERS, 0, 3_601_001);
    for numbers in [NUMBERS, ahead] {
        each_refused(&on, OBSERVE_TWO, numbers, &REFUSED, 5);
        each_refused(&off, OBSERVE_TWO, numbers, &REFUSED, 6);
    }
    assert_eq!(by_each(&on, OBSERVE_TWO, &ahead).0, 7);
    for index in [SECOND - 1, SECOND] {
        for value in [0, MOST] {
            assert_eq!(by_each(&on, OBSERVE_TWO, &with_number(NUMBERS, index, value)).0, 0);
        }
    }
}

/// Kind 5 has six words and kind 10 seven; each is 5 with the other's.
#[test]
fn words_of_the_other_kind() {
    let on = powered();
    assert_eq!(given(&on, OBSERVE_TWO, &NUMBERS[..6]).0, 5);
    assert_eq!(given(&on, OBSERVE, &NUMBERS).0, 5);
    assert_eq!(both::write(OBSERVE_TWO, &bytes_of(&NUMBERS[..6]), &mut [0; 60]).number, 5);
    assert_eq!(both::write(OBSERVE, &bytes_of(&NUMBERS), &mut [0; 60]).number, 5);
}

/// "the second value right after the first", and the longest record of seven.
#[test]
fn its_record() {
    let bytes = [10, 0xE9, 7, 0xE0, 0x5D, 0xB0, 0x3B, 0xB4, 1, 0xD8, 0xAD, 3, 0xF0, 0xA5, 3, 0];
    assert_eq!(written(OBSERVE_TWO, &NUMBERS), bytes);
    assert_eq!(written(OBSERVE_TWO, &[u32::MAX; 7]).len(), 36);
}

/// Observations that lead to one model are other records.
#[test]
fn logs_are_compared_as_they_are() {
    let one = [&NUMBERS[..5], &[0]].concat();
    let mut logs = vec![written(OBSERVE, &one), written(OBSERVE_TWO, &of_two(55_000, 55_000))];
    logs.extend(written_apart(OBSERVE_TWO, NUMBERS, 7));
    logs.push(written(OBSERVE_TWO, &of_two(54_000, 55_000)));
    logs.push(written(OBSERVE_TWO, &NUMBERS));
    each_apart(&logs);
}

/// Each number misspelled, in a record that is played, replayed and compared.
#[test]
fn numbers_that_cannot_be_read() {
    each_misspelled(OBSERVE_TWO as u8, &NUMBERS);
}

/// The observations of two in generated logs, alone on any model.
#[test]
fn of_generated_logs() {
    let mut rng = Rng::new(95);
    let mut tally = Tally::default();
    for seed in 0..times(2_000) {
        let logs = [spelled(&plausible_events(seed + 12_000_000, 30)), any_log(seed, 20)];
        for log in logs.into_iter().chain([damaged_log(seed + 12_000_000, 30)]) {
            alone(&mut rng, &log, OBSERVE_TWO, &mut tally);
        }
    }
    tally.met_exactly([0, 5, 6, 7]);
}
