//! Power-ons that say the edition of the pack's sheet, kind 11, and what the
//! second edition holds of each thermistor's band: in every call; with the first
//! edition they leave and show what kind 1 does; what is refused changes no
//! byte; and records are compared as they are.

use library::both;
use library::image::{self, Held, Powered};
use library::layout::{bytes_of, words_of, BANDS, FLAGS, IMAGE, PROFILE, SAMPLE, WORD};
use library::left::{
    alone, any_damaged, any_image, bands, by_each, each_apart, each_misspelled, each_refused,
    ends_6, given, leaves_alike, with_bands, with_number, with_word, word, written, written_apart,
    POWER_ON_REFUSED,
};
use library::tally::Tally;
use reference::generate::{
    any_edition, any_state, damaged_log, plausible_events, spelled, times, Rng,
};
use reference::record::numbers_of;
use reference::{Event, State, TsBand};

const POWER_ON: u32 = 1;
const WRITE: u32 = 3;
const TAKE_FLAGS: u32 = 4;
const OBSERVE_TWO: u32 = 10;
const POWER_ON_EDITION: u32 = 11;
/// The place of the edition in kind 11's numbers, and in an image's.
const EDITION: usize = 10;
/// A TS that is normal, whatever the thresholds and whatever is held.
const MIDDLE: u32 = 55_000;

/// Kind 11's numbers, each in its range.
const NUMBERS: [u32; 11] = [2, 5, 4, 3_333, 77, 4_500, 3_600, 7_200, 36_000, 160, 2];

/// The same with this edition.
fn with_edition(edition: u32) -> [u32; 11] {
    with_number(NUMBERS, EDITION, edition)
}

/// The image after a power-on of this edition.
fn powered(edition: u32) -> Vec<u8> {
    let (number, image, _) = by_each(&[0; IMAGE], POWER_ON_EDITION, &with_edition(edition));
    assert_eq!((number, word(&image, PROFILE + EDITION)), (0, edition));
    image
}

/// The image after an observation, by each call, of a battery that charges fast.
fn seen(image: &[u8], [first, second]: [u32; 2]) -> Vec<u8> {
    let numbers = [word(image, SAMPLE), 12_000, 7_600, 180, first, second, 0];
    let (number, image, _) = by_each(image, OBSERVE_TWO, &numbers);
    assert_eq!(number, 0);
    image
}

fn wrote(image: &[u8], address: u32, byte: u32) -> Vec<u8> {
    let (number, image, _) = by_each(image, WRITE, &[address, byte]);
    assert_eq!(number, 0);
    image
}

/// A thermistor's values by the registers' resets (TH1 75,320, TH2 68,250, TH3
/// 44,750, TH5 34,375), and its band after the last by the second edition and by
/// the first.
const ROWS: [(&[u32], u32, u32); 26] = [
    (&[75_320, 75_319], 1, 3),
    (&[75_320, 74_321], 1, 3),
    (&[75_320, 74_320], 3, 3),
    (&[75_320, 74_321, 75_000, 74_321], 1, 3),
    (&[75_320, 74_320, 75_319], 3, 3),
    (&[75_320, 67_251], 0, 0),
    (&[75_320, 74_320, 67_251], 3, 0),
    (&[75_320, 44_750], 4, 4),
    (&[75_320, 34_375], 2, 2),
    (&[34_375, 34_376], 2, 4),
    (&[34_375, 35_374], 2, 4),
    (&[34_375, 35_375], 4, 4),
    (&[34_375, 45_749], 0, 0),
    (&[34_375, 35_375, 45_749], 4, 0),
    (&[34_375, 75_320], 1, 1),
    (&[68_250, 68_249], 3, 0),
    (&[68_250, 67_251], 3, 0),
    (&[68_250, 67_250], 0, 0),
    (&[68_250, 67_250, 68_249], 0, 0),
    (&[68_250, 75_320], 1, 1),
    (&[68_250, 34_375], 2, 2),
    (&[44_750, 44_751], 4, 0),
    (&[44_750, 45_749], 4, 0),
    (&[44_750, 45_750], 0, 0),
    (&[44_750, 34_375], 2, 2),
    (&[44_750, 75_320], 1, 1),
];

/// By the first thermistor alone, by the second alone, and by both.
#[test]
fn the_rows_of_either_edition() {
    for (values, second, first) in ROWS {
        for (edition, band) in [(1, first), (2, second)] {
            let ends = |places: fn(u32) -> [u32; 2]| {
                let last =
                    values.iter().fold(powered(edition), |image, ts| seen(&image, places(*ts)));
                bands(&last)
            };
            assert_eq!(ends(|ts| [ts, MIDDLE]), [band, 0], "{values:?} by {edition}");
            assert_eq!(ends(|ts| [MIDDLE, ts]), [0, band], "{values:?} by {edition}");
            assert_eq!(ends(|ts| [ts, ts]), [band, band], "{values:?} by {edition}");
        }
    }
}

/// The thresholds by their codes: TH1, TH2, TH3 and TH5, and the band of each.
const THRESHOLDS: [(u32, [u32; 4]); 4] = [
    (1, [77_150, 75_320, 73_300, 70_900]),
    (3, [70_900, 68_250, 65_350, 62_250]),
    (4, [48_400, 44_750, 41_200, 37_700]),
    (2, [41_200, 37_700, 34_375, 31_250]),
];

/// Each code of each threshold, as it stands when another code let the band in:
/// held at 999 back, and left at 1,000 to what the first edition says.
#[test]
fn every_threshold_as_it_stands() {
    for (field, (band, values)) in THRESHOLDS.into_iter().enumerate() {
        for (code, at) in (0..).zip(values) {
            let byte = 0x95 & !(3 << (2 * field)) | code << (2 * field);
            for by in [1, 500, 999, 1_000, 1_001] {
                let ts = if field < 2 { at - by } else { at + by };
                let [afresh, held] = [1, 2].map(|edition| {
                    let image = seen(&powered(edition), [ts, MIDDLE]);
                    bands(&wrote(&with_bands(&image, [band; 2]), 0x18, byte))
                });
                let wanted = if by < 1_000 { [band, 0] } else { afresh };
                assert_eq!(held, wanted, "band {band}, {by} back from {at}");
            }
        }
    }
}

/// A held band, the last TS at which it is held, and what the first edition says
/// of that.
const HELD: [(u32, u32, u32); 4] = [(1, 74_321, 3), (2, 35_374, 4), (3, 67_251, 0), (4, 45_749, 0)];

/// The image of the second edition in which the hold alone keeps both bands.
fn held_in(band: u32, ts: u32) -> Vec<u8> {
    let image = seen(&with_bands(&powered(2), [band; 2]), [ts, ts]);
    assert_eq!(bands(&image), [band, band]);
    image
}

/// "EN_TS 0 ends any holding at once, EN_JEITA 0 that of cool and warm", every
/// byte of 0x19.
#[test]
fn every_byte_of_the_switches() {
    for (band, ts, fresh) in HELD {
        let image = held_in(band, ts);
        for byte in 0..=255 {
            let wanted = match byte & 3 {
                3 => band,
                1 if band < 3 => band,
                _ => 0,
            };
            let left = wrote(&image, 0x19, byte);
            assert_eq!(bands(&left), [wanted; 2], "{byte:#04X}");
            if byte & 1 == 0 {
                assert_eq!(bands(&wrote(&left, 0x19, 0xD7)), [fresh; 2], "{byte:#04X}");
            }
        }
    }
}

/// Events that move neither TS nor thresholds; the last two reset the registers.
const OTHERS: [(u32, &[u32]); 7] =
    [(2, &[4, 60]), (3, &[0x15, 0]), (4, &[]), (6, &[]), (14, &[0x20]), (7, &[]), (7, &[])];

/// "The hold is judged at every event": it stays, and is left, at each; "A
/// register reset leaves what is held".
#[test]
fn at_every_event() {
    for (band, ts, fresh) in HELD {
        let further = if ts > MIDDLE { ts - 1 } else { ts + 1 };
        let image = held_in(band, ts);
        for (kind, numbers) in OTHERS {
            assert_eq!(bands(&by_each(&image, kind, numbers).1), [band; 2], "kind {kind}");
            for which in 0..2 {
                let moved = with_word(&image, SAMPLE + 4 + which, further);
                let mut wanted = [band; 2];
                wanted[which] = fresh;
                assert_eq!(bands(&by_each(&moved, kind, numbers).1), wanted, "kind {kind}");
            }
        }
    }
}

/// A run with a reset bit leaves what is held too, and its thresholds count.
#[test]
fn a_run_that_resets() {
    let run = |bytes: &[u8]| {
        let mut words = bytes_of(&[0x10, bytes.len() as u32]);
        words.extend(bytes);
        words.resize(40, 0);
        words_of(&words).expect("whole words")
    };
    for (band, ts, _) in HELD {
        let image = held_in(band, ts);
        assert_eq!(bands(&given(&image, 8, &run(&[0x80])).1), [band; 2]);
    }
    let low = seen(&wrote(&powered(2), 0x18, 0x97), [71_000, 74_321]);
    assert_eq!(bands(&low), [1, 1]);
    assert_eq!(bands(&given(&low, 8, &run(&[0x80])).1), [3, 1]);
}

/// A power-on starts with normal, of any kind and whatever was held.
#[test]
fn a_power_on_starts_afresh() {
    for (band, ts, _) in HELD {
        let image = held_in(band, ts);
        for (kind, numbers) in [(POWER_ON, &NUMBERS[..10]), (POWER_ON_EDITION, &NUMBERS)] {
            let left = by_each(&image, kind, numbers).1;
            assert_eq!(bands(&left), [0, 0]);
            assert_eq!(left, by_each(&[0; IMAGE], kind, numbers).1);
        }
    }
}

/// Any two bands beside either edition, with TS at the thresholds or as far back
/// as a band is held: every kind of event, by each call.
#[test]
fn any_bands_of_any_image() {
    let mut rng = Rng::new(96);
    let mut met = [[0u32; 2]; 2];
    for _ in 0..times(15_000) {
        let state = any_state(&mut rng);
        for edition in [1, 2] {
            let state = State { edition, ..state };
            let image = image::of(&Held::On(Powered::new(rng.within(0, 7), rng.any(), state)));
            let (kind, numbers) = rng.pick(&OTHERS);
            let left = by_each(&image, kind, numbers).1;
            let stays = bands(&left) == bands(&image);
            met[edition as usize - 1][usize::from(stays)] += 1;
            let flag = word(&left, FLAGS) & !word(&image, FLAGS) & 128 != 0;
            assert!(!(flag && stays), "{state:?}");
        }
    }
    let [[_, afresh], [_, held]] = met;
    assert!(held > 1_000 && held > 2 * afresh, "the second edition holds more: {met:?}");
}

/// Each of the 25 pairs of bands, at a TS that ends every hold and at one that
/// ends none.
#[test]
fn every_pair_of_held_bands() {
    let start = powered(2);
    for (first, second) in (0..25).map(|pair| (pair / 5, pair % 5)) {
        let image = with_bands(&start, [first, second]);
        assert_eq!(bands(&seen(&image, [MIDDLE, MIDDLE])), [0, 0]);
        let last = |band: u32| HELD.iter().find(|row| row.0 == band).map_or(MIDDLE, |row| row.1);
        assert_eq!(bands(&seen(&image, [last(first), last(second)])), [first, second]);
        let crossed = bands(&seen(&image, [last(second), last(first)]));
        let afresh = |band: u32| HELD.iter().find(|row| row.0 == band).map_or(0, |row| row.2);
        let kept = |held: u32, band: u32| match (held, band) {
            _ if held == band => held,
            // TS is far beyond cool's and warm's own thresholds.
            (3, 1) | (4, 2) => held,
            _ => afresh(band),
        };
        assert_eq!(crossed, [kept(first, second), kept(second, first)], "{first} {second}");
    }
}

/// "Kinds 1 and 9 mean the first": kind 11 with edition 1 leaves and shows what
/// kind 1 does, on any image, with any word of it damaged too; with edition 2
/// the image has that number alone apart.
#[test]
fn beside_kind_1_on_any_image() {
    let mut rng = Rng::new(97);
    let mut tally = Tally::default();
    for _ in 0..times(30_000) {
        let image = any_image(&mut rng);
        let image = any_damaged(&mut rng, image, &[0, 1, 2, 3, 4, 5, 8]);
        let mut numbers = numbers_of(&Event::PowerOnEdition(any_edition(&mut rng)));
        let one = given(&image, POWER_ON, &numbers[..10]);
        numbers[EDITION] = 1;
        assert_eq!(given(&image, POWER_ON_EDITION, &numbers), one, "{numbers:?}");
        numbers[EDITION] = 2;
        let mut other = given(&image, POWER_ON_EDITION, &numbers);
        if other.0 == 0 {
            assert_eq!(word(&other.1, PROFILE + EDITION), 2);
            other.1 = with_word(&other.1, PROFILE + EDITION, 1);
        }
        assert_eq!(other, one);
        tally.count(one.0);
    }
    tally.met_exactly([0, 5]);
}

/// On any model, given, played and replayed; what is refused changes no byte.
#[test]
fn on_any_model() {
    let mut rng = Rng::new(98);
    let mut tally = Tally::default();
    for _ in 0..times(30_000) {
        let image = any_image(&mut rng);
        let edition = any_edition(&mut rng);
        let left = by_each(&image, POWER_ON_EDITION, &numbers_of(&Event::PowerOnEdition(edition)));
        if left.0 == 0 {
            assert_eq!(word(&left.1, PROFILE + EDITION), edition.edition);
            assert_eq!(bands(&left.1), [0, 0]);
        }
        tally.count(left.0);
    }
    tally.met_exactly([0, 5]);
}

/// The images after logs in which kind 1 is said by kind 11.
#[test]
fn logs_of_kind_1_said_by_kind_11() {
    for seed in 0..times(2_000) {
        leaves_alike(seed + 13_000_000, |event| match event {
            Event::PowerOn(profile) => Event::PowerOnEdition(profile.of_first()),
            _ => *event,
        });
    }
}

/// Codes of each pin that are too many, and what is no edition.
const REFUSED: [(usize, u32); 14] = [
    (0, 8),
    (1, 8),
    (2, 8),
    (2, u32::MAX),
    (EDITION, 0),
    (EDITION, 3),
    (EDITION, 4),
    (EDITION, 256),
    (EDITION, 257),
    (EDITION, 258),
    (EDITION, 65_537),
    (EDITION, 1 << 31 | 1),
    (EDITION, 1 << 31 | 2),
    (EDITION, u32::MAX),
];

/// 5 before a power-on and after it, and never 6; no byte changes.
#[test]
fn a_refused_one_changes_no_byte() {
    for image in [vec![0; IMAGE], powered(1), held_in(3, 67_251)] {
        each_refused(&image, POWER_ON_EDITION, NUMBERS, &REFUSED, 5);
        each_refused(&image, POWER_ON_EDITION, NUMBERS, &POWER_ON_REFUSED, 5);
    }
}

#[test]
fn it_ends_6() {
    for edition in [1, 2] {
        ends_6(POWER_ON_EDITION, &with_edition(edition), &with_edition(3));
    }
}

/// The image has the eleven numbers in the log's order; kind 1's edition is 1.
#[test]
fn the_images_words() {
    let numbers = [7, 6, 3, 12_345, 0xFEDC_BA98, 4_351, 11, 22, 33, 44, 2];
    let image = given(&[0; IMAGE], POWER_ON_EDITION, &numbers).1;
    assert_eq!(image[PROFILE * WORD..][..11 * WORD], bytes_of(&numbers));
    let image = given(&[0; IMAGE], POWER_ON, &numbers[..10]).1;
    assert_eq!(image[PROFILE * WORD..][..11 * WORD], bytes_of(&[&numbers[..10], &[1]].concat()));
    for (number, band) in (0..).zip(TsBand::ALL) {
        let mut image = with_word(&powered(2), BANDS, number);
        let Some(Held::On(read)) = image::read(&image) else { panic!("an image") };
        assert_eq!(read.state.bands, [band, TsBand::Normal]);
        image = with_word(&image, BANDS + 1, number);
        assert_eq!(both::register(&image, 0x1E).byte, number);
    }
}

/// Kind 1 has ten words and kind 11 eleven; each is 5 with the other's.
#[test]
fn words_of_the_other_kind() {
    for image in [vec![0; IMAGE], powered(2)] {
        assert_eq!(given(&image, POWER_ON_EDITION, &NUMBERS[..10]).0, 5);
        assert_eq!(given(&image, POWER_ON, &NUMBERS).0, 5);
        assert_eq!(given(&image, 9, &NUMBERS).0, 5);
    }
    assert_eq!(both::write(POWER_ON_EDITION, &bytes_of(&NUMBERS[..10]), &mut [0; 60]).number, 5);
    assert_eq!(both::write(POWER_ON, &bytes_of(&NUMBERS), &mut [0; 60]).number, 5);
}

/// "an edition number 1 or 2 after the watchdog period", and the longest record.
#[test]
fn its_record() {
    let profile = [2, 5, 4, 0x85, 0x1A, 77, 0x94, 0x23, 0x90, 0x1C, 0xA0, 0x38, 0xA0, 0x99, 2];
    let bytes = [&[11][..], &profile, &[0xA0, 1, 2]].concat();
    assert_eq!(written(POWER_ON_EDITION, &NUMBERS), bytes);
    assert_eq!(written(POWER_ON_EDITION, &[u32::MAX; 11]).len(), 56);
}

/// Power-ons that lead to one model are other records.
#[test]
fn logs_are_compared_as_they_are() {
    let mut logs = vec![written(POWER_ON, &NUMBERS[..10]), written(9, &NUMBERS[..10])];
    logs.extend(written_apart(POWER_ON_EDITION, NUMBERS, 10));
    logs.extend([0, 1, 2, 3].map(|edition| written(POWER_ON_EDITION, &with_edition(edition))));
    each_apart(&logs);
}

/// Each number misspelled, in a record that is played, replayed and compared.
#[test]
fn numbers_that_cannot_be_read() {
    each_misspelled(POWER_ON_EDITION as u8, &NUMBERS);
}

/// The power-ons of generated logs, alone on any model.
#[test]
fn of_generated_logs() {
    let mut rng = Rng::new(99);
    let mut tally = Tally::default();
    for seed in 0..times(2_000) {
        let logs = [spelled(&plausible_events(seed + 14_000_000, 30))];
        for log in logs.into_iter().chain([damaged_log(seed + 14_000_000, 30)]) {
            alone(&mut rng, &log, POWER_ON_EDITION, &mut tally);
        }
    }
    tally.met_exactly([0, 5]);
}

/// The report of the band that a hold keeps, and flag 7 where it is left.
#[test]
fn what_is_shown() {
    let image = given(&seen(&powered(2), [75_320, MIDDLE]), TAKE_FLAGS, &[]).1;
    let shown = |ts: u32| {
        let numbers = [word(&image, SAMPLE), 12_000, 7_600, 180, ts, MIDDLE, 0];
        let (_, left, shown) = by_each(&image, OBSERVE_TWO, &numbers);
        (word(&shown, 0), word(&left, FLAGS) & 128)
    };
    assert_eq!(shown(74_321), (6, 0));
    assert_eq!(shown(74_320), (3, 128));
    let image = given(&powered(2), 2, &[14, 4_095]).1;
    let [one, other] = [[68_250, MIDDLE], [MIDDLE, 44_750]].map(|ts| seen(&image, ts));
    assert_eq!([one, other].map(|image| both::register(&image, 0x1E).byte), [3, 4]);
}
