//! Runs of written bytes and reads of a flag register: given as words, played,
//! replayed and compared; and which 5 is whose.

use library::answers::{Played, Replayed};
use library::image::{self, Held, Powered};
use library::layout::{IMAGE, RUN, SETTINGS, SHOWN, WORD};
use library::left::any_image;
use library::tally::Tally;
use library::{both, given};
use reference::generate::{any_run, any_state, plausible_events, times, unspelled_run, Rng};
use reference::record::encode;
use reference::{Event, Run};

const WRITE_RUN: u32 = 8;
const READ_FLAGS: u32 = 14;

/// The paper's example log: a power-on, and an observation.
const EXAMPLE: [u8; 28] = [
    0x01, 0x02, 0x05, 0x04, 0x00, 0x00, 0x94, 0x23, 0x90, 0x1C, 0xA0, 0x38, 0xA0, 0x99, 0x02, 0x00,
    0x05, 0xE8, 0x07, 0xE0, 0x5D, 0xB0, 0x3B, 0x00, 0xD8, 0xAD, 0x03, 0x00,
];

/// The image after the example.
fn powered() -> Vec<u8> {
    let mut image = vec![0; IMAGE];
    assert_eq!(both::replay(&mut image, &EXAMPLE, 0).records, 2);
    image
}

/// The words of a run: address, length, and the bytes as they are.
fn words(address: u32, length: u32, bytes: &[u8]) -> [u8; RUN] {
    let mut words = [0; RUN];
    words[..4].copy_from_slice(&address.to_le_bytes());
    words[4..8].copy_from_slice(&length.to_le_bytes());
    words[8..8 + bytes.len()].copy_from_slice(bytes);
    words
}

fn give(image: &mut [u8], kind: u32, words: &[u8]) -> (u32, [u8; SHOWN]) {
    let mut shown = [0xEE; SHOWN];
    let answer = both::event(image, kind, words, &mut shown);
    assert_eq!(answer.place, 0);
    (answer.number, shown)
}

fn byte(image: &[u8], address: u32) -> u32 {
    both::register(image, address).byte
}

/// Reads each register, or each of so many.
fn read_each(image: &[u8], step: usize) {
    for address in (0..=0x26).step_by(step) {
        both::register(image, address);
    }
}

fn handed(shown: &[u8]) -> u32 {
    u32::from_le_bytes(shown[6 * WORD..][..WORD].try_into().expect("a word"))
}

fn setting(image: &[u8], number: usize) -> u32 {
    let at = WORD * (SETTINGS + number - 1);
    u32::from_le_bytes(image[at..][..WORD].try_into().expect("a word"))
}

/// Given, played and replayed, an event leaves and shows the same.
#[test]
fn on_any_model() {
    let mut rng = Rng::new(72);
    let mut tally = Tally::default();
    for _ in 0..times(60_000) {
        let image = any_image(&mut rng);
        let event = match rng.within(0, 3) {
            0 => Event::ReadFlags { address: rng.pick(&[0x20, 0x20, 0x21, 0x21, 0x1F, 0x22]) },
            _ => Event::WriteRun(any_run(&mut rng)),
        };
        let (mut outside, mut inside, mut replayed) = (image.clone(), image.clone(), image.clone());
        let (number, shown) = give(&mut outside, event.kind().into(), &given::words(&event));
        let mut seen = [0xEE; SHOWN];
        let played = both::play(&mut inside, &encode(&event), 0, &mut seen);
        assert_eq!((number, &outside, shown), (played.number, &inside, seen));
        assert_eq!(played.kind, u32::from(event.kind()));
        assert_eq!(both::replay(&mut replayed, &encode(&event), 0).records, 1);
        assert_eq!(replayed, outside);
        if number != 0 {
            assert_eq!((outside, shown), (image, [0xEE; SHOWN]), "taken whole or not at all");
        }
        tally.count(number);
    }
    tally.met_exactly([0, 5, 6, 9, 10, 11, 15]);
}

/// "is 5, after 6": on models that are off, that pass and that don't.
#[test]
fn runs_that_have_no_record() {
    let mut rng = Rng::new(73);
    let mut tally = Tally::default();
    for _ in 0..times(20_000) {
        let image = any_image(&mut rng);
        let words = given::words(&Event::WriteRun(unspelled_run(&mut rng)));
        let mut left = image.clone();
        let (number, shown) = give(&mut left, WRITE_RUN, &words);
        assert_eq!((left, shown), (image, [0xEE; SHOWN]));
        tally.count(number);
        assert_eq!(both::write(WRITE_RUN, &words, &mut [0xEE; 60]).number, 5);
    }
    tally.met_exactly([5, 6]);
}

/// Every length, and every byte past it, one at a time.
#[test]
fn every_length_and_every_byte_past_it() {
    let image = powered();
    let far = [64, 256, 257, 288, 1 << 16, (1 << 16) + 1, 1 << 31, u32::MAX];
    for length in (0..=40).chain(far) {
        let written = words(0x1D, length, &[0; 32]);
        let wanted = match length {
            1..=7 | 9..=10 => 0,
            8 => 15,
            11..=32 => 10,
            _ => 5,
        };
        assert_eq!(give(&mut image.clone(), WRITE_RUN, &written).0, wanted, "{length}");
        let number = both::write(WRITE_RUN, &written, &mut [0xEE; 60]).number;
        assert_eq!(number, if (1..=32).contains(&length) { 0 } else { 5 });
        for past in (length as usize).min(32)..32 {
            for bit in 0..8 {
                let mut other = written;
                other[8 + past] = 1 << bit;
                assert_eq!(give(&mut image.clone(), WRITE_RUN, &other).0, 5);
                assert_eq!(both::write(WRITE_RUN, &other, &mut [0xEE; 60]).number, 5);
            }
        }
    }
}

/// The words are ten whatever the length; a read's are one.
#[test]
fn words_of_other_counts() {
    let image = powered();
    let all = [1; 60];
    for count in (0..=60).filter(|count| *count != RUN) {
        assert_eq!(give(&mut image.clone(), WRITE_RUN, &all[..count]).0, 5);
        assert_eq!(give(&mut [0; IMAGE], WRITE_RUN, &all[..count]).0, 5, "before the model's 6");
        assert_eq!(both::write(WRITE_RUN, &all[..count], &mut [0xEE; 60]).number, 5);
    }
    for count in (0..=60).filter(|count| *count != WORD) {
        assert_eq!(give(&mut image.clone(), READ_FLAGS, &all[..count]).0, 5);
        assert_eq!(both::write(READ_FLAGS, &all[..count], &mut [0xEE; 60]).number, 5);
    }
}

/// The bytes of a run are in its record as they are, each at its place.
#[test]
fn bytes_in_their_order() {
    let bytes: Vec<u8> = (0..32).map(|at| 0xF0 - 7 * at).collect();
    for length in 1..=32 {
        let mut out = [0xEE; 60];
        let written = words(0x105, length, &bytes[..length as usize]);
        assert_eq!(both::write(WRITE_RUN, &written, &mut out).count, 4 + length);
        let record = [&[8, 0x85, 0x02, length as u8], &bytes[..length as usize]].concat();
        assert_eq!(out[..record.len()], record);
    }
}

/// README's run: VREG 8,200 and IINDPM 2,000, 0x04 to 0x07.
#[test]
fn readmes_run() {
    let record = [0x08, 0x04, 0x04, 0xA0, 0x19, 0x40, 0x06];
    let mut out = [0; 7];
    let written = words(0x04, 4, &record[3..]);
    assert_eq!((both::write(WRITE_RUN, &written, &mut out).count, out), (7, record));
    let mut image = powered();
    assert_eq!(give(&mut image, WRITE_RUN, &written).0, 0);
    assert_eq!((setting(&image, 1), setting(&image, 5)), (8_200, 2_000));
    assert_eq!([4, 5, 6, 7].map(|address| byte(&image, address)), [0xA0, 0x19, 0x40, 0x06]);
}

/// Each span of addresses, of the bytes that are read there.
#[test]
fn every_span_of_addresses() {
    let image = powered();
    let held: Vec<u8> = (0..0x60).map(|address| byte(&image, address) as u8).collect();
    let mut tally = Tally::default();
    for first in 0..=0x28 {
        for length in 1..=32 {
            let bytes = &held[first as usize..][..length as usize];
            let mut left = image.clone();
            let (number, _) = give(&mut left, WRITE_RUN, &words(first, length, bytes));
            assert_eq!(left, image, "what is read, written back, moves nothing");
            tally.count(number);
        }
    }
    tally.met_exactly([0, 10, 15]);
    for below in 1..=32u32 {
        for length in 1..=32 {
            let words = words(0u32.wrapping_sub(below), length, &[]);
            assert_eq!(give(&mut image.clone(), WRITE_RUN, &words).0, 10, "no wrap at 2^32");
        }
    }
}

/// Every value of every byte of the map, written alone or with its other half,
/// beside what is read there.
#[test]
fn every_byte_of_every_register() {
    let image = powered();
    let mut tally = Tally::default();
    for address in 0..=0x26u32 {
        let wide = address < 0x0E || (0x24..0x26).contains(&address);
        let first = if wide { address & !1 } else { address };
        let length = if wide { 2 } else { 1 };
        for value in 0..=255 {
            let mut bytes = [byte(&image, first) as u8, byte(&image, first + 1) as u8];
            bytes[(address - first) as usize] = value;
            let mut left = image.clone();
            let words = words(first, length, &bytes[..length as usize]);
            tally.count(give(&mut left, WRITE_RUN, &words).0);
            read_each(&left, 1);
        }
    }
    tally.met_exactly([0, 9, 11]);
}

/// Whole registers of any bytes, on what was left: registers are read between.
#[test]
fn runs_of_runs() {
    let mut rng = Rng::new(74);
    let mut tally = Tally::default();
    for _ in 0..times(500) {
        let mut image = any_image(&mut rng);
        for _ in 0..20 {
            let run = given::words(&Event::WriteRun(any_run(&mut rng)));
            tally.count(give(&mut image, WRITE_RUN, &run).0);
            let address = rng.within(0x20, 0x21).to_le_bytes();
            tally.count(give(&mut image, READ_FLAGS, &address).0);
            read_each(&image, 3);
        }
    }
    tally.met_exactly([0, 5, 6, 9, 10, 11, 15]);
}

/// A read of a flag register hands back what a plain read shows, clears its own
/// flags, and leaves the other register's.
#[test]
fn flag_registers() {
    let start = powered();
    for flags in 0..=4_095u32 {
        let mut image = start.clone();
        let at = WORD * library::layout::FLAGS;
        image[at..][..WORD].copy_from_slice(&flags.to_le_bytes());
        for (address, other, kept) in [(0x20u32, 0x21, flags & 0xF00), (0x21, 0x20, flags & 0xFF)] {
            let mut left = image.clone();
            let (number, shown) = give(&mut left, READ_FLAGS, &address.to_le_bytes());
            assert_eq!((number, handed(&shown)), (0, byte(&image, address)));
            assert_eq!((byte(&left, address), byte(&left, other)), (0, byte(&image, other)));
            assert_eq!(left[at..][..WORD], kept.to_le_bytes());
        }
    }
}

#[test]
fn addresses_of_no_flag_register() {
    let image = powered();
    let far = (8..32).flat_map(|bit| [0x20, 0x21].map(|low| (1u32 << bit) + low));
    for address in (0..=300u32).chain(far).chain([u32::MAX]) {
        let wanted = if (0x20..=0x21).contains(&address) { 0 } else { 10 };
        assert_eq!(give(&mut image.clone(), READ_FLAGS, &address.to_le_bytes()).0, wanted);
        assert_eq!(give(&mut [0; IMAGE], READ_FLAGS, &address.to_le_bytes()).0, 6);
    }
}

// ---- Which 5 is whose

/// A record whose length isn't 1 to 32, and where that stands in it.
const LENGTHS: [(&[u8], u64); 6] = [
    (&[8, 0x10, 0x00], 2),
    (&[8, 0x10, 0x21, 1, 2, 3], 2),
    (&[8, 0x10, 0x80, 0x01, 1], 2),
    (&[8, 0x90, 0x02, 0x7F], 3),
    (&[8, 0xFF, 0xFF, 0xFF, 0xFF, 0x0F, 0xFF, 0xFF, 0xFF, 0xFF, 0x0F], 6),
    (&[8, 0x90, 0x80, 0x80, 0x01, 0xA0, 0x02, 8, 8], 5),
];

fn played(image: &[u8], log: &[u8], place: usize) -> Played {
    let mut left = image.to_vec();
    let answer = both::play(&mut left, log, place, &mut [0xEE; SHOWN]);
    assert!(answer.number == 0 || left == image);
    answer
}

#[test]
fn whose_5_it_is() {
    let good = powered();
    let mut rng = Rng::new(75);
    let unfit = {
        let state = reference::State { ohms: 33_001, ..any_state(&mut rng) };
        image::of(&Held::On(Powered::new(1, 0, state)))
    };
    for (record, at) in LENGTHS {
        for before in [0, 1, 5] {
            let log = [&vec![6; before], record].concat();
            let (from, decided) = (before as u64, before as u64 + at);
            for image in [&good, &unfit, &vec![0; IMAGE]] {
                let readers = Played { number: 5, kind: 0, place: decided, next: from };
                assert_eq!(played(image, &log, before), readers);
                let replayed = both::replay(&mut image.clone(), &log, 0);
                let wanted =
                    Replayed { number: 0, code: 5, records: from, place: decided, next: from };
                assert_eq!(replayed, wanted);
            }
            for none in [&[2; IMAGE][..], &good[1..], &[]] {
                let images = Played { number: 5, kind: 0, place: from, next: from };
                assert_eq!(played(none, &log, before), images);
                let replayed = both::replay(&mut none.to_vec(), &log, before);
                let wanted = Replayed { number: 5, code: 0, records: 0, place: from, next: from };
                assert_eq!(replayed, wanted);
            }
            let whole = [vec![6; before], vec![8, 0x10, 1, 0x3F], vec![4; 12]].concat();
            for answer in [both::compare(&log, &whole), both::compare(&whole, &log)] {
                let told = (answer.number, answer.log, answer.record, answer.place);
                assert_eq!(told, (5, 0, from + 1, decided));
            }
        }
    }
    let models = played(&unfit, &[6, 8, 0x10, 1, 0x3F], 1);
    assert_eq!(models, Played { number: 5, kind: 8, place: 1, next: 5 });
}

/// A run cut off at every byte, in a log that grows.
#[test]
fn cut_off_at_every_byte() {
    let start = powered();
    for length in 1..=32u8 {
        let run = Event::WriteRun(Run::new(0x90, &vec![0x80; length.into()]));
        let log = [&[6][..], &encode(&run), &[6]].concat();
        for cut in 2..log.len() - 1 {
            let wanted = Played { number: 1, kind: 0, place: cut as u64, next: 1 };
            assert_eq!(played(&start, &log[..cut], 1), wanted);
            let mut image = start.clone();
            let early = both::replay(&mut image, &log[..cut], 0);
            assert_eq!((early.code, early.next), (1, 1));
            let late = both::replay(&mut image, &log, 1);
            assert_eq!((late.code, late.records, late.next), (0, 2, log.len() as u64));
        }
    }
}

/// Two logs whose runs differ in address, length or one byte.
#[test]
fn runs_that_differ() {
    let run = |address, bytes: &[u8]| encode(&Event::WriteRun(Run::new(address, bytes)));
    let bytes: Vec<u8> = (1..=32).collect();
    let one = run(0x15, &bytes);
    assert_eq!(both::compare(&one, &one).number, 0);
    let mut others = vec![run(0x16, &bytes), run(0x15, &bytes[..31])];
    for at in 0..32 {
        let mut other = bytes.clone();
        other[at] ^= 0x80;
        others.push(run(0x15, &other));
    }
    others.push(encode(&Event::ReadFlags { address: 0x20 }));
    for other in others {
        let answer = both::compare(&one, &[&other[..], &[4]].concat());
        assert_eq!((answer.number, answer.record, answer.place), (14, 1, 0));
    }
    let [charger, fault] = [0x20, 0x21].map(|address| encode(&Event::ReadFlags { address }));
    assert_eq!(both::compare(&charger, &fault).number, 14);
}

/// The runs and reads of plausible logs, alone on any model.
#[test]
fn of_plausible_logs() {
    let mut rng = Rng::new(76);
    let mut tally = Tally::default();
    for seed in 0..times(3_000) {
        let events = plausible_events(seed + 7_000_000, 30);
        for event in events.iter().filter(|event| matches!(event.kind(), 8 | 14)) {
            let mut image = any_image(&mut rng);
            tally.count(give(&mut image, event.kind().into(), &given::words(event)).0);
        }
    }
    tally.met_exactly([0, 5, 6, 9, 10, 11, 15]);
}
