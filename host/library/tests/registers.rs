//! Registers: reads of every address on models of every making, and the stored
//! fields as an image has them.

use library::both;
use library::image::{self, Held, Powered};
use library::layout::{
    BANDS, CYCLE, FLAGS, FORMAT, IMAGE, PHASE, PROFILE, REGISTERS, SETTINGS, SHOWN, WATCHDOG, WORD,
};
use library::left::with_word;
use library::tally::Tally;
use reference::generate::{any_state, plausible_events, spoiled_state, times, Rng};
use reference::Model;

const SERVICE: u32 = 6;
const RESET: u32 = 7;

/// The paper's example log.
const EXAMPLE: [u8; 28] = [
    0x01, 0x02, 0x05, 0x04, 0x00, 0x00, 0x94, 0x23, 0x90, 0x1C, 0xA0, 0x38, 0xA0, 0x99, 0x02, 0x00,
    0x05, 0xE8, 0x07, 0xE0, 0x5D, 0xB0, 0x3B, 0x00, 0xD8, 0xAD, 0x03, 0x00,
];

/// What is read after the example's power-on, 0x00 to 0x26.
const READ: [u32; 0x27] = [
    0x60, 0x13, 0xB0, 0x04, 0x40, 0x1A, 0x50, 0x0A, 0x10, 0x09, 0x50, 0x0A, 0xA0, 0x0F, 0x06, 0x03,
    0x3F, 0x1D, 0x80, 0xA0, 0x28, 0x00, 0xE1, 0xAA, 0x95, 0xD7, 0x40, 0x2A, 0x04, 0x00, 0x00, 0x00,
    0x08, 0x00, 0x00, 0x00, 0x50, 0x0A, 0x05,
];

/// The bits of the stored fields, 0x00 to 0x27.
const STORED: [u8; 0x28] = [
    0x00, 0x00, 0x00, 0x00, 0x00, 0x00, 0x00, 0x00, 0xF0, 0x7F, 0xF0, 0x0F, 0xF0, 0x7F, 0x00, 0x00,
    0x01, 0xFF, 0xFB, 0xCF, 0xDF, 0x0B, 0xFF, 0xFF, 0xFF, 0xFF, 0xEF, 0xC0, 0x08, 0x00, 0x00, 0x00,
    0x00, 0x00, 0x04, 0x15, 0x00, 0x00, 0x00, 0x00,
];

/// Those that a register reset leaves: VINDPM, STOP_WD_CHG, EN_BYPASS_LL_EXIT.
fn left_by_a_reset(address: usize) -> u8 {
    match address {
        0x08 => 0xF0,
        0x09 => 0x7F,
        0x12 => 0x02,
        0x19 => 0x80,
        _ => 0,
    }
}

/// The image after the example's power-on.
fn powered() -> Vec<u8> {
    let mut image = vec![0; IMAGE];
    assert_eq!(both::play(&mut image, &EXAMPLE, 0, &mut [0; SHOWN]).number, 0);
    image
}

/// The bytes of an image that are the stored fields'.
fn stored(image: &[u8]) -> &[u8] {
    &image[WORD * REGISTERS..][..STORED.len()]
}

fn with_stored(image: &[u8], address: usize, byte: u8) -> Vec<u8> {
    let mut bytes = image.to_vec();
    bytes[WORD * REGISTERS + address] = byte;
    bytes
}

fn give(image: &mut [u8], kind: u32) -> u32 {
    both::event(image, kind, &[], &mut [0xEE; SHOWN]).number
}

fn byte(image: &[u8], address: u32) -> u32 {
    let answer = both::register(image, address);
    assert_eq!((answer.number, answer.place), (0, 0));
    answer.byte
}

/// Every address up to 300, and far ones, most of which are a map's address in
/// their low bits.
fn addresses() -> impl Iterator<Item = u32> {
    let far = (8..32).flat_map(|bit| [0, 0x08, 0x16, 0x26, 0x27].map(|low| (1 << bit) + low));
    (0..=300).chain(far).chain([u32::MAX - 1, u32::MAX])
}

/// Reads every address; gives the answers that were met.
fn read_all(image: &[u8]) -> Tally {
    let mut tally = Tally::default();
    for address in addresses() {
        let answer = both::register(image, address);
        tally.count(answer.number);
        if answer.number == 0 && address > 0x26 {
            assert_eq!(answer.byte, 0xFF, "{address:#X}");
        }
    }
    tally
}

#[test]
fn every_register_after_a_power_on() {
    let image = powered();
    for (address, wanted) in (0..).zip(READ) {
        assert_eq!(byte(&image, address), wanted, "{address:#04X}");
    }
    read_all(&image).met_exactly([0]);
}

#[test]
fn every_address_before_a_power_on() {
    read_all(&[0; IMAGE]).met_exactly([6]);
}

/// An image of the format before was two words shorter; its length is another,
/// and so is its number.
#[test]
fn every_address_of_what_is_no_image() {
    let image = powered();
    let longer = [&image[..], &[0; WORD]].concat();
    for bytes in [&image[..IMAGE - 2 * WORD], &[0; IMAGE - 2 * WORD], &longer[..], &[]] {
        read_all(bytes).met_exactly([5]);
    }
    for format in [FORMAT - 1, FORMAT + 1] {
        read_all(&with_word(&image, 0, format)).met_exactly([5]);
    }
}

#[test]
fn every_address_in_runs() {
    for seed in 0..times(60) {
        let mut held = Held::Off;
        for event in plausible_events(seed + 9_000_000, 25) {
            let step = held.model().step(&event);
            if step.refusal.is_none() {
                held = held.after(&event, &step.model);
                read_all(&image::of(&held)).met_exactly([0]);
            }
        }
    }
}

#[test]
fn every_address_of_any_model() {
    let mut rng = Rng::new(51);
    for _ in 0..times(2_000) {
        let state = any_state(&mut rng);
        let image = image::of(&Held::On(Powered::new(rng.within(0, 7), rng.any(), state)));
        read_all(&image).met_exactly([0]);
        for (first, second, wanted) in [(0, 0, 0), (1, 2, 1), (0, 2, 2), (3, 3, 3), (4, 3, 7)] {
            let first = with_word(&image, BANDS, first);
            assert_eq!(byte(&with_word(&first, BANDS + 1, second), 0x1E), wanted);
        }
    }
}

/// A model that may not hold what it does answers too, if its bytes are an
/// image.
#[test]
fn every_address_of_models_that_do_not_pass() {
    let mut rng = Rng::new(52);
    let mut met = Tally::default();
    for _ in 0..times(2_000) {
        let state = spoiled_state(&mut rng);
        assert!(!reference::may_hold(&Model::On(state)));
        let image = image::of(&Held::On(Powered::new(1, 0, state)));
        let wanted = both::register(&image, 0).number;
        read_all(&image).met_exactly([wanted]);
        met.count(wanted);
    }
    met.met_exactly([0, 5]);
}

/// A setting that is outside its range reads the low bits of its code.
#[test]
fn settings_outside_their_ranges() {
    let mut rng = Rng::new(53);
    let image = powered();
    for index in SETTINGS..SETTINGS + 14 {
        for _ in 0..times(200) {
            let damaged = with_word(&image, index, rng.any_length());
            for address in 0..=0x27 {
                both::register(&damaged, address);
            }
        }
    }
}

/// Limits, times, period and count beside each other, whatever they are.
#[test]
fn times_outside_their_ranges() {
    let mut rng = Rng::new(54);
    let image = powered();
    for _ in 0..times(20_000) {
        let mut damaged = image.clone();
        let limits = PROFILE + 6..PROFILE + 10;
        for index in limits.chain(CYCLE..CYCLE + 3).chain([WATCHDOG]) {
            let near = rng.pick(&[0, 1, 2_147_483, 2_147_484, 4_294_967, 4_294_968]);
            let any = rng.any_length();
            damaged = with_word(&damaged, index, rng.pick(&[near, any, u32::MAX, u32::MAX - 1]));
        }
        both::register(&damaged, 0x1D);
        both::register(&damaged, 0x1F);
    }
}

/// Each bit flipped. A stored field's is held and read; with any other the bytes
/// are an image, but an event is 5 and no read shows it.
#[test]
fn each_bit_of_the_stored_bytes() {
    let image = powered();
    for (at, mask) in STORED.into_iter().enumerate() {
        for bit in (0..8).map(|shift| 1 << shift) {
            let damaged = with_stored(&image, at, stored(&image)[at] ^ bit);
            let moved = byte(&image, at as u32) ^ byte(&damaged, at as u32);
            assert_eq!(moved, u32::from(bit & mask), "{at:#04X} {bit:#04X}");
            let frequency = at == 0x16 && !(1..=6).contains(&(stored(&damaged)[at] & 7));
            let wanted = if bit & mask == 0 || frequency { 5 } else { 0 };
            assert_eq!(give(&mut damaged.clone(), SERVICE), wanted, "{at:#04X} {bit:#04X}");
            assert_eq!(both::replay(&mut damaged.clone(), &[6], 0).number, 0);
        }
    }
}

#[test]
fn frequencies_and_cells() {
    let image = powered();
    for low in 0..8 {
        let wanted = if (1..=6).contains(&low) { 0 } else { 5 };
        assert_eq!(give(&mut with_stored(&image, 0x16, 0xE0 | low), SERVICE), wanted);
    }
    for cells in (0..=9).chain([255, 256, 263, u32::MAX]) {
        let wanted = if cells <= 7 { 0 } else { 5 };
        let mut other = with_word(&image, REGISTERS + 10, cells);
        assert_eq!(byte(&other, 0x1B), 0x28 | (cells & 7));
        assert_eq!(give(&mut other, SERVICE), wanted, "{cells}");
    }
}

/// A register reset on any stored fields: those that the sheet marks are as
/// after a power-on, the others as they were.
#[test]
fn resets() {
    let mut rng = Rng::new(55);
    let start = powered();
    for _ in 0..times(5_000) {
        let state = any_state(&mut rng);
        let image = image::of(&Held::On(Powered::new(rng.within(0, 7), rng.any(), state)));
        let mut reset = image.clone();
        assert_eq!(give(&mut reset, RESET), 0);
        for at in 0..STORED.len() {
            let kept = left_by_a_reset(at);
            let wanted = stored(&image)[at] & kept | stored(&start)[at] & !kept;
            assert_eq!(stored(&reset)[at], wanted, "{at:#04X}");
        }
    }
}

/// A service leaves the stored fields, and so does the watchdog all but the
/// overrides.
#[test]
fn other_events_leave_what_is_stored() {
    let mut rng = Rng::new(56);
    for _ in 0..times(5_000) {
        let mut state = any_state(&mut rng);
        (state.period, state.watchdog) = (40, 39_999);
        let before = image::of(&Held::On(Powered::new(0, 0, state)));
        let mut after = before.clone();
        assert_eq!(give(&mut after, SERVICE), 0);
        assert_eq!(stored(&after), stored(&before));
        let sample =
            reference::Sample { stamp: state.sample.stamp.wrapping_add(1), ..state.sample };
        let record = reference::record::encode(&reference::Event::Observe(sample));
        let mut after = before.clone();
        assert_eq!(both::play(&mut after, &record, 0, &mut [0; SHOWN]).number, 0);
        let mut wanted = stored(&before).to_vec();
        wanted[0x1B] &= 0x3F;
        wanted[0x1C] &= 0xF7;
        assert_eq!(stored(&after), wanted);
    }
}

/// PG_MASK reads 1 where bits 0 and 1 both are 1, PG_FLAG where one is held.
#[test]
fn flags_and_masks() {
    let image = powered();
    for low in 0..4 {
        let masked = with_word(&image, SETTINGS + 13, low);
        assert_eq!(byte(&masked, 0x22), if low == 3 { 0x80 } else { 0 });
        let held = with_word(&image, FLAGS, low);
        assert_eq!(byte(&held, 0x20), if low == 0 { 0 } else { 0x80 });
    }
    for bits in 0..=4_095 {
        let masked = with_word(&image, SETTINGS + 13, bits);
        let held = with_word(&image, FLAGS, bits);
        for address in 0x20..=0x23 {
            both::register(&masked, address);
            both::register(&held, address);
        }
    }
}

#[test]
fn charge_stat() {
    for (phase, wanted) in (0..).zip([0, 1, 2, 3, 4, 7, 0, 0]) {
        assert_eq!(byte(&with_word(&powered(), PHASE, phase), 0x1D), wanted);
    }
}
