//! Power-ons by their resistors, kind 9: in every call they leave and show what
//! power-ons by codes do; what is refused changes no byte; and their records
//! are compared as they are.

use library::both;
use library::layout::{bytes_of, FORMAT, IMAGE, PROFILE, SHOWN, WORD};
use library::left::{
    any_image, by_each, each_apart, each_misspelled, each_refused, ends_6, given, with_number,
    written, written_apart, Left, POWER_ON_REFUSED,
};
use library::tally::Tally;
use reference::generate::{any_resistors, times, Rng};
use reference::pins::{code_of, RESISTORS};
use reference::record::numbers_of;
use reference::Event;

const BY_CODES: u32 = 1;
const BY_RESISTORS: u32 = 9;
/// The most ohms of a pin's resistor.
const MOST: u32 = 100_000;

/// Kind 9's numbers, each in its range, and kind 1's for the same.
const NUMBERS: [u32; 10] = [6_040, 13_700, 10_500, 3_333, 77, 4_500, 3_600, 7_200, 36_000, 160];
const WITH_CODES: [u32; 10] = [2, 5, 4, 3_333, 77, 4_500, 3_600, 7_200, 36_000, 160];

/// Each of the three pins' resistors over all ohms, from none to one too many.
#[test]
fn every_ohm_of_every_pin() {
    let off = [0; IMAGE];
    for pin in 0..3 {
        let by_codes: Vec<Left> =
            (0..8).map(|code| given(&off, BY_CODES, &with_number(WITH_CODES, pin, code))).collect();
        for ohms in 0..=MOST {
            let left = given(&off, BY_RESISTORS, &with_number(NUMBERS, pin, ohms));
            assert_eq!(left, by_codes[code_of(ohms) as usize], "pin {pin}, {ohms} ohms");
        }
        assert_eq!(given(&off, BY_RESISTORS, &with_number(NUMBERS, pin, MOST + 1)).0, 5);
    }
}

/// On any model, given, played and replayed: as kind 1 with the codes. What is
/// refused leaves image and answer buffer.
#[test]
fn as_kind_1_on_any_model() {
    let mut rng = Rng::new(26);
    let mut tally = Tally::default();
    for _ in 0..times(30_000) {
        let image = any_image(&mut rng);
        let event = Event::PowerOnResistors(any_resistors(&mut rng));
        let numbers = numbers_of(&event);
        let left = by_each(&image, BY_RESISTORS, &numbers);
        let codes = numbers[..3].iter().map(|ohms| if *ohms > MOST { 8 } else { code_of(*ohms) });
        let with_codes: Vec<u32> = codes.chain(numbers[3..].iter().copied()).collect();
        assert_eq!(left, given(&image, BY_CODES, &with_codes));
        tally.count(left.0);
    }
    tally.met_exactly([0, 5]);
}

/// Ohms of each pin that are too many.
const REFUSED: [(usize, u32); 6] =
    [(0, MOST + 1), (0, u32::MAX), (1, MOST + 1), (1, u32::MAX), (2, MOST + 1), (2, u32::MAX)];

/// A refused one leaves a model that is off, or on, as it was.
#[test]
fn a_refused_one_changes_no_byte() {
    let off = vec![0; IMAGE];
    let on = given(&off, BY_RESISTORS, &NUMBERS).1;
    for image in [off, on] {
        each_refused(&image, BY_RESISTORS, NUMBERS, &REFUSED, 5);
        each_refused(&image, BY_RESISTORS, NUMBERS, &POWER_ON_REFUSED, 5);
    }
}

#[test]
fn it_ends_6() {
    ends_6(BY_RESISTORS, &NUMBERS, &with_number(NUMBERS, 0, MOST + 1));
}

/// The image has the codes where kind 1's numbers stand, and no ohms; then the
/// first edition.
#[test]
fn the_image_has_the_codes() {
    let image = given(&[0; IMAGE], BY_RESISTORS, &NUMBERS).1;
    let wanted = [&WITH_CODES[..], &[1]].concat();
    assert_eq!(image[PROFILE * WORD..][..11 * WORD], bytes_of(&wanted));
}

/// "An image of another format, an older one too, is 5", also to a power-on.
#[test]
fn an_older_image_is_5() {
    let on = given(&[0; IMAGE], BY_RESISTORS, &NUMBERS).1;
    for format in 1..FORMAT {
        let older = [&format.to_le_bytes(), &on[WORD..]].concat();
        for (kind, numbers) in [(BY_CODES, WITH_CODES), (BY_RESISTORS, NUMBERS)] {
            assert_eq!(given(&older, kind, &numbers), (5, older.clone(), [0xEE; SHOWN]));
        }
        let answer = both::replay(&mut older.clone(), &written(BY_RESISTORS, &NUMBERS), 0);
        assert_eq!((answer.number, answer.records), (5, 0));
    }
}

/// Power-ons that lead to one model, by codes and by any resistors of a span,
/// are other records.
#[test]
fn logs_are_compared_as_they_are() {
    let mut logs = vec![written(BY_CODES, &WITH_CODES), written(BY_CODES, &NUMBERS)];
    logs.extend(written_apart(BY_RESISTORS, NUMBERS, 3));
    logs.push(written(BY_RESISTORS, &NUMBERS));
    each_apart(&logs);
}

/// Each number misspelled, in a record that is played, replayed and compared.
#[test]
fn numbers_that_cannot_be_read() {
    each_misspelled(BY_RESISTORS as u8, &NUMBERS);
}

/// Resistors of the maker's table, each at all three pins.
#[test]
fn the_makers_resistors() {
    for (code, ohms) in (1..).zip(RESISTORS) {
        let (mut resistors, mut codes) = (NUMBERS, WITH_CODES);
        resistors[..3].fill(ohms);
        codes[..3].fill(code);
        let by_codes = given(&[0; IMAGE], BY_CODES, &codes);
        assert_eq!(given(&[0; IMAGE], BY_RESISTORS, &resistors), by_codes);
    }
}
