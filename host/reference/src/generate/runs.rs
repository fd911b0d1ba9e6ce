//! Runs of written bytes, and reads that clear a flag register.

use super::rng::Rng;
use crate::event::{Run, MOST_RUN};
use crate::map::{self, Field, Holds, FIELDS, LAST};
use crate::runs::SIXTEEN_BITS;
use crate::state::State;

/// The bytes of the whole map.
pub(super) type Bytes = [u8; LAST as usize + 1];

/// A flag register's address, mostly.
pub(super) fn any_flag_register(rng: &mut Rng) -> u32 {
    match rng.within(0, 9) {
        0 => rng.any_length(),
        1 => rng.pick(&[0x1F, 0x22, 0x120, 0x121, 0x8000_0020, 0x8000_0021]),
        _ => rng.within(0x20, 0x21),
    }
}

/// Any run that has a spelling: of any bytes anywhere, or of whole registers
/// that can be held, now and then but for a field.
pub fn any_run(rng: &mut Rng) -> Run {
    if rng.once_in(3) {
        let bytes = [(); MOST_RUN].map(|()| rng.any() as u8);
        let length = rng.pick(&[1, 2, 3, 16, 31, 32]);
        return Run::new(any_address(rng), &bytes[..length]);
    }
    let mut bytes = [(); LAST as usize + 1].map(|()| rng.any() as u8);
    for field in FIELDS.iter().filter(|field| !matches!(field.holds, Holds::Masks(_))) {
        let code = good_code(rng, field);
        put_code(&mut bytes, field, code);
    }
    spoil(rng, &mut bytes);
    span_of(rng, &bytes)
}

/// An address in the map, beside its end, or far away.
fn any_address(rng: &mut Rng) -> u32 {
    match rng.within(0, 9) {
        0 => rng.any_length(),
        1 => u32::MAX - rng.within(0, 40),
        2 => (1 << rng.within(8, 31)) + rng.within(0, LAST),
        _ => rng.within(0, LAST + 2),
    }
}

/// Registers as they are read, with some fields changed.
pub(super) fn held_run(rng: &mut Rng, state: &State) -> Run {
    let mut bytes = held_bytes(state);
    for _ in 0..rng.within(1, 6) {
        let field = &FIELDS[rng.place(FIELDS.len())];
        let code = good_code(rng, field);
        put_code(&mut bytes, field, code);
    }
    if rng.coin() {
        let name = rng.pick(&["EN_CHG", "EN_HIZ", "EN_TS", "CELL_PIN", "VREG", "CHARGE_MASK"]);
        let code = good_code(rng, named(name));
        put(&mut bytes, name, code);
    }
    spoil(rng, &mut bytes);
    span_of(rng, &bytes)
}

/// Every register as it is read.
pub(super) fn held_bytes(state: &State) -> Bytes {
    let mut bytes = [0; LAST as usize + 1];
    for (address, byte) in (0..).zip(&mut bytes) {
        *byte = map::byte(state, address);
    }
    bytes
}

/// A code that the field can hold; reset and service bits now and then.
fn good_code(rng: &mut Rng, field: &Field) -> u32 {
    match field.holds {
        Holds::Setting { setting, unit } => {
            let range = setting.range();
            let steps = (range.most - range.least) / range.step;
            let free = range.least + rng.within(0, steps) * range.step;
            rng.pick(&[free, free, free, range.least, range.most]) / unit
        }
        _ if field.name == "FSW" => rng.within(1, 6),
        _ if ["REG_RST", "WD_RST"].contains(&field.name) => u32::from(rng.once_in(4)),
        _ => rng.within(0, field.most()),
    }
}

/// Now and then: a code that a setting can't hold, at its range's ends or
/// anywhere, or an unknown frequency.
fn spoil(rng: &mut Rng, bytes: &mut Bytes) {
    if rng.once_in(8) {
        put(bytes, "FSW", rng.pick(&[0, 7]));
    }
    if rng.once_in(4) {
        let ranged = ["VSYSMIN", "ICHG", "VREG", "IINDPM", "IPRECHG", "ITERM"];
        let field = named(rng.pick(&ranged));
        let Holds::Setting { setting, unit } = field.holds else { return };
        let (least, most) = (setting.range().least / unit, setting.range().most / unit);
        let free = rng.within(0, field.most());
        let code = rng.pick(&[0, least - 1, least, most, most + 1, field.most(), free]);
        put_code(bytes, field, code);
    }
}

/// Some of the map's bytes: mostly whole registers.
fn span_of(rng: &mut Rng, bytes: &Bytes) -> Run {
    let first = rng.within(0, LAST);
    let most = MOST_RUN as u32;
    let free = rng.within(1, most);
    let length = rng.pick(&[1, 1, 2, 2, 3, 4, free, free, most]);
    let last = (first + length - 1).min(LAST);
    if rng.once_in(8) {
        return run_of(first, last, bytes);
    }
    let whole = if SIXTEEN_BITS.iter().any(|lower| first == lower + 1) { first - 1 } else { first };
    let last = last.min(whole + most - 1);
    let last = if !SIXTEEN_BITS.contains(&last) {
        last
    } else if last - whole + 1 < most {
        last + 1
    } else {
        last - 1
    };
    run_of(whole, last, bytes)
}

fn run_of(first: u32, last: u32, bytes: &Bytes) -> Run {
    Run::new(first, &bytes[first as usize..=last as usize])
}

fn named(name: &str) -> &'static Field {
    FIELDS.iter().find(|field| field.name == name).expect("a field of the map")
}

/// Puts a code into the field of this name.
pub(super) fn put(bytes: &mut Bytes, name: &str, code: u32) {
    put_code(bytes, named(name), code);
}

fn put_code(bytes: &mut Bytes, field: &Field, code: u32) {
    for (address, byte) in (0..).zip(bytes) {
        *byte = *byte & !field.bits_at(address, u32::MAX) | field.bits_at(address, code);
    }
}

/// A run that has no spelling: of another length, or with a byte past its
/// length that isn't zero.
pub fn unspelled_run(rng: &mut Rng) -> Run {
    let run = any_run(rng);
    let free = rng.any_length().max(MOST_RUN as u32 + 1);
    match rng.within(0, 2) {
        0 if run.length < MOST_RUN as u32 => {
            let mut bytes = run.bytes;
            let past = rng.pick(&[run.length, MOST_RUN as u32 - 1]);
            bytes[past as usize] = rng.pick(&[1, 0x80, 0xFF]);
            Run { bytes, ..run }
        }
        1 => Run { length: rng.pick(&[0, 33, 64, 1 << 31, u32::MAX, free]), ..run },
        _ => {
            Run { length: rng.pick(&[0, 33, 256 + run.length, free]), bytes: [0; MOST_RUN], ..run }
        }
    }
}
