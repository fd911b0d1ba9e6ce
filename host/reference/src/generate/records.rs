//! Records of any numbers, in their ranges and out of them.

use super::rng::Rng;
use super::runs::{any_flag_register, any_run};
use super::samples::{any_two_sample, one_or_both};
use super::MOST_RESISTOR;
use crate::event::{EditionProfile, Event, Profile, Resistors};
use crate::pins::{code_of, RESISTORS};

/// Any event at all that has a spelling: ranges are often kept, and often not.
pub fn any_event(rng: &mut Rng) -> Event {
    match rng.within(1, 13) {
        1 => Event::PowerOn(any_profile(rng)),
        2 => Event::Set { number: small_or_any(rng, 15), value: any_value(rng) },
        3 => Event::Write { address: any_address(rng), byte: small_or_any(rng, 256) },
        4 => Event::TakeFlags,
        5 => Event::Service,
        6 => Event::Reset,
        7 => Event::PowerOnResistors(any_resistors(rng)),
        8 => Event::WriteRun(any_run(rng)),
        9 => Event::ReadFlags { address: any_flag_register(rng) },
        10 => Event::PowerOnEdition(any_edition(rng)),
        _ => {
            let two = any_two_sample(rng);
            one_or_both(rng, two)
        }
    }
}

fn small_or_any(rng: &mut Rng, most: u32) -> u32 {
    if rng.once_in(6) {
        rng.any_length()
    } else {
        rng.within(0, most)
    }
}

fn any_address(rng: &mut Rng) -> u32 {
    if rng.once_in(6) {
        rng.any_length()
    } else {
        rng.within(0x14, 0x1D)
    }
}

fn any_value(rng: &mut Rng) -> u32 {
    match rng.within(0, 3) {
        0 => rng.any_length(),
        1 => rng.within(0, 4),
        2 => rng.within(0, 4_097),
        _ => rng.within(0, 3_400) * 10,
    }
}

/// The numbers of any power-on that says an edition.
pub fn any_edition(rng: &mut Rng) -> EditionProfile {
    let edition = if rng.once_in(4) { bad_edition(rng) } else { rng.within(1, 2) };
    EditionProfile { profile: any_profile(rng), edition }
}

/// A number that is no edition's.
fn bad_edition(rng: &mut Rng) -> u32 {
    let odd = rng.any_length().max(3);
    rng.pick(&[0, 3, 257, 258, 1 << 31 | 1, u32::MAX, odd])
}

fn any_profile(rng: &mut Rng) -> Profile {
    let mut profile = good_profile(rng);
    if rng.coin() {
        let odd = rng.any_length();
        spoil_profile(rng, &mut profile, odd);
    }
    profile
}

fn spoil_profile(rng: &mut Rng, profile: &mut Profile, odd: u32) {
    match rng.within(0, 9) {
        0 => profile.cell = rng.pick(&[8, odd]),
        1 => profile.vchg = rng.pick(&[8, odd]),
        2 => profile.ichg = rng.pick(&[8, odd]),
        3 => profile.ohms = rng.pick(&[33_001, odd]),
        4 => profile.stamp = odd,
        5 => profile.ceiling = rng.pick(&[4_349, 4_715, odd]),
        6 => profile.trickle = rng.pick(&[172_801, odd]),
        7 => profile.precharge = rng.pick(&[172_801, odd]),
        8 => profile.fast = rng.pick(&[172_801, odd]),
        _ => profile.watchdog = rng.pick(&[172_801, odd]),
    }
}

/// The numbers of any power-on by resistors.
pub fn any_resistors(rng: &mut Rng) -> Resistors {
    let profile = any_profile(rng);
    soldered(rng, &profile)
}

/// A power-on that brings a profile and an edition: of the first, by its codes
/// or by resistors too.
pub(super) fn power_on(rng: &mut Rng, edition: EditionProfile) -> Event {
    let profile = edition.profile;
    match rng.within(0, 4) {
        0 | 1 if edition.edition == 1 => Event::PowerOn(profile),
        2 | 3 if edition.edition == 1 => Event::PowerOnResistors(soldered(rng, &profile)),
        _ => Event::PowerOnEdition(edition),
    }
}

/// Resistors that stand for a profile's codes, beside its other numbers.
pub(super) fn soldered(rng: &mut Rng, profile: &Profile) -> Resistors {
    Resistors {
        cell: resistor(rng, profile.cell),
        vchg: resistor(rng, profile.vchg),
        ichg: resistor(rng, profile.ichg),
        ohms: profile.ohms,
        stamp: profile.stamp,
        ceiling: profile.ceiling,
        trickle: profile.trickle,
        precharge: profile.precharge,
        fast: profile.fast,
        watchdog: profile.watchdog,
    }
}

/// Ohms that stand for a code; outside their range for what is no code.
fn resistor(rng: &mut Rng, code: u32) -> u32 {
    match code {
        0 => unmatched(rng),
        1..=7 => {
            let (least, most) = span(code);
            let inside = rng.within(least, most);
            rng.pick(&[RESISTORS[code as usize - 1], least, most, inside])
        }
        _ => rng.pick(&[MOST_RESISTOR + 1, code.max(MOST_RESISTOR + 1), u32::MAX]),
    }
}

/// Ohms that stand for no code: beside a span, or far from all of them.
fn unmatched(rng: &mut Rng) -> u32 {
    let code = rng.within(1, 7);
    let (least, most) = span(code);
    let free = rng.within(0, MOST_RESISTOR);
    let far = if code_of(free) == 0 { free } else { MOST_RESISTOR };
    rng.pick(&[least - 1, least - 1, most + 1, most + 1, 0, 1, code, MOST_RESISTOR, far])
}

/// The least and the most ohms that stand for a code, 1 to 7: 2% either way,
/// floored.
pub(super) fn span(code: u32) -> (u32, u32) {
    let resistor = RESISTORS[code as usize - 1];
    (resistor - resistor / 50, resistor + resistor / 50)
}

/// A good profile and edition with one number at an end of its range or just
/// outside.
pub(super) fn edge_of_edition(rng: &mut Rng) -> EditionProfile {
    let EditionProfile { mut profile, mut edition } = good_edition(rng);
    let code = rng.pick(&[0, 7, 8]);
    let seconds = rng.pick(&[0, 172_800, 172_801]);
    match rng.within(0, 9) {
        0 => profile.cell = code,
        1 => profile.vchg = code,
        2 => profile.ichg = code,
        3 => profile.ohms = rng.pick(&[0, 33_000, 33_001]),
        4 => profile.ceiling = rng.pick(&[4_349, 4_350, 4_714, 4_715]),
        5 => profile.trickle = seconds,
        6 => profile.precharge = seconds,
        7 => profile.fast = seconds,
        8 => profile.watchdog = seconds,
        _ => edition = rng.pick(&[0, 1, 2, 3]),
    }
    EditionProfile { profile, edition }
}

/// A power-on's numbers and edition in their ranges.
pub(super) fn good_edition(rng: &mut Rng) -> EditionProfile {
    EditionProfile { profile: good_profile(rng), edition: rng.within(1, 2) }
}

/// A power-on's numbers in their ranges, faults now and then.
fn good_profile(rng: &mut Rng) -> Profile {
    Profile {
        cell: code(rng),
        vchg: code(rng),
        ichg: code(rng),
        ohms: ohms(rng),
        stamp: start_stamp(rng),
        ceiling: rng.pick(&[4_350, 4_351, 4_400, 4_500, 4_650, 4_714]),
        trickle: seconds(rng),
        precharge: seconds(rng),
        fast: seconds(rng),
        watchdog: seconds(rng),
    }
}

fn code(rng: &mut Rng) -> u32 {
    if rng.once_in(12) {
        0
    } else {
        rng.within(1, 7)
    }
}

fn ohms(rng: &mut Rng) -> u32 {
    match rng.within(0, 3) {
        0 => 0,
        1 => rng.pick(&[1, 1_009, 1_010, 1_011, 1_100, 3_333, 6_040, 33_000]),
        _ => rng.within(900, 33_000),
    }
}

/// Stamps from 0, from anywhere, and soon to wrap.
fn start_stamp(rng: &mut Rng) -> u32 {
    match rng.within(0, 2) {
        0 => 0,
        1 => u32::MAX - rng.within(0, 3_000_000),
        _ => rng.any(),
    }
}

fn seconds(rng: &mut Rng) -> u32 {
    match rng.within(0, 4) {
        0 => 0,
        1 => rng.pick(&[1, 2, 172_800]),
        2 => rng.within(1, 60),
        3 => rng.within(60, 3_600),
        _ => rng.pick(&[3_600, 7_200, 36_000]),
    }
}
