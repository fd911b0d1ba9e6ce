//! The register map: what is read at every address, what a register reset and
//! the watchdog leave of the stored fields, and which bits are none.

mod example;
mod left;

use reference::generate::{any_state, times, Rng};
use reference::map::{Field, Holds, FIELDS, LAST};
use reference::stored::{Stored, LENGTH, WRITABLE};
use reference::{
    may_hold, read_register, Event, Model, Profile, Refusal, Sample, Setting, State, TsBand,
};

use left::on;

/// The example's, with a watchdog.
const PROFILE: Profile = Profile { watchdog: 40, ..example::PROFILE };

/// What is read right after that power-on, worked out by hand from the sheet
/// and 01's start values.
const AT_POWER_ON: [u8; 0x27] = [
    0x60, 0x13, 0xB0, 0x04, 0x40, 0x1A, 0x50, 0x0A, 0x10, 0x09, 0x50, 0x0A, 0xA0, 0x0F, 0x06, 0x03,
    0x3F, 0x1D, 0x80, 0xA0, 0x28, 0x00, 0xE1, 0xAA, 0x95, 0xD7, 0x40, 0x2A, 0x04, 0x00, 0x00, 0x00,
    0x08, 0x00, 0x00, 0x00, 0x50, 0x0A, 0x05,
];

/// The bits of stored fields, by address, worked out by hand from the sheet.
const STORED: [u8; LENGTH] = [
    0x00, 0x00, 0x00, 0x00, 0x00, 0x00, 0x00, 0x00, 0xF0, 0x7F, 0xF0, 0x0F, 0xF0, 0x7F, 0x00, 0x00,
    0x01, 0xFF, 0xFB, 0xCF, 0xDF, 0x0B, 0xFF, 0xFF, 0xFF, 0xFF, 0xEF, 0xC0, 0x08, 0x00, 0x00, 0x00,
    0x00, 0x00, 0x04, 0x15, 0x00, 0x00, 0x00, 0x00,
];

/// The stored fields that the sheet doesn't mark 'Reset by: REG_RESET'.
const UNMARKED: [&str; 3] = ["VINDPM", "STOP_WD_CHG", "EN_BYPASS_LL_EXIT"];

fn powered() -> State {
    on(&Model::Off.step(&Event::PowerOn(PROFILE)))
}

/// The state after an accepted event.
fn after(state: &State, event: Event) -> State {
    let step = Model::On(*state).step(&event);
    assert_eq!(step.refusal, None, "{event:?}");
    on(&step)
}

fn byte(state: &State, address: u32) -> u8 {
    read_register(&Model::On(*state), address).expect("a powered model answers")
}

/// The code that is read in a field.
fn read(state: &State, field: &Field) -> u32 {
    let halves = [byte(state, field.address), byte(state, field.address + 1)];
    u32::from(u16::from_le_bytes(halves)) >> field.low & field.most()
}

fn named(name: &str) -> Field {
    FIELDS.into_iter().find(|field| field.name == name).expect("a field of the map")
}

fn is_stored(field: &Field) -> bool {
    matches!(field.holds, Holds::Stored { .. })
}

/// The state with a code in a stored field, as if handed in.
fn with(state: &State, field: &Field, code: u32) -> State {
    let mut bytes = state.stored.0;
    for (address, byte) in (0..).zip(&mut bytes) {
        *byte = *byte & !field.bits_at(address, u32::MAX) | field.bits_at(address, code);
    }
    State { stored: Stored(bytes), ..*state }
}

#[test]
fn every_register_after_a_power_on() {
    let state = powered();
    for (address, wanted) in (0..).zip(AT_POWER_ON) {
        assert_eq!(byte(&state, address), wanted, "{address:#04X}");
    }
}

#[test]
fn reads_outside_the_map() {
    let state = powered();
    let far = (0..32).map(|bit| (1 << bit) + 0x26).chain([u32::MAX]);
    for address in (0x27..=300).chain(far).filter(|address| *address > LAST) {
        assert_eq!(byte(&state, address), 0xFF, "{address:#X}");
        assert_eq!(read_register(&Model::Off, address), Err(Refusal::NotPowered));
    }
}

/// No bit has two fields, and no field reaches outside its register.
#[test]
fn fields_lie_apart() {
    let mut taken = [0; LENGTH];
    for field in FIELDS {
        let wide = [0x00, 0x02, 0x04, 0x06, 0x08, 0x0A, 0x0C, 0x24].contains(&field.address);
        assert!(field.low <= field.high && field.high < if wide { 16 } else { 8 }, "{field:?}");
        for (address, byte) in (0..).zip(&mut taken) {
            let bits = field.bits_at(address, u32::MAX);
            assert_eq!(*byte & bits, 0, "{field:?}");
            *byte |= bits;
        }
    }
    let reserved = taken.map(|byte: u8| !byte);
    assert_eq!([reserved[0x15], reserved[0x1A], reserved[0x23]], [0xF4, 0x10, 0x02]);
}

#[test]
fn the_stored_bits_are_those_of_the_list() {
    assert_eq!(*WRITABLE, STORED);
}

/// Each bit of 0x00-0x27, set by hand: a stored field's is held and read, any
/// other is 5 and isn't read.
#[test]
fn each_bit_by_itself() {
    let state = powered();
    for (at, stored) in STORED.into_iter().enumerate() {
        for bit in (0..8).map(|shift| 1 << shift) {
            let mut bytes = state.stored.0;
            bytes[at] ^= bit;
            let other = State { stored: Stored(bytes), ..state };
            let moved = byte(&state, at as u32) ^ byte(&other, at as u32);
            assert_eq!(moved, bit & stored, "{at:#04X} {bit:#04X}");
            let step = Model::On(other).step(&Event::Service);
            let frequency = at == 0x16 && !(1..=6).contains(&(bytes[at] & 7));
            let passes = bit & stored != 0 && !frequency;
            assert_eq!(may_hold(&Model::On(other)), passes);
            assert_eq!(step.refusal, (!passes).then_some(Refusal::OutOfRange));
        }
    }
}

/// Any code of any stored field, FSW's apart, of which not all may be held.
#[test]
fn a_reset_restores_the_marked_fields() {
    let start = powered();
    for field in FIELDS.iter().filter(|field| is_stored(field) && field.name != "FSW") {
        for code in 0..=field.most() {
            let state = with(&start, field, code);
            assert_eq!(read(&state, field), code, "{field:?}");
            let left = if UNMARKED.contains(&field.name) { code } else { read(&start, field) };
            assert_eq!(read(&after(&state, Event::Reset), field), left, "{field:?} {code}");
        }
    }
}

#[test]
fn a_reset_of_any_model() {
    let mut rng = Rng::new(41);
    for _ in 0..times(5_000) {
        let state = any_state(&mut rng);
        let reset = after(&state, Event::Reset);
        for field in FIELDS.iter().filter(|field| is_stored(field)) {
            let kept = UNMARKED.contains(&field.name);
            let wanted = if kept { read(&state, field) } else { read(&powered(), field) };
            assert_eq!(read(&reset, field), wanted, "{field:?}");
        }
        assert_eq!([0x24, 0x25, 0x26].map(|address| byte(&reset, address)), [0x50, 0x0A, 0x05]);
    }
}

/// Also of the fields that the sheet has the watchdog reset.
#[test]
fn the_watchdog_clears_the_overrides_alone() {
    let mut rng = Rng::new(42);
    for _ in 0..times(5_000) {
        let state = State { period: 40, watchdog: 39_000, ..any_state(&mut rng) };
        let stamp = state.sample.stamp.wrapping_add(1_000);
        let expired = after(&state, Event::Observe(Sample { stamp, ..state.sample }));
        let mut wanted = state.stored.0;
        wanted[0x1B] &= 0x3F;
        wanted[0x1C] &= 0xF7;
        assert_eq!(expired.stored, Stored(wanted));
        assert_eq!(byte(&expired, 0x1D) & 0x08, 0x08);
        assert_eq!(byte(&after(&expired, Event::Service), 0x1D) & 0x08, 0);
    }
}

#[test]
fn settings_read_as_their_codes() {
    let rows = [
        (Setting::Vsysmin, "VSYSMIN", 20),
        (Setting::Ichg, "ICHG", 20),
        (Setting::Vreg, "VREG", 10),
        (Setting::Iindpm, "IINDPM", 20),
        (Setting::Iprechg, "IPRECHG", 20),
        (Setting::Iterm, "ITERM", 20),
        (Setting::DisStatPin, "DIS_STAT", 1),
        (Setting::Vrechg, "VRECHG", 1),
        (Setting::EnTerm, "EN_TERM", 1),
        (Setting::VbatLowv, "VBAT_LOWV", 1),
        (Setting::EnChg, "EN_CHG", 1),
        (Setting::EnHiz, "EN_HIZ", 1),
        (Setting::EnExtilim, "EN_EXTILIM", 1),
    ];
    let start = powered();
    for (setting, name, unit) in rows {
        let range = setting.range();
        for value in (range.least..=range.most).step_by(range.step as usize) {
            let state = after(&start, Event::Set { number: setting.number(), value });
            assert_eq!(read(&state, &named(name)) * unit, value, "{name}");
        }
    }
}

/// Bits 0 to 11 of flags and masks, where the sheet has them.
const PLACES: [(usize, u8); 12] = [
    (0, 0x80),
    (0, 0x80),
    (0, 0x40),
    (0, 0x20),
    (0, 0x10),
    (0, 0x08),
    (0, 0x01),
    (0, 0x02),
    (1, 0x80),
    (1, 0x08),
    (1, 0x40),
    (1, 0x20),
];

/// PG_MASK reads 1 where both its bits are 1, PG_FLAG where one is held.
#[test]
fn flags_and_masks() {
    let start = powered();
    for number in 0..=4_095 {
        let held = State { flags: number, ..start };
        let masked = after(&start, Event::Set { number: 14, value: number });
        let mut wanted = [0; 2];
        for (bit, (register, place)) in PLACES.into_iter().enumerate() {
            wanted[register] |= if number >> bit & 1 == 1 { place } else { 0 };
        }
        assert_eq!([0x20, 0x21].map(|address| byte(&held, address)), wanted);
        if number & 3 != 3 {
            wanted[0] &= 0x7F;
        }
        assert_eq!([0x22, 0x23].map(|address| byte(&masked, address)), wanted);
    }
}

#[test]
fn charge_stat_by_the_phase() {
    for (phase, wanted) in (0..).zip([0, 1, 2, 3, 4, 7, 0, 0]) {
        assert_eq!(byte(&State { phase, ..powered() }, 0x1D) & 7, wanted);
    }
}

/// Each status, as it begins and as it ends.
#[test]
fn statuses_follow_what_flags_are_edges_of() {
    let start = powered();
    let seen = |change: fn(&mut State)| {
        let mut state = start;
        change(&mut state);
        [0x1D, 0x1E, 0x1F].map(|address| byte(&state, address))
    };
    assert_eq!(seen(|_| {}), [0, 0, 0]);
    assert_eq!(seen(|state| state.comparators.vin_ok = true), [0x80, 0, 0]);
    assert_eq!(seen(|state| state.comparators.vin_over = true), [0, 0, 0x80]);
    assert_eq!(seen(|state| state.comparators.battery_over = true), [0, 0, 0x40]);
    assert_eq!(seen(|state| state.sample.bits = 3), [0, 0, 0]);
    assert_eq!(seen(|state| state.sample.bits = 4), [0x40, 0, 0]);
    assert_eq!(seen(|state| state.sample.bits = 8), [0x20, 0, 0]);
    assert_eq!(seen(|state| state.sample.bits = 16), [0x10, 0, 0]);
    assert_eq!(seen(|state| state.sample.bits = 32), [0, 0, 0x04]);
    assert_eq!(seen(|state| state.watchdog = 40_000), [0x08, 0, 0]);
    assert_eq!(seen(|state| state.bands[0] = TsBand::Cold), [0, 1, 0]);
    assert_eq!(seen(|state| state.bands[0] = TsBand::Hot), [0, 2, 0]);
    assert_eq!(seen(|state| state.bands[0] = TsBand::Cool), [0, 3, 0]);
    assert_eq!(seen(|state| state.bands[0] = TsBand::Warm), [0, 4, 0]);
    assert_eq!(seen(|state| state.bands[1] = TsBand::Warm), [0, 4, 0]);
    assert_eq!(seen(|state| state.bands = [TsBand::Warm, TsBand::Cool]), [0, 7, 0]);
    assert_eq!(seen(|state| (state.sample.ts, state.second) = (80_000, 0)), [0, 0, 0]);
    assert_eq!(seen(|state| state.cycle.times.trickle = 7_200_000), [0, 0, 0x10]);
    assert_eq!(seen(|state| state.cycle.times.precharge = 14_400_000), [0, 0, 0x10]);
    assert_eq!(seen(|state| state.cycle.times.fast = 72_000_000), [0, 0, 0x10]);
    assert_eq!(seen(|state| state.cycle.times.fast = 71_999_999), [0, 0, 0]);
}

/// On models with numbers that none may hold: a limit or a period of more units
/// than a count has isn't reached.
#[test]
fn limits_beyond_every_count() {
    let far = |state: &State| [byte(state, 0x1D) & 0x08, byte(state, 0x1F) & 0x10];
    let mut state = powered();
    state.watchdog = u32::MAX;
    state.cycle.times.fast = u32::MAX;
    assert_eq!(far(&state), [0x08, 0x10]);
    state.period = u32::MAX;
    state.limits.fast = u32::MAX;
    assert_eq!(far(&state), [0, 0]);
}
