//! Runs of written bytes (kind 8) and reads that clear a flag register (kind
//! 14): their spelling, their refusals in order, and what they do.

mod example;
mod left;

use std::collections::BTreeSet;

use reference::generate::{
    any_run, any_state, plausible_events, spoiled_state, times, unspelled_run, Rng,
};
use reference::map::{Field, Holds, FIELDS, LAST};
use reference::record::{self, Reading};
use reference::registers::flags_at;
use reference::{
    may_hold, read_register, report, Event, Model, Profile, Refusal, Refused, Run, Sample, Setting,
    State, Step,
};

use left::on;

/// The example's, with a watchdog.
const PROFILE: Profile = Profile { watchdog: 40, ..example::PROFILE };

/// The registers of sixteen bits, by the sheet.
const WIDE: [u32; 8] = [0x00, 0x02, 0x04, 0x06, 0x08, 0x0A, 0x0C, 0x24];

fn powered() -> State {
    on(&Model::Off.step(&Event::PowerOn(PROFILE)))
}

fn run(address: u32, bytes: &[u8]) -> Event {
    Event::WriteRun(Run::new(address, bytes))
}

fn set(setting: Setting, value: u32) -> Event {
    Event::Set { number: setting.number(), value }
}

fn observe(state: &State, change: impl FnOnce(&mut Sample)) -> Event {
    let mut sample = state.sample;
    change(&mut sample);
    Event::Observe(sample)
}

fn give(state: &State, event: &Event) -> Step {
    Model::On(*state).step(event)
}

/// The state after an accepted event.
fn after(state: &State, event: &Event) -> State {
    let step = give(state, event);
    assert_eq!(step.refusal, None, "{event:?}");
    on(&step)
}

fn refusal(state: &State, event: &Event) -> Option<Refusal> {
    give(state, event).refusal
}

fn byte(state: &State, address: u32) -> u8 {
    read_register(&Model::On(*state), address).expect("a powered model answers")
}

/// Every register as it is read.
fn bytes(state: &State) -> Vec<u8> {
    (0..=LAST).map(|address| byte(state, address)).collect()
}

fn is_wide(address: u32) -> bool {
    WIDE.contains(&address)
}

/// The bytes of a field's register as they are read, with a code in it.
fn with(state: &State, field: &Field, code: u32) -> Vec<u8> {
    let last = field.address + u32::from(is_wide(field.address));
    let written = |at| byte(state, at) & !field.bits_at(at, u32::MAX) | field.bits_at(at, code);
    (field.address..=last).map(written).collect()
}

/// The run that writes a code to a field and leaves the rest of its register.
fn run_of(state: &State, field: &Field, code: u32) -> Event {
    run(field.address, &with(state, field, code))
}

// ---- The spelling

#[test]
fn spellings() {
    let rows: [(Event, &[u8]); 5] = [
        (run(0x22, &[0x5B]), &[8, 0x22, 1, 0x5B]),
        (run(0x00, &[0x80, 0x00]), &[8, 0, 2, 0x80, 0x00]),
        (run(300, &[0xFF, 0, 0xFF]), &[8, 0xAC, 0x02, 3, 0xFF, 0, 0xFF]),
        (Event::ReadFlags { address: 0x20 }, &[14, 0x20]),
        (Event::ReadFlags { address: u32::MAX }, &[14, 0xFF, 0xFF, 0xFF, 0xFF, 0x0F]),
    ];
    for (event, wanted) in rows {
        assert_eq!(record::encode(&event), wanted);
        assert_eq!(record::read(wanted, 0), Reading::Record { event, next: wanted.len() });
    }
    let longest = record::encode(&run(u32::MAX, &[0xA5; 32]));
    assert_eq!((longest.len(), &longest[5..8]), (39, &[0x0F, 32, 0xA5][..]));
}

/// Every run of up to 32 bytes, cut off at every length.
#[test]
fn cut_off() {
    for length in 1..=32 {
        let event = run(0x15, &vec![0x80; length]);
        let spelled = record::encode(&event);
        assert_eq!(spelled.len(), 3 + length);
        for cut in 1..spelled.len() {
            let refused = Refused { code: Refusal::EndsInside, place: cut };
            assert_eq!(record::read(&spelled[..cut], 0), Reading::Refused(refused));
        }
    }
}

/// "An event of another length, or with a byte past its length that isn't
/// zero, has no spelling: the writer gives 5", before 12, and writes nothing.
#[test]
fn without_a_spelling() {
    let mut rng = Rng::new(61);
    let off = Model::Off;
    for _ in 0..times(5_000) {
        let event = Event::WriteRun(unspelled_run(&mut rng));
        assert_eq!(record::spelling(&event), None, "{event:?}");
        for size in [0, 1, 38, 39, 60] {
            let mut room = vec![0xEE; size];
            let refused = Refused { code: Refusal::OutOfRange, place: 0 };
            assert_eq!(record::write(&mut room, &event), Err(refused));
            assert_eq!(room, vec![0xEE; size]);
        }
        let state = any_state(&mut rng);
        assert_eq!(refusal(&state, &event), Some(Refusal::OutOfRange), "{event:?}");
        assert_eq!(off.step(&event).refusal, Some(Refusal::NotPowered));
    }
}

#[test]
fn each_length_and_each_byte_past_it() {
    let state = powered();
    for length in (0..=40).chain([64, 256, 257, 288, 1 << 16, 1 << 31, u32::MAX]) {
        let zeros = Run { address: 0x1D, length, bytes: [0; 32] };
        let event = Event::WriteRun(zeros);
        let wanted = match length {
            1..=7 | 9..=10 => None,
            8 => Some(Refusal::HalfRegister),
            11..=32 => Some(Refusal::UnknownAddress),
            _ => Some(Refusal::OutOfRange),
        };
        assert_eq!(refusal(&state, &event), wanted, "{length}");
        assert_eq!(record::spelling(&event).is_some(), (1..=32).contains(&length));
        for past in (length as usize).min(32)..32 {
            let mut bytes = [0; 32];
            bytes[past] = 1;
            let event = Event::WriteRun(Run { bytes, ..zeros });
            assert_eq!(record::spelling(&event), None);
            assert_eq!(refusal(&state, &event), Some(Refusal::OutOfRange));
        }
    }
}

// ---- The refusals

/// Every first address and every length, of what is read there.
#[test]
fn spans_of_addresses() {
    let state = powered();
    let held = bytes(&state);
    for first in 0..=LAST + 2 {
        for length in 1..=32 {
            let last = first + length - 1;
            let at = |address: u32| held.get(address as usize).copied().unwrap_or(0);
            let written: Vec<u8> = (first..=last).map(at).collect();
            let halves = first > 0 && is_wide(first - 1) || is_wide(last);
            let wanted = match (last > LAST, halves) {
                (true, _) => Some(Refusal::UnknownAddress),
                (_, true) => Some(Refusal::HalfRegister),
                _ => None,
            };
            assert_eq!(refusal(&state, &run(first, &written)), wanted, "{first:#04X} {length}");
        }
    }
}

/// Addresses that would come into the map again beyond 2^32, or by their low
/// bits.
#[test]
fn addresses_do_not_wrap() {
    let state = powered();
    for below in 1..=32 {
        for length in 1..=32 {
            let event = run(0u32.wrapping_sub(below), &vec![0; length]);
            assert_eq!(refusal(&state, &event), Some(Refusal::UnknownAddress));
        }
    }
    for bit in 8..32 {
        let event = run((1 << bit) + 0x15, &[0]);
        assert_eq!(refusal(&state, &event), Some(Refusal::UnknownAddress));
    }
}

/// "15 [...] after 10, then 11; a field value that its setting can't hold is 9,
/// last": each row has all the faults that come after its own.
#[test]
fn refusals_in_order() {
    let state = powered();
    let held = bytes(&state);
    let spoiled = |first: usize, last: usize, faults: &[(usize, u8)]| {
        let mut other = held.clone();
        other.resize(0x40, 0);
        faults.iter().for_each(|(at, byte)| other[*at] = *byte);
        run(first as u32, &other[first..=last])
    };
    let fsw = (0x16, 0x08);
    let iterm = (0x0F, 0x00);
    let half = spoiled(0x0B, 0x2A, &[fsw, iterm]);
    let rows = [
        (half, Refusal::UnknownAddress),
        (spoiled(0x0B, 0x16, &[fsw, iterm]), Refusal::HalfRegister),
        (spoiled(0x0C, 0x16, &[fsw, iterm]), Refusal::Frequency),
        (spoiled(0x0C, 0x16, &[(0x16, 0xFF), iterm]), Refusal::Frequency),
        (spoiled(0x0C, 0x16, &[iterm]), Refusal::SettingValue),
    ];
    for (event, wanted) in rows {
        assert_eq!(refusal(&state, &event), Some(wanted), "{event:?}");
        assert_eq!(Model::Off.step(&event).refusal, Some(Refusal::NotPowered));
        let step = Model::On(state).step_at(&event, 9);
        assert_eq!((step.place, step.model), (9, Model::On(state)));
        let mut rng = Rng::new(62);
        assert_eq!(refusal(&spoiled_state(&mut rng), &event), Some(Refusal::OutOfRange));
    }
    let Event::WriteRun(run) = half else { unreachable!("a run") };
    let unspelled = Event::WriteRun(Run { length: 33, ..run });
    assert_eq!(refusal(&state, &unspelled), Some(Refusal::OutOfRange));
    assert_eq!(refusal(&state, &spoiled(0x0C, 0x16, &[])), None);
}

/// Judged as written, also beside the reset bit that would undo it.
#[test]
fn a_reset_bit_mends_nothing() {
    let state = powered();
    let mut held = bytes(&state);
    held[0x10] |= 0x80;
    for (at, wrong, wanted) in
        [(0x0F, 0x00, Refusal::SettingValue), (0x16, 0x07, Refusal::Frequency)]
    {
        let mut other = held.clone();
        other[at] = wrong;
        assert_eq!(refusal(&state, &run(0x0E, &other[0x0E..=0x1C])), Some(wanted));
    }
}

/// Every code of every field. A setting takes those that a set event would;
/// FSW takes 1-6; every other field takes any.
#[test]
fn every_code_of_every_field() {
    let state = powered();
    for field in &FIELDS {
        for code in 0..=field.most() {
            let wanted = match field.holds {
                Holds::Setting { setting, unit } => refusal(&state, &set(setting, code * unit)),
                _ if field.name == "FSW" && [0, 7].contains(&code) => Some(Refusal::Frequency),
                _ => None,
            };
            let got = refusal(&state, &run_of(&state, field, code));
            assert_eq!(got, wanted, "{} {code}", field.name);
        }
    }
}

// ---- What a run does

/// "writing a field's bytes and sending the matching set event leave the same
/// state": the event that does the same as a field's written code, if one does.
fn matching(state: &State, field: &Field, code: u32) -> Option<Event> {
    match field.holds {
        Holds::Setting { setting, unit } => Some(set(setting, code * unit)),
        Holds::Masks(_) => {
            let (mut masks, written) = (0, with(state, field, code)[0]);
            for other in FIELDS.iter().filter(|other| other.address == field.address) {
                if let (Holds::Masks(bits), true) = (other.holds, written >> other.low & 1 == 1) {
                    masks |= bits;
                }
            }
            let kept = if field.address == 0x22 { 0xF00 } else { 0x0FF };
            Some(set(Setting::Masks, state.settings[Setting::Masks] & kept | masks))
        }
        _ if field.name == "REG_RST" && code == 1 => Some(Event::Reset),
        _ if field.name == "WD_RST" && code == 1 => Some(Event::Service),
        _ if (0x15..=0x1C).contains(&field.address) => {
            let byte = with(state, field, code)[0].into();
            Some(Event::Write { address: field.address, byte })
        }
        _ => None,
    }
}

#[test]
fn a_run_is_what_the_matching_event_is() {
    let mut rng = Rng::new(63);
    let mut compared = BTreeSet::new();
    for _ in 0..times(20_000) {
        // as a run leaves it: settled
        let state = after(&any_state(&mut rng), &Event::Service);
        let field = &FIELDS[rng.place(FIELDS.len())];
        let code = rng.within(0, field.most());
        if let Some(event) = matching(&state, field, code) {
            let step = give(&state, &run_of(&state, field, code));
            assert_eq!(step, give(&state, &event), "{field:?} {code}");
            compared.insert(field.name);
        }
    }
    assert_eq!(compared.len(), 56, "{compared:?}");
}

/// Stored fields are kept and nothing else is.
#[test]
fn stored_fields_are_stored() {
    let mut rng = Rng::new(64);
    let start = powered();
    for field in FIELDS.iter().filter(|field| matches!(field.holds, Holds::Stored { .. })) {
        for _ in 0..8 {
            let code = rng.within(0, field.most());
            if field.name == "FSW" && [0, 7].contains(&code) {
                continue;
            }
            let state = after(&start, &run_of(&start, field, code));
            assert_eq!(state.stored.code(field), code, "{}", field.name);
            let only = State { stored: state.stored, ..start };
            assert_eq!(bytes(&state)[field.address as usize..][..2], {
                let mut read = bytes(&only);
                read.push(0xFF);
                read[field.address as usize..][..2].to_vec()
            });
        }
    }
}

/// Bytes on read-only registers, and on reserved bits, are taken and change
/// nothing.
#[test]
fn read_only_bits() {
    let state = powered();
    for written in [0x00, 0xFF, 0xA5] {
        let rows = [(0x1D, 5), (0x20, 1), (0x21, 1), (0x24, 2), (0x24, 3), (0x26, 1)];
        for (address, length) in rows {
            assert_eq!(after(&state, &run(address, &vec![written; length])), state);
        }
    }
    let reserved = [(0x0E, 0x06 | 0xC0), (0x0F, 0x03 | 0xC0), (0x15, 0xF4), (0x1A, 0x50)];
    for (address, byte) in reserved {
        assert_eq!(after(&state, &run(address, &[byte])), state, "{address:#04X}");
    }
    assert_eq!(after(&state, &run(0x00, &[0x6F, 0x93])), state);
    assert_eq!(after(&state, &run(0x04, &[0x47, 0x9A])), state);
    assert_eq!(after(&state, &run(0x1B, &[0x3A])), state, "pins' codes");
    assert_eq!(after(&state, &run(0x1C, &[0xF7])), state);
}

/// What is read, written back, changes nothing but PG_MASK's two bits.
#[test]
fn what_is_read_written_back() {
    let mut rng = Rng::new(65);
    for _ in 0..times(2_000) {
        let mut state = after(&any_state(&mut rng), &Event::TakeFlags);
        if state.settings[Setting::Masks] & 3 != 3 {
            state.settings[Setting::Masks] &= !3;
        }
        let held = bytes(&state);
        for (first, last) in [(0x00, 0x1F), (0x08, 0x26), (0x10, 0x10), (0x22, 0x23)] {
            assert_eq!(after(&state, &run(first, &held[first as usize..=last])), state);
        }
    }
}

/// PG_MASK sets bits 0 and 1; a run leaves the other register's masks.
#[test]
fn masks() {
    let start = powered();
    for held in [0, 1, 2, 3, 0xFFC, 0xFFF] {
        let state = after(&start, &set(Setting::Masks, held));
        let masks = |address, byte| after(&state, &run(address, &[byte])).settings[Setting::Masks];
        assert_eq!(masks(0x22, 0x80), held & 0xF00 | 3);
        assert_eq!(masks(0x22, 0x7F), held & 0xF00 | 0xFC);
        assert_eq!(masks(0x22, 0x00), held & 0xF00);
        assert_eq!(masks(0x23, 0x00), held & 0x0FF);
        let wanted = [(0x80, 8), (0x08, 9), (0x40, 10), (0x20, 11)];
        for (byte, bit) in wanted {
            assert_eq!(masks(0x23, byte), held & 0x0FF | 1 << bit);
        }
    }
}

/// Sixteen-bit registers are little-endian: VREG 8,400 is 840 << 3, 0x1A40.
#[test]
fn little_endian() {
    let state = after(&powered(), &run(0x04, &[0xC0, 0x12]));
    assert_eq!(state.settings[Setting::Vreg], 6_000);
    let state = after(&powered(), &run(0x00, &[0xF0, 0x0F, 0xB0, 0x04]));
    assert_eq!(state.settings[Setting::Vsysmin], 5_100);
    assert_eq!(state.settings[Setting::Ichg], 1_500);
}

/// "CELL_PIN that is taken at 0x1B overwrites VREG and VSYSMIN of the same
/// run", by the override as it stood before the run.
#[test]
fn a_count_of_cells() {
    let start = powered();
    let allowed = after(&start, &run(0x1B, &[0x40]));
    let mut written = bytes(&allowed);
    (written[0x04], written[0x05]) = (0xC0, 0x12);
    let of = |state: &State, count: u8| {
        let mut written = written.clone();
        written[0x1B] = 0x40 | count;
        let left = after(state, &run(0x00, &written[0x00..=0x1B]));
        (left.pins.cell, left.settings[Setting::Vreg], left.settings[Setting::Vsysmin])
    };
    assert_eq!(of(&allowed, 4), (4, 16_800, 12_400));
    assert_eq!(of(&allowed, 1), (1, 4_200, 3_500));
    assert_eq!(of(&allowed, 2), (2, 6_000, 6_200), "the same count");
    assert_eq!(of(&allowed, 0), (2, 6_000, 6_200), "no count");
    assert_eq!(of(&start, 4), (2, 6_000, 6_200), "an override of the run itself");
    let off = after(&allowed, &run(0x1B, &[0x04]));
    assert_eq!((off.pins.cell, off.overrides().cell), (4, false));
}

/// "Reset and service bits act as kinds 7 and 6 after the run's other bytes";
/// the reset starts from the count that the run took.
#[test]
fn reset_and_service_bits() {
    let start = after(&powered(), &run(0x1B, &[0x40]));
    let mut written = bytes(&start);
    (written[0x08], written[0x09], written[0x1B]) = (0x00, 0x40, 0x43);
    written[0x10] = 0x80;
    written[0x12] = 0x02;
    let reset = after(&start, &run(0x04, &written[0x04..=0x23]));
    let plain = {
        written[0x10] = 0;
        after(&after(&start, &run(0x04, &written[0x04..=0x23])), &Event::Reset)
    };
    assert_eq!(State { flags: 0, ..reset }, State { flags: 0, ..plain });
    assert_eq!((reset.pins.cell, reset.settings[Setting::Vreg]), (3, 12_600));
    assert_eq!([0x08, 0x09, 0x10, 0x12].map(|at| byte(&reset, at)), [0x00, 0x40, 0x3F, 0x82]);

    let waited = |state: &State| after(state, &observe(state, |sample| sample.stamp += 1_000));
    let counted = waited(&start);
    assert_eq!(counted.watchdog, 1_000);
    assert_eq!(
        after(&counted, &run(0x12, &[0x80])).watchdog,
        1_000,
        "a run serves by its bit alone"
    );
    let served = after(&counted, &run(0x12, &[0x84]));
    assert_eq!((served.watchdog, byte(&served, 0x12)), (0, 0x80));
    assert_eq!(after(&counted, &run(0x10, &[0xBF])).watchdog, 0);
}

/// One settling, at the run's end: VREG of 3,000 would make the battery over,
/// were it settled before the reset bit acts.
#[test]
fn one_settling() {
    let start = powered();
    let seen = |sample: &mut Sample| (sample.vin, sample.vbat) = (12_000, 8_400);
    let state = after(&start, &observe(&start, seen));
    let mut written = bytes(&state);
    (written[0x04], written[0x05], written[0x10]) = (0x60, 0x09, 0xBF);
    let step = give(&state, &run(0x04, &written[0x04..=0x10]));
    assert_eq!((on(&step).comparators, on(&step).phase), (state.comparators, state.phase));
    assert_eq!((on(&step).flags, step.pulse), (state.flags, false));
    written[0x10] = 0x3F;
    let step = give(&state, &run(0x04, &written[0x04..=0x10]));
    assert!(on(&step).comparators.battery_over && step.pulse);
    assert_eq!(report(&step.model).phase, 7);
}

/// An edge of a run pulses by the masks that the run itself has written.
#[test]
fn pulses_by_the_masks_after_it() {
    let start = powered();
    let seen = |sample: &mut Sample| (sample.vin, sample.vbat) = (12_000, 7_600);
    let state = after(&start, &observe(&start, seen));
    let mut written = bytes(&state);
    written[0x13] &= !0x20;
    for (mask, pulse) in [(0x00, true), (0x01, false), (0xFE, true)] {
        written[0x22] = mask;
        let step = give(&state, &run(0x13, &written[0x13..=0x23]));
        assert_eq!((step.pulse, on(&step).flags & 64), (pulse, 64));
        assert_eq!(on(&step).phase, 0);
    }
}

#[test]
fn runs_on_any_model() {
    let mut rng = Rng::new(66);
    let mut met = BTreeSet::new();
    for _ in 0..times(20_000) {
        let state = any_state(&mut rng);
        let event = Event::WriteRun(any_run(&mut rng));
        let step = give(&state, &event);
        assert!(may_hold(&step.model), "{event:?}");
        assert!(step.refusal.is_none() || step.model == Model::On(state));
        assert_eq!(step.handed, 0);
        met.insert(step.code());
        assert_eq!(Model::Off.step(&event).refusal, Some(Refusal::NotPowered));
    }
    assert_eq!(met, BTreeSet::from([0, 9, 10, 11, 15]));
}

// ---- Reads that clear

/// The table's flags of a register are those that its read clears.
#[test]
fn flags_of_each_register() {
    for address in (0..=300).chain([0x8000_0020, u32::MAX]) {
        let own =
            FIELDS.iter().filter(|field| field.address == address).map(|field| match field.holds {
                Holds::Flags(bits) => bits,
                _ => 0,
            });
        let own = own.fold(0, |all, bits| all | bits);
        assert_eq!(flags_at(address).unwrap_or(0), own, "{address:#04X}");
    }
}

/// "Kind 14 hands back the register's byte, not the flags' number", and clears
/// its own flags.
#[test]
fn every_flag_of_each_register() {
    let start = after(&powered(), &Event::TakeFlags);
    for flags in 0..=4_095 {
        let state = State { flags, ..start };
        for (address, own) in [(0x20, 0x0FF), (0x21, 0xF00)] {
            let step = give(&state, &Event::ReadFlags { address });
            assert_eq!((step.refusal, step.pulse), (None, false));
            assert_eq!(step.handed, u32::from(byte(&state, address)));
            assert_eq!(on(&step), State { flags: flags & !own, ..state });
            assert_eq!(byte(&on(&step), address), 0);
        }
    }
}

/// 6, then 10, wherever it isn't a flag register.
#[test]
fn addresses_of_no_flag_register() {
    let state = powered();
    let far = (8..32).flat_map(|bit| [0x20, 0x21].map(|low| (1u32 << bit) + low));
    for address in (0..=300).chain(far).chain([u32::MAX]) {
        let event = Event::ReadFlags { address };
        let wanted = (!(0x20..=0x21).contains(&address)).then_some(Refusal::UnknownAddress);
        assert_eq!(refusal(&state, &event), wanted, "{address:#X}");
        assert_eq!(Model::Off.step(&event).refusal, Some(Refusal::NotPowered));
        let step = Model::On(state).step_at(&event, 5);
        assert_eq!(step.place, if wanted.is_some() { 5 } else { 0 });
    }
}

/// On models that aren't settled: "after settling, as kind 4 does all of them".
#[test]
fn flags_of_its_own_settling() {
    let mut rng = Rng::new(67);
    let mut pulses = 0;
    for _ in 0..times(20_000) {
        let state = any_state(&mut rng);
        let all = give(&state, &Event::TakeFlags);
        let settled = State { flags: all.handed, ..on(&all) };
        for (address, own) in [(0x20, 0x0FF), (0x21, 0xF00)] {
            let step = give(&state, &Event::ReadFlags { address });
            assert_eq!((step.refusal, step.pulse), (None, all.pulse));
            assert_eq!(step.handed, u32::from(byte(&settled, address)));
            assert_eq!(on(&step), State { flags: all.handed & !own, ..settled });
        }
        pulses += u32::from(all.pulse);
    }
    assert!(pulses > 0);
}

// ---- What the generators reach

/// Every setting and every mask register moved by runs, counts taken, both
/// bits, and each refusal, beside a power-on or not.
#[test]
fn plausible_logs_reach_runs() {
    let mut moved = BTreeSet::new();
    let mut answers = BTreeSet::new();
    let mut bits = [false; 3];
    for seed in 0..times(2_000) {
        let mut model = Model::Off;
        for event in plausible_events(seed, 60) {
            let step = model.step(&event);
            if let Event::WriteRun(run) = event {
                answers.insert(step.code());
                if let (None, Model::On(before), Model::On(after)) =
                    (step.refusal, model, step.model)
                {
                    let settings = before.settings.0.iter().zip(after.settings.0);
                    moved.extend(
                        (1..)
                            .zip(settings)
                            .filter(|(_, (old, new))| *old != new)
                            .map(|(number, _)| number),
                    );
                    bits[0] |= before.pins.cell != after.pins.cell;
                    bits[1] |= before.watchdog != after.watchdog;
                    let at = |address: u32| {
                        let place = address.checked_sub(run.address)? as usize;
                        run.written()?.get(place).copied()
                    };
                    bits[2] |= at(0x10).is_some_and(|byte| byte & 0x80 != 0);
                }
            }
            if let Event::ReadFlags { .. } = event {
                answers.insert(100 + step.code());
            }
            model = step.model;
        }
    }
    assert_eq!(moved, (1..=14).collect::<BTreeSet<u32>>());
    assert_eq!(bits, [true; 3]);
    assert_eq!(answers, BTreeSet::from([0, 6, 9, 10, 11, 15, 100, 106, 110]));
}
