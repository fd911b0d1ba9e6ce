//! The pack sheet's editions, kind 11: its spelling and its ranges, what the
//! second edition holds of each thermistor's band and what the first doesn't,
//! and what the generators reach of it.

mod example;
mod left;
mod lines;
mod numbers;
mod power_on;
mod seen;

use std::collections::BTreeSet;

use reference::generate::{
    any_edition, any_event, any_state, plausible_events, spoiled_state, times, Rng,
};
use reference::state::phase;
use reference::{
    record, Band, EditionProfile, Event, Model, Profile, Refusal, Run, State, Step, TsBand,
};

use example::PROFILE;
use left::on;
use lines::{each_parts, run_alike};
use numbers::{of_numbers, Range};
use power_on::{each_has_its_range, CEILING, OHMS, STAMP, TIME};
use seen::{after, back, band_of, coded, give, sample, two, write, THRESHOLDS};
use TsBand::{Cold, Cool, Hot, Normal, Warm};

const KIND: u8 = 11;
/// A TS that is normal, whatever the thresholds and whatever is held.
const MIDDLE: u32 = 55_000;
const BACK: u32 = 1_000;

/// The bands that are held, as the lists of thresholds have them: TH1, TH2, TH3
/// and TH5.
const HELD: [TsBand; 4] = [Cold, Cool, Warm, Hot];

fn edition(edition: u32) -> Event {
    Event::PowerOnEdition(EditionProfile { profile: PROFILE, edition })
}

fn powered(by: u32) -> State {
    on(&Model::Off.step(&edition(by)))
}

/// The second edition after observations of both thermistors, of the first
/// alone, or of the second alone, beside one that is normal.
fn seen_by(start: &State, which: usize, values: &[u32]) -> State {
    values.iter().fold(*start, |state, ts| {
        let [first, second] = [[*ts, *ts], [*ts, MIDDLE], [MIDDLE, *ts]][which];
        after(&state, &two(first, second))
    })
}

/// The bands of both, of the first alone, or of the second alone.
fn bands(which: usize, band: TsBand) -> [TsBand; 2] {
    [[band; 2], [band, Normal], [Normal, band]][which]
}

// ---- What is held

/// A thermistor's values one after another, by the registers' resets (TH1
/// 75,320, TH2 68,250, TH3 44,750, TH5 34,375), and its last band by the second
/// edition and by the first, worked out by hand.
const ROWS: [(&[u32], TsBand, TsBand); 31] = [
    (&[75_320], Cold, Cold),
    (&[75_320, 75_319], Cold, Cool),
    (&[75_320, 74_321], Cold, Cool),
    (&[75_320, 74_320], Cool, Cool),
    (&[75_320, 74_319], Cool, Cool),
    (&[75_320, 74_320, 74_321], Cool, Cool),
    (&[100_000, 74_321, 75_000, 74_321], Cold, Cool),
    (&[75_320, 67_251], Normal, Normal),
    (&[75_320, 74_320, 67_251], Cool, Normal),
    (&[75_320, MIDDLE], Normal, Normal),
    (&[75_320, 44_750], Warm, Warm),
    (&[75_320, 34_375], Hot, Hot),
    (&[34_375], Hot, Hot),
    (&[34_375, 34_376], Hot, Warm),
    (&[34_375, 35_374], Hot, Warm),
    (&[34_375, 35_375], Warm, Warm),
    (&[0, 45_749], Normal, Normal),
    (&[34_375, 35_375, 45_749], Warm, Normal),
    (&[34_375, 75_320], Cold, Cold),
    (&[68_250, 68_249], Cool, Normal),
    (&[68_250, 67_251], Cool, Normal),
    (&[68_250, 67_250], Normal, Normal),
    (&[68_250, 67_250, 67_251], Normal, Normal),
    (&[68_249], Normal, Normal),
    (&[68_250, 75_320], Cold, Cold),
    (&[68_250, 67_251, 34_375], Hot, Hot),
    (&[44_750, 44_751], Warm, Normal),
    (&[44_750, 45_749], Warm, Normal),
    (&[44_750, 45_750], Normal, Normal),
    (&[44_750, 34_375], Hot, Hot),
    (&[44_750, 45_749, 75_320], Cold, Cold),
];

#[test]
fn the_rows_of_either_edition() {
    for (values, second, first) in ROWS {
        for which in 0..3 {
            let state = seen_by(&powered(2), which, values);
            assert_eq!(state.bands, bands(which, second), "{values:?}");
            let state = seen_by(&powered(1), which, values);
            assert_eq!(state.bands, bands(which, first), "{values:?} by the first");
        }
    }
}

/// Each code of each threshold: 999 back stays, 1,000 back leaves, and what is
/// left is in the band that the first edition gives.
#[test]
fn each_threshold_back_by_1000() {
    for (threshold, (band, values)) in HELD.into_iter().zip(THRESHOLDS).enumerate() {
        for (code, at) in (0..).zip(values) {
            let start = after(&powered(2), &coded(threshold, code));
            let first = after(&powered(1), &coded(threshold, code));
            for (by, which) in
                (0..3).flat_map(|which| [0, 1, 999, 1_000, 1_001].map(|by| (by, which)))
            {
                let ts = back(threshold, at, by);
                let state = seen_by(&start, which, &[at, ts]);
                let afresh = seen_by(&first, which, &[ts]).bands;
                let wanted = if by < BACK { bands(which, band) } else { afresh };
                assert_eq!(state.bands, wanted, "{band:?} at {at} back by {by}");
            }
        }
    }
}

/// "Cold and hot are entered at once", from any band that is held and wherever
/// in it.
#[test]
fn cold_and_hot_at_once() {
    for held in TsBand::ALL {
        for (ts, wanted) in [(75_320, Cold), (100_000, Cold), (34_375, Hot), (0, Hot)] {
            let state = State { bands: [held; 2], ..powered(2) };
            assert_eq!(after(&state, &two(ts, ts)).bands, [wanted; 2], "{held:?} {ts}");
        }
    }
}

/// Thresholds that overlap: TH1 at TH2's 70,900, and TH5 above TH3.
#[test]
fn overlapping_thresholds() {
    let cold = after(&powered(2), &write(0x18, 0x93));
    let at = |values: &[u32]| seen_by(&cold, 0, values).bands;
    assert_eq!([at(&[70_900]), at(&[70_900, 69_901])], [[Cold; 2]; 2]);
    assert_eq!(at(&[70_900, 69_900]), [Normal; 2]);
    let hot = after(&powered(2), &write(0x18, 0x35));
    let at = |values: &[u32]| seen_by(&hot, 0, values).bands;
    assert_eq!([at(&[41_200]), at(&[37_700, 42_199])], [[Hot; 2]; 2]);
    assert_eq!(at(&[37_700, 42_200]), [Normal; 2]);
}

/// "for each thermistor by itself": one's hold is none of the other's.
#[test]
fn each_by_itself() {
    let start = after(&powered(2), &two(75_320, 74_320));
    assert_eq!(start.bands, [Cold, Cool]);
    assert_eq!(after(&start, &two(74_321, 75_319)).bands, [Cold, Cool]);
    assert_eq!(after(&start, &two(74_320, 75_320)).bands, [Cool, Cold]);
    assert_eq!(after(&start, &two(MIDDLE, 67_251)).bands, [Normal, Cool]);
    let mixed = after(&powered(2), &two(68_250, 44_750));
    let left = after(&mixed, &two(67_251, 45_749));
    assert_eq!((left.bands, band_of(&left)), ([Cool, Warm], Band::Mixed));
    let left = after(&left, &two(67_250, 45_749));
    assert_eq!((left.bands, band_of(&left)), ([Normal, Warm], Band::Warm));
    let one = after(&mixed, &Event::Observe(sample(67_251)));
    assert_eq!(one.bands, [Cool, Normal]);
}

/// What the band that is held does: the charge stays suspended, and flag 7 is
/// an edge of the band of both as it is held.
#[test]
fn flag_7_and_suspension() {
    let masked = after(&powered(2), &Event::Set { number: 14, value: 4_095 - 128 });
    let mut state = after(&after(&masked, &two(MIDDLE, MIDDLE)), &Event::TakeFlags);
    let suspended = phase::SUSPENDED;
    let moves = [
        (75_320, MIDDLE, true, suspended),
        (74_321, MIDDLE, false, suspended),
        (74_321, 75_320, false, suspended),
        (74_320, 74_321, false, suspended),
        (74_320, 74_320, true, phase::FAST),
        (67_251, 67_250, false, phase::FAST),
        (67_251, 44_750, true, suspended),
        (67_250, 45_749, true, phase::FAST),
        (67_250, 45_750, true, phase::FAST),
    ];
    for (first, second, edge, wanted) in moves {
        let step = give(&state, &two(first, second));
        let got = (on(&step).flags & 128 != 0, step.pulse, on(&step).phase);
        assert_eq!(got, (edge, edge, wanted), "{first} {second}");
        state = after(&on(&step), &Event::TakeFlags);
    }
}

// ---- What ends a hold

/// A held band, TS where the first edition has left it, and what that gives.
const STAYING: [(TsBand, u32, TsBand); 4] =
    [(Cold, 74_321, Cool), (Hot, 35_374, Warm), (Cool, 67_251, Normal), (Warm, 45_749, Normal)];

/// The second edition with a band that only the hold keeps.
fn held_in(band: TsBand, ts: u32) -> State {
    let state = State { bands: [band; 2], ..powered(2) };
    after(&state, &two(ts, ts))
}

/// "EN_TS 0 ends any holding at once, EN_JEITA 0 that of cool and warm"; what
/// has ended doesn't come back.
#[test]
fn the_switches() {
    for (band, ts, fresh) in STAYING {
        let state = held_in(band, ts);
        assert_eq!(state.bands, [band; 2]);
        for byte in [0xD4, 0xD6] {
            let off = after(&state, &write(0x19, byte));
            assert_eq!(off.bands, [Normal; 2], "{band:?} without EN_TS");
            assert_eq!(after(&off, &write(0x19, 0xD7)).bands, [fresh; 2]);
        }
        let without = after(&state, &write(0x19, 0xD5));
        let stays = matches!(band, Cold | Hot);
        assert_eq!(without.bands, [if stays { band } else { Normal }; 2], "without EN_JEITA");
        let wanted = if stays { band } else { fresh };
        assert_eq!(after(&without, &write(0x19, 0xD7)).bands, [wanted; 2]);
    }
    let cold = after(&held_in(Cold, 74_321), &write(0x19, 0xD5));
    assert_eq!(after(&cold, &two(74_320, 74_321)).bands, [Normal, Cold]);
}

/// Other bits of 0x19 end none.
#[test]
fn what_cool_and_warm_do_ends_no_hold() {
    for behaviour in 0..64 {
        for (band, ts, _) in STAYING {
            let state = after(&held_in(band, ts), &write(0x19, behaviour << 2 | 3));
            assert_eq!(state.bands, [band; 2], "{behaviour:#04X}");
        }
    }
}

/// "Moved thresholds are read as they stand at each event": a band entered by
/// one code is held by another, not by the one that let it in.
#[test]
fn moved_thresholds() {
    for (threshold, (band, values)) in HELD.into_iter().zip(THRESHOLDS).enumerate() {
        for (from, at) in (0..).zip(values) {
            for (to, moved) in (0..).zip(values) {
                for by in [0, 999, 1_000, 1_001] {
                    let ts = back(threshold, moved, by);
                    let entered = after(&powered(2), &coded(threshold, from));
                    let state = State { bands: [band; 2], ..entered };
                    let state = State { sample: sample(ts), second: ts, ..state };
                    let left = after(&state, &coded(threshold, to)).bands;
                    let afresh = State { edition: 1, ..state };
                    let afresh = after(&afresh, &coded(threshold, to)).bands;
                    let wanted = if by < BACK { [band; 2] } else { afresh };
                    assert_eq!(left, wanted, "{band:?} from {at} to {moved} back by {by}");
                }
            }
        }
    }
}

/// Events of every kind but a power-on's, none of which moves a threshold.
fn others() -> [Event; 9] {
    [
        Event::Set { number: 4, value: 60 },
        write(0x15, 0),
        write(0x18, 0x95),
        Event::TakeFlags,
        Event::Service,
        Event::Reset,
        Event::WriteRun(Run::new(0x17, &[0xAA, 0x95])),
        Event::WriteRun(Run::new(0x10, &[0x80])),
        Event::ReadFlags { address: 0x20 },
    ]
}

/// "The hold is judged at every event", and so is what it doesn't keep; "a
/// register reset leaves what is held".
#[test]
fn at_every_event() {
    for (band, ts, fresh) in STAYING {
        let further = if ts > MIDDLE { ts - 1 } else { ts + 1 };
        for event in others() {
            let state = held_in(band, ts);
            let kept = after(&state, &event);
            assert_eq!(kept.bands, [band; 2], "{event:?}");
            let moved = State { sample: sample(further), ..state };
            assert_eq!(after(&moved, &event).bands, [fresh, band], "{event:?}");
            let moved = State { second: further, ..state };
            assert_eq!(after(&moved, &event).bands, [band, fresh], "{event:?}");
        }
    }
}

/// The thresholds and switches that a reset restores count at once: a hold goes
/// on by them, or ends.
#[test]
fn a_reset_restores_the_thresholds() {
    let low = after(&powered(2), &coded(0, 3));
    let far = after(&low, &two(71_000, 74_321));
    assert_eq!(far.bands, [Cold; 2]);
    for event in [Event::Reset, Event::WriteRun(Run::new(0x10, &[0x80]))] {
        assert_eq!(after(&far, &event).bands, [Cool, Cold]);
        let held = State { edition: 1, ..far };
        assert_eq!(after(&held, &event).bands, [Cool; 2]);
        let off = after(&held_in(Cool, 67_251), &write(0x19, 0x00));
        assert_eq!(after(&off, &event).bands, [Normal; 2]);
    }
}

/// "A power-on starts with normal", whatever was held.
#[test]
fn a_power_on_starts_afresh() {
    for band in HELD {
        let state = State { bands: [band; 2], ..powered(2) };
        for event in [edition(1), edition(2), Event::PowerOn(PROFILE)] {
            assert_eq!(after(&state, &event).bands, [Normal; 2]);
            assert_eq!(after(&after(&state, &event), &Event::Service).bands, [Normal; 2]);
        }
    }
}

// ---- The two editions

/// A model's bands by the rulings' words, worked out apart from the reference.
fn ruled(state: &State) -> [TsBand; 2] {
    let stored = &state.stored;
    let first = |ts: u32| match ts {
        _ if !stored.en_ts() => Normal,
        _ if ts >= stored.th1() => Cold,
        _ if ts <= stored.th5() => Hot,
        _ if !stored.en_jeita() => Normal,
        _ if ts >= stored.th2() => Cool,
        _ if ts <= stored.th3() => Warm,
        _ => Normal,
    };
    let each = |held: TsBand, ts: u32| {
        let holds = match held {
            Normal => false,
            Cold => ts + BACK > stored.th1(),
            Hot => ts < stored.th5() + BACK,
            Cool => stored.en_jeita() && ts + BACK > stored.th2(),
            Warm => stored.en_jeita() && ts < stored.th3() + BACK,
        };
        let stays = state.edition == 2 && stored.en_ts() && holds;
        match first(ts) {
            at_once @ (Cold | Hot) => at_once,
            _ if stays => held,
            fresh => fresh,
        }
    };
    [each(state.bands[0], state.sample.ts), each(state.bands[1], state.second)]
}

/// On any model: an event that moves neither TS nor registers settles both
/// bands by the rulings; an observation those of its own values.
#[test]
fn any_model_by_the_rulings() {
    let mut rng = Rng::new(101);
    for _ in 0..times(40_000) {
        let state = any_state(&mut rng);
        let got = after(&state, &Event::Service).bands;
        assert_eq!(got, ruled(&state), "{state:?}");
        let stamp = state.sample.stamp;
        let mut seen = any_state(&mut rng).observed();
        seen.sample.stamp = stamp;
        let got = after(&state, &Event::ObserveTwo(seen)).bands;
        let observed = State { sample: seen.sample, second: seen.second, ..state };
        assert_eq!(got, ruled(&observed), "{seen:?} on {state:?}");
    }
}

/// The step with the first edition in its model.
fn but_for_the_edition(step: Step) -> Step {
    let state = on(&step);
    Step { model: Model::On(State { edition: 1, ..state }), ..step }
}

/// "the bands agree wherever the hold keeps nothing that the first edition would
/// leave", and where the bands do, all else does.
#[test]
fn the_editions_differ_by_the_hold_alone() {
    let mut rng = Rng::new(102);
    let mut met = BTreeSet::new();
    for _ in 0..times(40_000) {
        let state = any_state(&mut rng);
        let event = if rng.coin() { Event::TakeFlags } else { any_event(&mut rng) };
        if event.powered().is_some() {
            continue;
        }
        let [first, second] =
            [1, 2].map(|edition| Model::On(State { edition, ..state }).step(&event));
        let agree = on(&first).bands == on(&second).bands;
        met.insert((first.code(), agree));
        assert_eq!(first.refusal, second.refusal);
        if agree {
            assert_eq!(but_for_the_edition(second), first, "{event:?} on {state:?}");
        }
    }
    assert!(met.contains(&(0, true)) && met.contains(&(0, false)));
}

/// "Edition 1 judges afresh at each settling": what was held matters to flag 7
/// alone, which is an edge of it.
#[test]
fn the_first_edition_holds_nothing() {
    let mut rng = Rng::new(103);
    for _ in 0..times(20_000) {
        let state = State { edition: 1, ..any_state(&mut rng) };
        let event = any_event(&mut rng);
        if event.powered().is_some() {
            continue;
        }
        let given = |held: [TsBand; 2]| {
            let before = State { bands: held, flags: 128, ..state };
            let step = Model::On(before).step(&event);
            (step.refusal, State { bands: [Normal; 2], ..on(&step) }, on(&step).bands)
        };
        let (refusal, left, bands) = given([Normal; 2]);
        let held = [(); 2].map(|()| rng.pick(&TsBand::ALL));
        let kept = if refusal.is_some() { held } else { bands };
        assert_eq!(given(held), (refusal, left, kept), "{event:?} {held:?}");
    }
}

/// "Kinds 1 and 9 mean the first": kind 11 with edition 1 is kind 1, on any
/// model; with edition 2 it differs in that number alone.
#[test]
fn kind_11_beside_kind_1() {
    let mut rng = Rng::new(104);
    let mut met = BTreeSet::new();
    for _ in 0..times(20_000) {
        let profile = any_edition(&mut rng).profile;
        let told = |edition| Event::PowerOnEdition(EditionProfile { profile, edition });
        let models =
            [Model::Off, Model::On(any_state(&mut rng)), Model::On(spoiled_state(&mut rng))];
        for model in models {
            let one = model.step_at(&Event::PowerOn(profile), 5);
            assert_eq!(model.step_at(&told(1), 5), one, "{profile:?} on {model:?}");
            let other = model.step_at(&told(2), 5);
            assert_eq!(one.code(), other.code());
            if one.refusal.is_none() {
                assert_eq!((on(&one).edition, on(&other).edition), (1, 2));
                assert_eq!(but_for_the_edition(other), one);
            }
            met.insert(one.code());
        }
    }
    assert_eq!(met, BTreeSet::from([0, 5]));
}

#[test]
fn runs_are_those_of_kind_1() {
    run_alike(|event| match event {
        Event::PowerOn(profile) => Event::PowerOnEdition(profile.of_first()),
        _ => *event,
    });
}

// ---- The record

/// Kind 11's numbers, each in its range.
const NUMBERS: [u32; 11] = [2, 5, 4, 0, 0, 4_500, 3_600, 7_200, 36_000, 160, 2];

/// "an edition number 1 or 2 after the watchdog period"
#[test]
fn its_spelling() {
    let bytes =
        [11, 2, 5, 4, 0, 0, 0x94, 0x23, 0x90, 0x1C, 0xA0, 0x38, 0xA0, 0x99, 0x02, 0xA0, 0x01, 2];
    let profile = Profile { watchdog: 160, ..PROFILE };
    let event = Event::PowerOnEdition(EditionProfile { profile, edition: 2 });
    assert_eq!(record::encode(&event), bytes);
    assert_eq!((event, event.kind()), (of_numbers(KIND, &NUMBERS), KIND));
    assert_eq!(record::encode(&of_numbers(KIND, &[u32::MAX; 11])).len(), 56);
    let state = on(&Model::Off.step(&event));
    assert_eq!((state.period, state.edition), (160, 2));
}

/// Logs are compared as they are, though the models are equal.
#[test]
fn power_ons_that_are_said_otherwise_part() {
    each_parts(Event::Service, &[Event::PowerOn(PROFILE), edition(1), edition(2)]);
}

/// A pin's code.
const CODE: Range = (&[0, 7], &[8, u32::MAX]);
const EDITION: Range = (&[1, 2], &[0, 3, 4, 160, 257, 258, 65_537, 1 << 31 | 2, u32::MAX]);

#[test]
fn each_number_has_its_range() {
    let ranges = [CODE, CODE, CODE, OHMS, STAMP, CEILING, TIME, TIME, TIME, TIME, EDITION];
    each_has_its_range(KIND, NUMBERS, &ranges);
}

/// The held edition, and any two bands beside either.
#[test]
fn what_a_model_may_hold() {
    for edition in [0, 1, 2, 3, 257, u32::MAX] {
        let model = Model::On(State { edition, ..powered(2) });
        let refused = (!matches!(edition, 1 | 2)).then_some(Refusal::OutOfRange);
        assert_eq!(model.step(&Event::Service).refusal, refused, "{edition}");
        assert_eq!(reference::may_hold(&model), refused.is_none());
    }
    for (edition, first, second) in [1, 2].into_iter().flat_map(|edition| {
        let pairs = TsBand::ALL.into_iter().flat_map(|a| TsBand::ALL.map(|b| (a, b)));
        pairs.map(move |(first, second)| (edition, first, second))
    }) {
        let state = State { edition, bands: [first, second], ..powered(2) };
        assert!(reference::may_hold(&Model::On(state)));
        assert_eq!(after(&state, &Event::Service).bands, [Normal; 2]);
    }
}

#[test]
fn the_numbers_of_bands() {
    for (number, band) in (0..).zip(TsBand::ALL) {
        assert_eq!((band.number(), TsBand::numbered(number)), (number, Some(band)));
        assert_eq!(band.of_both().number(), number);
    }
    for number in [5, 6, 7, 8, 256, 257, u32::MAX] {
        assert_eq!(TsBand::numbered(number), None);
    }
}

// ---- What the generators reach

/// What is met of holds in runs of the second edition.
#[derive(Default)]
struct Met {
    /// Which thermistor, its band, and how far TS is back where the hold keeps
    /// it, or where it is left.
    kept: BTreeSet<(usize, u32, i64)>,
    left: BTreeSet<(usize, u32, i64)>,
    /// The kind of the event that a hold outlasts, or that ends it; and whether
    /// it was a register that moved.
    kinds: BTreeSet<(u8, bool)>,
    /// Moves from a held band to another.
    moves: BTreeSet<(u32, u32)>,
    /// Whether there was a power-on before, the kind, and the edition.
    editions: BTreeSet<(bool, u8, u32)>,
    holds: u32,
}

impl Met {
    fn run(&mut self, events: &[Event]) {
        let mut model = Model::Off;
        for event in events {
            let step = model.step(event);
            if let Some(EditionProfile { edition, .. }) = event.powered() {
                self.editions.insert((model != Model::Off, event.kind(), edition.min(4)));
            } else if let (Model::On(before), None) = (&model, step.refusal) {
                if before.edition == 2 {
                    self.settled(before, event, &on(&step));
                }
            }
            model = step.model;
        }
    }

    fn settled(&mut self, before: &State, event: &Event, state: &State) {
        let afresh = ruled(&State { edition: 1, ..*state });
        let values = [state.sample.ts, state.second];
        for which in 0..2 {
            let (held, left) = (before.bands[which], state.bands[which]);
            self.moves.insert((held.number(), left.number()));
            let Some(threshold) = HELD.into_iter().position(|band| band == held) else { continue };
            let stored = &state.stored;
            let at = [stored.th1(), stored.th2(), stored.th3(), stored.th5()][threshold];
            let sign = if threshold < 2 { 1 } else { -1 };
            let way = sign * (i64::from(at) - i64::from(values[which]));
            if left == held && afresh[which] != held {
                self.kept.insert((which, held.number(), way));
                self.kinds.insert((event.kind(), true));
                self.holds += 1;
            } else if left != held {
                self.left.insert((which, held.number(), way));
                self.kinds.insert((event.kind(), false));
            }
        }
    }
}

/// By each thermistor and of each band: kept from 1 back to 999, left from
/// 1,000 on; by every kind of event; each move between bands; editions that are
/// some and such as aren't, at a first power-on and at a later one.
#[test]
fn plausible_logs_reach_every_hold() {
    let mut met = Met::default();
    for seed in 0..times(3_000) {
        met.run(&plausible_events(seed, 120));
    }
    let each = || (0..2).flat_map(|which| HELD.map(|band| (which, band.number())));
    for (which, band) in each() {
        for way in [1, 999] {
            assert!(met.kept.contains(&(which, band, way)), "{which} {band} {way}");
        }
        for way in [1_000, 1_001] {
            assert!(met.left.contains(&(which, band, way)), "{which} {band} {way}");
        }
    }
    let kept = [2, 3, 4, 5, 6, 7, 8, 10, 14].map(|kind| (kind, true));
    let left = [3, 5, 7, 8, 10].map(|kind| (kind, false));
    assert_eq!(met.kinds, kept.into_iter().chain(left).collect());
    let moves = (0..5).flat_map(|from| (0..5).map(move |to| (from, to)));
    assert_eq!(met.moves, moves.collect());
    let editions = [false, true].into_iter().flat_map(|later| {
        let told = (0..5).map(move |edition| (later, 11, edition));
        told.chain([(later, 1, 1), (later, 9, 1)])
    });
    assert_eq!(met.editions, editions.collect());
    assert!(met.holds > 5_000, "{} holds", met.holds);
}
