//! Two thermistors, kind 10: its spelling and its ranges, the band of both, that
//! equal values act as kind 5, and what the generators reach of it.

mod example;
mod left;
mod lines;
mod numbers;
mod seen;

use std::collections::BTreeSet;

use reference::generate::{any_state, any_two_sample, plausible_events, spoiled_state, times, Rng};
use reference::settle::base_voltage;
use reference::state::phase;
use reference::{
    band, read_register, record, report, stat, Band, Event, Model, Reading, Refusal, Report,
    Sample, Stat, State, Step, TsBand, TwoSample,
};

use example::PROFILE;
use left::on;
use lines::{each_parts, run_alike};
use numbers::{each_refused, each_taken, of_numbers, with, Range};
use seen::{after, back, band_of, coded, give, sample, two, write, THRESHOLDS};

const KIND: u8 = 10;

/// The least and the most TS of each band by the registers' resets: TH1 75,320,
/// TH2 68,250, TH3 44,750, TH5 34,375.
const ENDS: [[u32; 2]; 5] =
    [[44_751, 68_249], [75_320, 100_000], [0, 34_375], [68_250, 75_319], [34_376, 44_750]];

/// The bands in the order of their numbers, and of the lists here.
const BANDS: [Band; 5] = [Band::Normal, Band::Cold, Band::Hot, Band::Cool, Band::Warm];
const NORMAL: usize = 0;
const COLD: usize = 1;
const HOT: usize = 2;
const COOL: usize = 3;
const WARM: usize = 4;

/// The band of two thermistors, worked out by hand: a row for the first one's
/// band, a column for the second's.
const TABLE: [[u32; 5]; 5] =
    [[0, 1, 2, 3, 4], [1, 1, 1, 1, 1], [2, 1, 2, 2, 2], [3, 1, 2, 3, 7], [4, 1, 2, 7, 4]];

fn powered() -> State {
    on(&Model::Off.step(&Event::PowerOn(PROFILE)))
}

/// A TS in a band.
fn within(band: usize) -> u32 {
    ENDS[band][1] - 1
}

fn two_in(first: usize, second: usize) -> Event {
    two(within(first), within(second))
}

fn ts_stat(state: &State) -> u32 {
    let byte = read_register(&Model::On(*state), 0x1E).expect("a powered model answers");
    u32::from(byte)
}

/// Each pair of bands, and of their ends.
fn pairs() -> impl Iterator<Item = ((usize, u32), (usize, u32))> {
    let ends = || (0..5).flat_map(|band| ENDS[band].map(|ts| (band, ts)));
    ends().flat_map(move |first| ends().map(move |second| (first, second)))
}

// ---- The band

#[test]
fn the_table_both_ways_round() {
    let start = powered();
    for ((first, ts), (second, other)) in pairs() {
        let state = after(&start, &two(ts, other));
        let wanted = TABLE[first][second];
        assert_eq!(band_of(&state).number(), wanted, "{ts} {other}");
        assert_eq!(ts_stat(&state), wanted);
        assert_eq!(TABLE[second][first], wanted);
    }
    for (number, (band, name)) in
        (0..).zip(BANDS.into_iter().zip(["normal", "cold", "hot", "cool", "warm"]))
    {
        assert_eq!((band.number(), band.name()), (number, name));
    }
    assert_eq!((Band::Mixed.number(), Band::Mixed.name()), (7, "mixed"));
}

/// "judged by the same registers": EN_TS 0 is normal, without EN_JEITA neither
/// is cool or warm.
#[test]
fn the_switches_of_both() {
    let start = powered();
    for ((first, ts), (second, other)) in pairs() {
        let without_jeita = |band| if band == COOL || band == WARM { NORMAL } else { band };
        let wanted = TABLE[without_jeita(first)][without_jeita(second)];
        for (byte, wanted) in [(0xD5, wanted), (0xD6, 0), (0xD4, 0)] {
            let state = after(&after(&start, &write(0x19, byte)), &two(ts, other));
            assert_eq!(band_of(&state).number(), wanted, "{byte:#04X} {ts} {other}");
        }
    }
}

/// Each threshold's four codes, at it and beside it, with the other thermistor
/// normal: "the one that isn't normal decides".
#[test]
fn each_threshold_by_either() {
    let bands = [Band::Cold, Band::Cool, Band::Warm, Band::Hot];
    for (index, (wanted, values)) in bands.into_iter().zip(THRESHOLDS).enumerate() {
        for (code, threshold) in (0..).zip(values) {
            let start = after(&powered(), &coded(index, code));
            let got = |ts, other| band_of(&after(&start, &two(ts, other)));
            let outside = back(index, threshold, 1);
            for (ts, other) in [(threshold, 55_000), (55_000, threshold)] {
                assert_eq!(got(ts, other), wanted, "{threshold}");
            }
            for (ts, other) in [(outside, 55_000), (55_000, outside)] {
                assert_ne!(got(ts, other), wanted, "{threshold}");
            }
        }
    }
}

/// Thresholds that overlap: each thermistor is judged by itself, cold before
/// cool, and only then are the two joined.
#[test]
fn overlapping_thresholds() {
    let cold = after(&powered(), &write(0x18, 0x93));
    assert_eq!(band_of(&after(&cold, &two(70_900, 44_750))), Band::Cold);
    assert_eq!(band_of(&after(&cold, &two(44_750, 70_900))), Band::Cold);
    let hot = after(&powered(), &write(0x18, 0x35));
    assert_eq!(band_of(&after(&hot, &two(41_200, 70_000))), Band::Hot);
    assert_eq!(band_of(&after(&hot, &two(70_000, 41_200))), Band::Hot);
}

// ---- What the band of both does

/// "suspends whatever ISETC and VSET are"; cool and warm by themselves as they
/// did.
#[test]
fn suspension_by_each_pair() {
    for behaviour in 0..32 {
        let start = after(&powered(), &write(0x19, 0x83 | behaviour << 2));
        let (vset, isetc) = (behaviour >> 3, behaviour & 3);
        for ((first, ts), (second, other)) in pairs() {
            let state = after(&start, &two(ts, other));
            let suspended = match TABLE[first][second] {
                0 => false,
                3 => isetc == 0,
                4 => vset == 0,
                _ => true,
            };
            let wanted = if suspended { phase::SUSPENDED } else { phase::FAST };
            assert_eq!(state.phase, wanted, "{behaviour:#04X} {ts} {other}");
        }
    }
}

#[test]
fn cool_beside_warm_reports_nothing() {
    for event in [two_in(COOL, WARM), two_in(WARM, COOL)] {
        let model = give(&powered(), &event).model;
        let wanted = Report { phase: 6, current: 0, voltage: 0, input_limit: 3_300 };
        assert_eq!((report(&model), stat(&model)), (wanted, Stat::Blinking));
    }
}

/// "has no cut and no share", as a model shows that is handed in: in a phase
/// that charges, which no run leads to.
#[test]
fn no_cut_and_no_share() {
    let mut rng = Rng::new(81);
    let fast = State { phase: phase::FAST, ..after(&powered(), &two_in(COOL, WARM)) };
    let Report { current, voltage, .. } = report(&Model::On(fast));
    assert_eq!((current, voltage), (1_500, 8_400));
    for _ in 0..times(5_000) {
        let held = any_state(&mut rng);
        let mixed = State { bands: [TsBand::Cool, TsBand::Warm], ..held };
        let normal = State { bands: [TsBand::Normal; 2], ..held };
        assert_eq!(band_of(&mixed), Band::Mixed);
        assert_eq!(report(&Model::On(mixed)), report(&Model::On(normal)));
        if (phase::TRICKLE..=phase::TAPER).contains(&held.phase) {
            assert_eq!(report(&Model::On(mixed)).voltage, base_voltage(&held).0);
        }
    }
}

/// "Flag 7 is a change of the combined band", whichever thermistor moved.
#[test]
fn flag_7_by_the_band_of_both() {
    let moves = [
        (COOL, NORMAL, true),
        (NORMAL, COOL, false),
        (COOL, COOL, false),
        (COOL, WARM, true),
        (WARM, COOL, false),
        (WARM, WARM, true),
        (NORMAL, WARM, false),
        (COLD, WARM, true),
        (HOT, COLD, false),
        (COLD, HOT, false),
        (HOT, HOT, true),
        (COOL, HOT, false),
        (NORMAL, HOT, false),
        (NORMAL, NORMAL, true),
    ];
    let masked = after(&powered(), &Event::Set { number: 14, value: 4_095 - 128 });
    let mut state = after(&masked, &Event::TakeFlags);
    for (first, second, edge) in moves {
        let step = give(&state, &two_in(first, second));
        assert_eq!((on(&step).flags & 128 != 0, step.pulse), (edge, edge), "{first} {second}");
        state = after(&on(&step), &Event::TakeFlags);
    }
}

/// Thresholds that a write moves past the second one alone.
#[test]
fn registers_move_the_band_of_the_second() {
    let state = after(&powered(), &two(55_000, 65_350));
    assert_eq!(band_of(&state), Band::Normal);
    let step = give(&after(&state, &Event::TakeFlags), &write(0x18, 0x99));
    assert_eq!((band_of(&on(&step)), on(&step).flags), (Band::Cool, 128));
    assert!(step.pulse);
}

// ---- What is held

#[test]
fn both_are_55000_before_the_first_observation() {
    let state = powered();
    assert_eq!((state.sample.ts, state.second), (55_000, 55_000));
    let cold = after(&state, &two_in(NORMAL, COLD));
    let again = after(&cold, &Event::PowerOn(PROFILE));
    assert_eq!((again.sample.ts, again.second), (55_000, 55_000));
    assert_eq!(band_of(&again), Band::Normal);
}

/// "kind 5 stands for two equal ones": it leaves nothing of a second that was
/// held. Other events leave both.
#[test]
fn kind_5_brings_both() {
    let cold = after(&powered(), &two_in(NORMAL, COLD));
    for event in [Event::Service, Event::Reset, Event::TakeFlags, write(0x15, 0)] {
        let state = after(&cold, &event);
        assert_eq!(state.observed(), cold.observed(), "{event:?}");
        assert_eq!(band_of(&state), Band::Cold);
    }
    for (number, band) in BANDS.into_iter().enumerate() {
        let state = after(&cold, &Event::Observe(sample(within(number))));
        assert_eq!((state.sample.ts, state.second), (within(number), within(number)));
        assert_eq!(band_of(&state), band);
    }
}

/// A sample for a model, mostly at a time that passes.
fn any_two_for(rng: &mut Rng, state: &State) -> TwoSample {
    let ahead = rng.pick(&[0, 1, 1_000, 3_599_999, 3_600_000, 3_600_001, u32::MAX]);
    let mut two = if rng.once_in(4) { any_two_sample(rng) } else { any_state(rng).observed() };
    two.sample.stamp = state.sample.stamp.wrapping_add(ahead);
    two
}

/// "A kind 10 with equal values is an event of its own that acts as kind 5."
#[test]
fn equal_values_act_as_kind_5() {
    let mut rng = Rng::new(82);
    let mut met = BTreeSet::new();
    for _ in 0..times(40_000) {
        let held = any_state(&mut rng);
        let sample = any_two_for(&mut rng, &held).sample;
        let (one, equal) = (Event::Observe(sample), Event::ObserveTwo(sample.of_two()));
        assert_ne!(one, equal);
        assert_eq!(sample.of_two().second, sample.ts);
        for model in [Model::Off, Model::On(held), Model::On(spoiled_state(&mut rng))] {
            let step = model.step_at(&equal, 5);
            assert_eq!(step, model.step_at(&one, 5), "{sample:?} on {model:?}");
            met.insert(step.code());
        }
    }
    assert_eq!(met, BTreeSet::from([0, 5, 6, 7]));
}

/// A model with its thermistors the other way round.
fn swapped(state: &State) -> State {
    let sample = Sample { ts: state.second, ..state.sample };
    let [first, second] = state.bands;
    State { sample, second: state.sample.ts, bands: [second, first], ..*state }
}

fn swapped_step(step: Step) -> Step {
    Step { model: Model::On(swapped(&on(&step))), ..step }
}

/// Neither thermistor counts for more than the other.
#[test]
fn the_other_way_round() {
    let mut rng = Rng::new(83);
    for _ in 0..times(20_000) {
        let state = any_state(&mut rng);
        let TwoSample { sample, second } = any_two_for(&mut rng, &state);
        let other = TwoSample { sample: Sample { ts: second, ..sample }, second: sample.ts };
        let step = Model::On(state).step(&Event::ObserveTwo(TwoSample { sample, second }));
        let swapped = Model::On(swapped(&state)).step(&Event::ObserveTwo(other));
        assert_eq!(swapped_step(step), swapped, "{sample:?} {second}");
    }
}

/// A TS at a threshold of a model, beside one, or normal.
fn any_ts(rng: &mut Rng, state: &State) -> u32 {
    let stored = &state.stored;
    let centre = rng.pick(&[stored.th1(), stored.th2(), stored.th3(), stored.th5(), 55_000]);
    rng.near(centre)
}

/// Where a TS of the two is in the band of both by itself, kind 5 with that one
/// does the same; else one is cool and the other warm. By the first edition,
/// which judges both afresh.
#[test]
fn as_kind_5_with_the_one_that_decides() {
    let mut rng = Rng::new(84);
    let mut met = BTreeSet::new();
    for _ in 0..times(20_000) {
        let state = State { edition: 1, ..any_state(&mut rng) };
        let [first, second] = [(); 2].map(|()| any_ts(&mut rng, &state));
        let stamp = state.sample.stamp.wrapping_add(1_000);
        let seen = |ts| Sample { stamp, ..sample(ts) };
        let both = give(&state, &Event::ObserveTwo(TwoSample { sample: seen(first), second }));
        let one = [first, second]
            .map(|ts| give(&state, &Event::Observe(seen(ts))))
            .into_iter()
            .find(|one| band(&one.model) == band(&both.model));
        met.insert((one.is_some(), band(&both.model).number()));
        if let Some(one) = one {
            let bands = on(&both).bands;
            let held = State { sample: seen(first), second, bands, ..on(&one) };
            assert_eq!(Step { model: Model::On(held), ..one }, both);
        }
    }
    let decided = (0..5).map(|band| (true, band));
    assert_eq!(met, decided.chain([(false, 7)]).collect());
}

#[test]
fn runs_are_those_of_kind_5() {
    run_alike(|event| match event {
        Event::Observe(sample) => Event::ObserveTwo(sample.of_two()),
        _ => *event,
    });
}

// ---- The record

/// Kind 10's numbers, each in its range.
const NUMBERS: [u32; 7] = [1_000, 12_000, 7_600, 0, 55_000, 44_000, 4];

/// "the second value right after the first", and so before the bits.
#[test]
fn its_spelling() {
    let bytes = [10, 0xE8, 0x07, 0xE0, 0x5D, 0xB0, 0x3B, 1, 0xD8, 0xAD, 0x03, 0xE0, 0xD7, 0x02, 4];
    let sample = Sample { ibat: -1, bits: 4, ..sample(55_000) };
    let event = Event::ObserveTwo(TwoSample { sample, second: 44_000 });
    assert_eq!(record::encode(&event), bytes);
    assert_eq!(record::read(&bytes, 0), Reading::Record { event, next: bytes.len() });
    assert_eq!((event.kind(), record::numbers_of(&event)[5..].to_vec()), (10, vec![44_000, 4]));
    let longest = record::encode(&of_numbers(KIND, &[u32::MAX; 7]));
    assert_eq!(longest.len(), 36);
    let state = after(&powered(), &of_numbers(KIND, &NUMBERS));
    assert_eq!((state.sample.ts, state.second, state.sample.bits), (55_000, 44_000, 4));
}

/// Logs are compared as they are, though the models are equal.
#[test]
fn observations_that_are_said_otherwise_part() {
    let sample = sample(55_000);
    let events = [
        Event::Observe(sample),
        Event::ObserveTwo(sample.of_two()),
        Event::ObserveTwo(TwoSample { sample, second: 55_001 }),
    ];
    each_parts(Event::PowerOn(PROFILE), &events);
}

/// Values of each number that are taken, and such as are 5; IBAT as logged.
const RANGES: [Range; 7] = [
    (&[0, 3_600_000], &[]),
    (&[0, 45_000], &[45_001, u32::MAX]),
    (&[0, 45_000], &[45_001, u32::MAX]),
    (&[0, 10_000, 19_999], &[10_002, 20_001, u32::MAX - 1, u32::MAX]),
    (&[0, 100_000], &[100_001, u32::MAX]),
    (&[0, 100_000], &[100_001, 165_536, u32::MAX]),
    (&[0, 63], &[64, 100_000, u32::MAX]),
];

/// "6, 5, 7 for observations": what is out of its range is 5 though the stamp
/// is too far ahead, and 6 before a power-on.
#[test]
fn each_number_has_its_range() {
    let model = Model::On(powered());
    each_taken(&model, KIND, NUMBERS, &RANGES);
    let ahead = with(NUMBERS, 0, 3_600_001);
    for numbers in [NUMBERS, ahead] {
        each_refused(&model, KIND, numbers, &RANGES, Refusal::OutOfRange);
        each_refused(&Model::Off, KIND, numbers, &RANGES, Refusal::NotPowered);
    }
    assert_eq!(model.step(&of_numbers(KIND, &ahead)).refusal, Some(Refusal::StampAhead));
}

/// A held second TS is judged as a held first one is.
#[test]
fn what_a_model_may_hold() {
    for second in [0, 55_000, 100_000, 100_001, u32::MAX] {
        let model = Model::On(State { second, ..powered() });
        let refused = (second > 100_000).then_some(Refusal::OutOfRange);
        assert_eq!(model.step(&Event::Service).refusal, refused, "{second}");
        assert_eq!(reference::may_hold(&model), refused.is_none());
    }
}

// ---- What the generators reach

/// What is met of kind 10 in runs.
#[derive(Default)]
struct Met {
    observations: [u32; 2],
    bands: BTreeSet<(u32, u32)>,
    moves: BTreeSet<(u32, u32)>,
    suspends: BTreeSet<(u8, u8)>,
    thresholds: BTreeSet<(bool, u32)>,
    seconds: BTreeSet<u32>,
    equal: bool,
}

impl Met {
    fn run(&mut self, events: &[Event]) {
        let mut model = Model::Off;
        for event in events {
            let step = model.step(event);
            self.step(&model, event, &step);
            model = step.model;
        }
    }

    fn step(&mut self, before: &Model, event: &Event, step: &Step) {
        let Some(TwoSample { sample, second }) = event.observed() else { return };
        let of_two = matches!(event, Event::ObserveTwo(_));
        self.observations[usize::from(of_two)] += 1;
        if !of_two {
            return;
        }
        self.seconds.insert(second);
        let (Model::On(state), None) = (step.model, step.refusal) else { return };
        let [one, other] = state.bands.map(TsBand::number);
        self.bands.insert((one, other));
        self.moves.insert((band(before).number(), band_of(&state).number()));
        self.thresholds.extend([(false, sample.ts), (true, second)]);
        self.equal |= sample.ts == second;
        if band_of(&state) == Band::Mixed && state.phase == phase::SUSPENDED {
            self.suspends.insert((state.stored.jeita_isetc(), state.stored.jeita_vset()));
        }
    }
}

/// Every threshold, and beside it.
fn points() -> impl Iterator<Item = u32> {
    THRESHOLDS.into_iter().flatten().flat_map(|at| [at - 1, at, at + 1])
}

/// Half of all observations; each pair of bands, each move from a band of both
/// to another, cool beside warm whatever ISETC and VSET are; each threshold and
/// beside it, by either; the ends of the second's range and beside it.
#[test]
fn plausible_logs_reach_every_pair_of_bands() {
    let mut met = Met::default();
    for seed in 0..times(3_000) {
        met.run(&plausible_events(seed, 120));
    }
    let [one, both] = met.observations;
    assert!(both * 9 > one * 8 && both * 8 < one * 9, "{one} of one, {both} of two");
    let all = |count: u32| (0..count).flat_map(move |a| (0..count).map(move |b| (a, b)));
    assert_eq!(met.bands, all(5).collect());
    let joined = |number| if number == 5 { 7 } else { number };
    assert_eq!(met.moves, all(6).map(|(a, b)| (joined(a), joined(b))).collect());
    assert_eq!(met.suspends, all(4).map(|(a, b)| (a as u8, b as u8)).collect());
    let wanted: BTreeSet<(bool, u32)> = points().flat_map(|ts| [(false, ts), (true, ts)]).collect();
    let missing: Vec<_> = wanted.difference(&met.thresholds).collect();
    assert!(missing.is_empty(), "{missing:?}");
    assert!(met.equal && [0, 100_000, 100_001].iter().all(|ts| met.seconds.contains(ts)));
}
