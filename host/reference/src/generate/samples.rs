//! Observations of any numbers, of one thermistor or of two.

use super::rng::Rng;
use super::{MOST_MV, MOST_TS, NORMAL_TS};
use crate::band;
use crate::event::{Event, Sample, TwoSample};
use crate::state::{State, MOST_AHEAD_MS};

/// An observation in the band of the sample's TS: of one thermistor, or of two
/// that are equal or of which the other is normal.
pub(super) fn observation(rng: &mut Rng, sample: Sample) -> Event {
    if rng.coin() {
        return Event::Observe(sample);
    }
    let (ts, second) =
        rng.pick(&[(sample.ts, sample.ts), (sample.ts, NORMAL_TS), (NORMAL_TS, sample.ts)]);
    Event::ObserveTwo(TwoSample { sample: Sample { ts, ..sample }, second })
}

/// An observation that brings these two values, of one thermistor only if they
/// are equal.
pub(super) fn observation_of(rng: &mut Rng, two: TwoSample) -> Event {
    if two == two.sample.of_two() && rng.coin() {
        Event::Observe(two.sample)
    } else {
        Event::ObserveTwo(two)
    }
}

/// The sample that stands, with the TS of a thermistor that is in the band of
/// both by itself, if one is.
pub(super) fn as_of_one(state: &State) -> Sample {
    let [_, second] = state.bands;
    let decides = second.of_both() == band::of_state(state);
    let ts = if decides { state.second } else { state.sample.ts };
    Sample { ts, ..state.sample }
}

/// An observation of the first thermistor alone, or of both.
pub(super) fn one_or_both(rng: &mut Rng, two: TwoSample) -> Event {
    if rng.coin() {
        Event::Observe(two.sample)
    } else {
        Event::ObserveTwo(two)
    }
}

/// The numbers of any observation of two thermistors.
pub fn any_two_sample(rng: &mut Rng) -> TwoSample {
    let sample = any_sample(rng);
    let free = rng.within(0, MOST_TS);
    let odd = rng.any_length();
    let second = rng.pick(&[sample.ts, free, free, free, MOST_TS, MOST_TS + 1, odd]);
    TwoSample { sample, second }
}

fn any_sample(rng: &mut Rng) -> Sample {
    let mut sample = Sample {
        stamp: rng.within(0, MOST_AHEAD_MS),
        vin: rng.within(0, MOST_MV),
        vbat: rng.within(0, MOST_MV),
        ibat: rng.within_signed(-10_000, 5_000),
        ts: rng.within(0, MOST_TS),
        bits: rng.within(0, 63),
    };
    if rng.coin() {
        let odd = rng.any_length();
        spoil_sample(rng, &mut sample, odd);
    }
    sample
}

fn spoil_sample(rng: &mut Rng, sample: &mut Sample, odd: u32) {
    match rng.within(0, 5) {
        0 => sample.stamp = odd,
        1 => sample.vin = rng.pick(&[45_000, 45_001, odd]),
        2 => sample.vbat = rng.pick(&[45_000, 45_001, odd]),
        3 => sample.ibat = rng.pick(&[-10_001, -10_000, 5_000, 5_001, odd as i32, i32::MIN]),
        4 => sample.ts = rng.pick(&[100_000, 100_001, odd]),
        _ => sample.bits = rng.pick(&[64, odd]),
    }
}

/// A sample with one number at an end of its range or just outside.
pub(super) fn edge_of_sample(rng: &mut Rng, held: TwoSample) -> TwoSample {
    let TwoSample { mut sample, mut second } = held;
    match rng.within(0, 5) {
        0 => sample.vin = rng.pick(&[0, 45_000, 45_001]),
        1 => sample.vbat = rng.pick(&[0, 45_000, 45_001]),
        2 => sample.ibat = rng.pick(&[-10_001, -10_000, 5_000, 5_001]),
        3 => sample.ts = rng.pick(&[0, 100_000, 100_001]),
        4 => second = rng.pick(&[0, 100_000, 100_001]),
        _ => sample.bits = rng.pick(&[0, 63, 64]),
    }
    TwoSample { sample, second }
}
