//! Models handed in from outside.

use super::aim::{around, back_from, threshold_of_ts, threshold_of_vbat, threshold_of_vin};
use super::records::good_edition;
use super::rng::Rng;
use super::{BACK, MOST_TS, NORMAL_TS};
use crate::band::TsBand;
use crate::event::{EditionProfile, Sample, TwoSample};
use crate::pins::Pins;
use crate::settings::{Setting, Settings};
use crate::state::{Comparators, Cycle, PerStage, Stage, State, MOST_AHEAD_MS, UNITS_PER_SECOND};
use crate::stored::{Stored, WRITABLE};
use crate::volts::CellMv;

/// Any state that a model may hold, related or not to what a run makes.
pub fn any_state(rng: &mut Rng) -> State {
    let EditionProfile { profile, edition } = good_edition(rng);
    let limits =
        PerStage { trickle: profile.trickle, precharge: profile.precharge, fast: profile.fast };
    let phase = rng.within(0, 7);
    let TwoSample { sample, second } = Sample::at_power_on(profile.stamp).of_two();
    let mut state = State {
        pins: Pins { cell: profile.cell, vchg: profile.vchg, ichg: profile.ichg },
        ohms: profile.ohms,
        ceiling: CellMv(profile.ceiling),
        limits,
        period: profile.watchdog,
        edition,
        settings: any_settings(rng),
        stored: any_stored(rng),
        comparators: any_comparators(rng),
        bands: [(); 2].map(|()| rng.pick(&TsBand::ALL)),
        cycle: Cycle { times: any_times(rng, &limits, phase), done: rng.coin() },
        watchdog: any_below(rng, profile.watchdog * 1_000 + 1),
        sample,
        second,
        phase,
        flags: rng.within(0, 4_095),
    };
    state.sample.vin = if rng.coin() { 5_000 } else { threshold_of_vin(rng) };
    state.sample.vbat = threshold_of_vbat(rng, &state);
    state.sample.ts = any_ts(rng, &state, state.bands[0]);
    state.second = any_second(rng, &state);
    state.sample.ibat = around(rng, state.settings[Setting::Iterm] as i32);
    state.sample.bits = if rng.coin() { 0 } else { rng.within(0, 63) };
    state
}

/// A thermistor's TS: at a threshold, or where its band is just held or left.
fn any_ts(rng: &mut Rng, state: &State, band: TsBand) -> u32 {
    let by = rng.pick(&[0, 1, BACK - 1, BACK - 1, BACK, BACK + 1]);
    match back_from(&state.stored, band, by) {
        Some(ts) if rng.coin() => ts,
        _ => threshold_of_ts(rng, state).min(MOST_TS),
    }
}

/// The second thermistor's TS: equal, normal, or as the first's may be.
fn any_second(rng: &mut Rng, state: &State) -> u32 {
    let other = any_ts(rng, state, state.bands[1]);
    rng.pick(&[state.sample.ts, NORMAL_TS, other, other])
}

/// A number below `end`, which isn't 0: often near it, or 0.
fn any_below(rng: &mut Rng, end: u32) -> u32 {
    let last = end - 1;
    let near_last = last - rng.within(0, last.min(2_000));
    let free = rng.within(0, last);
    rng.pick(&[0, last, near_last, free])
}

fn any_times(rng: &mut Rng, limits: &PerStage, phase: u32) -> PerStage {
    let mut times = PerStage::default();
    for stage in Stage::ALL {
        let end = UNITS_PER_SECOND * limits.of(stage);
        if end != 0 {
            let held = Stage::of_phase(phase) == Some(stage);
            let beyond = if held || !rng.once_in(4) { 0 } else { 2 * MOST_AHEAD_MS };
            *times.of_mut(stage) = any_below(rng, end + beyond);
        }
    }
    times
}

fn any_settings(rng: &mut Rng) -> Settings {
    let mut settings = Settings([0; 14]);
    for setting in Setting::ALL {
        let range = setting.range();
        let steps = (range.most - range.least) / range.step;
        settings[setting] = range.least + rng.within(0, steps) * range.step;
    }
    if !rng.once_in(4) {
        settings[Setting::EnChg] = 1;
        settings[Setting::EnHiz] = 0;
    }
    settings
}

fn any_stored(rng: &mut Rng) -> Stored {
    let mut bytes = WRITABLE.map(|mask| rng.any() as u8 & mask);
    bytes[0x16] = bytes[0x16] & !7 | rng.within(1, 6) as u8;
    if rng.coin() {
        // EN_JEITA and EN_TS.
        bytes[0x19] |= 3;
    }
    Stored(bytes)
}

fn any_comparators(rng: &mut Rng) -> Comparators {
    Comparators {
        vin_ok: rng.coin(),
        vin_over: rng.coin(),
        short: rng.coin(),
        low: rng.coin(),
        battery_over: rng.coin(),
    }
}

/// A state with one field, or a few, just outside what a model may hold.
pub fn spoiled_state(rng: &mut Rng) -> State {
    let mut state = any_state(rng);
    for _ in 0..rng.within(1, 2) {
        spoil(rng, &mut state);
    }
    state
}

fn spoil(rng: &mut Rng, state: &mut State) {
    match rng.within(0, 20) {
        0 => state.pins.cell = 8,
        1 => state.pins.vchg = 8,
        2 => state.pins.ichg = 8,
        3 => state.ohms = 33_001,
        4 => state.ceiling = CellMv(rng.pick(&[4_349, 4_715])),
        5 => state.period = 172_801,
        6 => spoil_setting(rng, &mut state.settings),
        7 | 8 => spoil_stored(rng, &mut state.stored),
        9 => state.stored.0[0x16] = state.stored.0[0x16] & !7 | rng.pick(&[0, 7]),
        10 => state.watchdog = state.watchdog_end() as u32 + 1,
        11 => state.sample.vin = 45_001,
        12 => state.sample.vbat = 45_001,
        13 => state.sample.ibat = rng.pick(&[-10_001, 5_001]),
        14 => state.sample.ts = 100_001,
        15 => state.second = 100_001,
        16 => state.sample.bits = 64,
        17 => state.phase = 8,
        18 => state.flags = 4_096,
        19 => state.edition = rng.pick(&[0, 3, 257, u32::MAX]),
        _ => spoil_time(rng, state),
    }
}

/// Sets a bit that is no stored field's, from 0x00 to 0x27.
fn spoil_stored(rng: &mut Rng, stored: &mut Stored) {
    let others: Vec<(usize, u8)> = WRITABLE
        .iter()
        .enumerate()
        .flat_map(|(address, mask)| (0..8).map(move |bit| (address, !mask & 1 << bit)))
        .filter(|(_, bit)| *bit != 0)
        .collect();
    let (address, bit) = rng.pick(&others);
    stored.0[address] |= bit;
}

fn spoil_setting(rng: &mut Rng, settings: &mut Settings) {
    let setting = rng.pick(&Setting::ALL);
    let range = setting.range();
    settings[setting] = range.most + rng.pick(&[1, range.step]);
}

/// The least time a stage may not hold, or a limit out of its range.
fn spoil_time(rng: &mut Rng, state: &mut State) {
    let stage = rng.pick(&Stage::ALL);
    if rng.once_in(4) {
        *state.limits.of_mut(stage) = 172_801;
        return;
    }
    let end = UNITS_PER_SECOND * state.limits.of(stage);
    let held = Stage::of_phase(state.phase) == Some(stage);
    *state.cycle.times.of_mut(stage) = match (end, held) {
        (0, _) => 1,
        (_, true) => end,
        (_, false) => end + 2 * MOST_AHEAD_MS,
    };
}
