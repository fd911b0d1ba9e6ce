//! What events may bring and what a model may hold.

use crate::event::{EditionProfile, Profile, Resistors, TwoSample};
use crate::model::Model;
use crate::settings::{Setting, Settings};
use crate::state::{PerStage, Stage, State, MOST_AHEAD_MS, UNITS_PER_SECOND};

const MOST_CODE: u32 = 7;
const MOST_OHMS: u32 = 33_000;
const MOST_RESISTOR: u32 = 100_000;
const MOST_SECONDS: u32 = 172_800;
const MOST_MV: u32 = 45_000;
const MOST_TS: u32 = 100_000;
const MOST_BITS: u32 = 63;
const MOST_FLAGS: u32 = 4_095;
const MOST_PHASE: u32 = 7;

/// Whether a power-on's numbers are in their ranges: "another edition number is
/// 5".
pub fn edition_in_range(EditionProfile { profile, edition }: &EditionProfile) -> bool {
    profile_in_range(profile) && is_edition(*edition)
}

fn profile_in_range(profile: &Profile) -> bool {
    let codes = [profile.cell, profile.vchg, profile.ichg];
    let seconds = [profile.trickle, profile.precharge, profile.fast, profile.watchdog];
    codes.into_iter().all(is_code)
        && profile.ohms <= MOST_OHMS
        && is_ceiling(profile.ceiling)
        && seconds.into_iter().all(is_seconds)
}

/// Whether the resistors of a power-on are in their range. Its other numbers
/// are a profile's.
pub fn resistors_in_range(resistors: &Resistors) -> bool {
    let pins = [resistors.cell, resistors.vchg, resistors.ichg];
    pins.into_iter().all(|ohms| ohms <= MOST_RESISTOR)
}

/// Whether an observation's numbers are in their ranges, of which both TS have
/// the same. Its stamp has none.
pub fn sample_in_range(TwoSample { sample, second }: &TwoSample) -> bool {
    sample.vin <= MOST_MV
        && sample.vbat <= MOST_MV
        && (-10_000..=5_000).contains(&sample.ibat)
        && sample.ts <= MOST_TS
        && *second <= MOST_TS
        && sample.bits <= MOST_BITS
}

fn is_code(code: u32) -> bool {
    code <= MOST_CODE
}

fn is_seconds(seconds: u32) -> bool {
    seconds <= MOST_SECONDS
}

fn is_edition(edition: u32) -> bool {
    matches!(edition, 1 | 2)
}

fn is_ceiling(ceiling: u32) -> bool {
    (4_350..=4_714).contains(&ceiling)
}

/// Whether every field of a model, each by itself, is in the range that
/// accepted events can give it.
pub fn may_hold(model: &Model) -> bool {
    match model {
        Model::Off => true,
        Model::On(state) => state_may_hold(state),
    }
}

fn state_may_hold(state: &State) -> bool {
    held_profile_in_range(state)
        && settings_in_range(&state.settings)
        && state.stored.may_hold()
        && sample_in_range(&state.observed())
        && state.phase <= MOST_PHASE
        && state.flags <= MOST_FLAGS
        && Stage::ALL.into_iter().all(|stage| time_in_range(state, stage))
        && u64::from(state.watchdog) <= state.watchdog_end()
}

fn held_profile_in_range(state: &State) -> bool {
    let codes = [state.pins.cell, state.pins.vchg, state.pins.ichg];
    let PerStage { trickle, precharge, fast } = state.limits;
    codes.into_iter().all(is_code)
        && state.ohms <= MOST_OHMS
        && is_ceiling(state.ceiling.0)
        && [trickle, precharge, fast, state.period].into_iter().all(is_seconds)
        && is_edition(state.edition)
}

fn settings_in_range(settings: &Settings) -> bool {
    Setting::ALL.into_iter().all(|setting| setting.range().takes(settings[setting]))
}

/// A stage's time is 0 if its limit is 0. Else it is short of the limit
/// if the stage is the one held (at the limit, phase 7 is), and passes
/// the limit by less than one gap elsewhere.
fn time_in_range(state: &State, stage: Stage) -> bool {
    let time = state.cycle.times.of(stage);
    let limit = state.limits.of(stage);
    if limit == 0 {
        return time == 0;
    }
    let end = UNITS_PER_SECOND * limit;
    if Stage::of_phase(state.phase) == Some(stage) {
        time < end
    } else {
        time < end + 2 * MOST_AHEAD_MS
    }
}
