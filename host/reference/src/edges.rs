//! The flags' edges, "between the state before the event and the state
//! after settling".

use crate::band;
use crate::event::{IINDPM, SHUTDOWN, THERMAL, VINDPM};
use crate::state::State;

/// Flag: input good begins.
pub const INPUT_GOOD: u32 = 1 << 0;
/// Flag: input good ends.
pub const INPUT_LOST: u32 = 1 << 1;
/// Flag: input current regulation begins.
pub const IINDPM_BEGINS: u32 = 1 << 2;
/// Flag: input voltage regulation begins.
pub const VINDPM_BEGINS: u32 = 1 << 3;
/// Flag: thermal regulation begins.
pub const THERMAL_BEGINS: u32 = 1 << 4;
/// Flag: the watchdog expired.
pub const WATCHDOG_EXPIRED: u32 = 1 << 5;
/// Flag: the phase changed.
pub const PHASE_CHANGED: u32 = 1 << 6;
/// Flag: the band changed.
pub const BAND_CHANGED: u32 = 1 << 7;
/// Flag: VIN over begins.
pub const VIN_OVER: u32 = 1 << 8;
/// Flag: thermal shutdown begins.
pub const SHUTDOWN_BEGINS: u32 = 1 << 9;
/// Flag: battery over begins.
pub const BATTERY_OVER: u32 = 1 << 10;
/// Flag: a first limit is reached.
pub const LIMIT_REACHED: u32 = 1 << 11;

/// The flags whose edge lies between `before` and `after`, masked or not.
pub fn edges(before: &State, after: &State) -> u32 {
    let changes = [
        (rises(before, after, |state| state.comparators.input_good()), INPUT_GOOD),
        (rises(before, after, |state| !state.comparators.input_good()), INPUT_LOST),
        (rises(before, after, |state| state.sample.shows(IINDPM)), IINDPM_BEGINS),
        (rises(before, after, |state| state.sample.shows(VINDPM)), VINDPM_BEGINS),
        (rises(before, after, |state| state.sample.shows(THERMAL)), THERMAL_BEGINS),
        (rises(before, after, State::watchdog_expired), WATCHDOG_EXPIRED),
        (before.phase != after.phase, PHASE_CHANGED),
        (band::of_state(before) != band::of_state(after), BAND_CHANGED),
        (rises(before, after, |state| state.comparators.vin_over), VIN_OVER),
        (rises(before, after, |state| state.sample.shows(SHUTDOWN)), SHUTDOWN_BEGINS),
        (rises(before, after, |state| state.comparators.battery_over), BATTERY_OVER),
        (rises(before, after, State::limit_reached), LIMIT_REACHED),
    ];
    changes.into_iter().filter(|(changed, _)| *changed).fold(0, |set, (_, flag)| set | flag)
}

fn rises(before: &State, after: &State, shown: impl Fn(&State) -> bool) -> bool {
    !shown(before) && shown(after)
}
