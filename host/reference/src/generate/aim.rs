//! Values at a model's thresholds, and beside them.

use super::rng::Rng;
use super::{BACK, MOST_MV, MOST_TS};
use crate::band::TsBand;
use crate::settle::{base_voltage, charge_voltage};
use crate::state::{Stage, State, MOST_AHEAD_MS, UNITS_PER_SECOND};
use crate::stored::Stored;
use crate::volts::{CellMv, PackMv};

/// A current at `centre`, beside it, or far from it.
pub(super) fn around(rng: &mut Rng, centre: i32) -> i32 {
    let near = centre + rng.within_signed(-1, 1);
    rng.pick(&[near, near, near, 0, -1, -10_000, 5_000, 300])
}

/// A gap of time: to a limit or the watchdog's end, give or take one; the
/// greatest that passes and the least that doesn't; back; or anything.
pub(super) fn gap(rng: &mut Rng, state: &State) -> u32 {
    let free = rng.within(0, MOST_AHEAD_MS);
    match rng.within(0, 19) {
        0 | 1 => 0,
        2 | 3 => rng.within(1, 3),
        4..=6 => rng.near(to_limit(state)).min(MOST_AHEAD_MS),
        7 | 8 => rng.near(state.watchdog_end() as u32 - state.watchdog).min(MOST_AHEAD_MS),
        9 => MOST_AHEAD_MS,
        10 => rng.pick(&[MOST_AHEAD_MS + 1, u32::MAX, 1 << 31]),
        11..=16 => rng.pick(&[100, 1_000, 10_000, 30_000]),
        _ => free,
    }
}

/// The ms until the held stage's limit, at the rate of the held sample.
fn to_limit(state: &State) -> u32 {
    let Some(stage) = Stage::of_phase(state.phase) else {
        return 0;
    };
    let units =
        (UNITS_PER_SECOND * state.limits.of(stage)).saturating_sub(state.cycle.times.of(stage));
    if state.sample.regulates() {
        units
    } else {
        units.div_ceil(2)
    }
}

pub(super) fn threshold_of_vin(rng: &mut Rng) -> u32 {
    let centre = rng.pick(&[0, 2_350, 2_900, 34_500, 36_300, 5_000, 12_000, MOST_MV - 1]);
    rng.near(centre)
}

/// The least mV that isn't below `thousandths` of `base`.
pub(super) fn share_of(base: PackMv, thousandths: u32) -> u32 {
    (base.0 * thousandths).div_ceil(1_000)
}

/// A comparator's point, a share of the base rounded up: itself, or one mV
/// beside it.
pub(super) fn threshold_of_vbat(rng: &mut Rng, state: &State) -> u32 {
    let cells = state.pins.cell;
    let base = base_voltage(state);
    let share = rng
        .pick(&[250, 300, 500, 550, 617, 667, 664, 714, 927, 941, 955, 970, 1_000, 1_020, 1_040]);
    let per_cell = rng.pick(&[1_850, 2_150, 2_000, 2_200]);
    let centre = match rng.within(0, 4) {
        0 => CellMv(per_cell).times(cells).0,
        1 => charge_voltage(state).0.saturating_sub(10),
        2 => rng.within(0, MOST_MV),
        _ => share_of(base, share),
    };
    rng.near(centre).min(MOST_MV)
}

/// A threshold of a band, or where one that is held is left: itself, or one
/// beside it.
pub(super) fn threshold_of_ts(rng: &mut Rng, state: &State) -> u32 {
    let stored = &state.stored;
    let held = [stored.th1(), stored.th2(), stored.th3(), stored.th5()];
    let threshold = rng.pick(&held);
    let centre = match rng.within(0, 8) {
        0 => rng.pick(&[0, MOST_TS - 1, 55_000]),
        1 => rng.pick(&[70_900, 41_200, 37_700]),
        2 | 3 => rng.pick(&[threshold - BACK, threshold + BACK]),
        4 => {
            let held = rng.pick(&state.bands);
            back_from(stored, held, BACK).unwrap_or(threshold)
        }
        _ => threshold,
    };
    rng.near(centre)
}

/// TS so far back past the threshold that lets a band in; normal has none.
pub(super) fn back_from(stored: &Stored, band: TsBand, by: u32) -> Option<u32> {
    match band {
        TsBand::Normal => None,
        TsBand::Cold => Some(stored.th1() - by),
        TsBand::Hot => Some(stored.th5() + by),
        TsBand::Cool => Some(stored.th2() - by),
        TsBand::Warm => Some(stored.th3() + by),
    }
}
