//! Settling: what follows from the settings, the registers and the sample.

use crate::band::{self, Band};
use crate::event::{CE_HIGH, HIZ_PIN, SHUTDOWN};
use crate::settings::Setting;
use crate::state::{phase, Comparators, Cycle, State};
use crate::volts::{CellMv, PackMv};

/// What makes a model settle.
#[derive(Clone, Copy, Debug, PartialEq, Eq)]
pub(crate) enum Cause {
    /// An observation, and the phase held when it came.
    Observation {
        /// That phase.
        held: u32,
    },
    /// Any other event.
    Other,
}

/// The two points of a comparator that latches.
struct Points {
    /// The point while it doesn't hold.
    enter: u32,
    /// The point while it does.
    leave: u32,
}

impl Points {
    fn at(&self, latched: bool) -> u32 {
        if latched {
            self.leave
        } else {
            self.enter
        }
    }
}

const VIN_OK: Points = Points { enter: 2_900, leave: 2_350 };
const VIN_OVER: Points = Points { enter: 36_300, leave: 34_500 };
/// Per cell: "Short ends at 2,150 per cell, returns below 1,850 (1-2 cells)".
const SHORT_FEW: Points = Points { enter: 1_850, leave: 2_150 };
/// Per cell: "2,200 and 2,000 (3-7)".
const SHORT_MANY: Points = Points { enter: 2_000, leave: 2_200 };
/// Thousandths of base by VBAT_LOWV; "returns 5 points lower", which are
/// percentage points.
const LOW: [Points; 4] = [
    Points { enter: 250, leave: 300 },
    Points { enter: 500, leave: 550 },
    Points { enter: 617, leave: 667 },
    Points { enter: 664, leave: 714 },
];
/// Thousandths of base.
const BATTERY_OVER: Points = Points { enter: 1_040, leave: 1_020 };
/// Thousandths of the charge voltage by VRECHG.
const RECHARGE: [u32; 4] = [927, 941, 955, 970];

/// How near to the charge voltage taper begins, mV.
const TAPER_MARGIN: u32 = 10;

/// Settles `state`.
pub(crate) fn settle(state: &mut State, cause: Cause) {
    let fault = pin_fault(state);
    if fault {
        // Stored: it stays 0 after the fault until the host sets it.
        state.settings[Setting::EnChg] = 0;
    }
    compare(state, fault);
    state.bands = band::settled(state);
    if !permitted(state, fault) {
        state.cycle = Cycle::default();
        state.phase = phase::IDLE;
        return;
    }
    restart_if_spent(state);
    state.phase = judged(state);
    if done_begins(state, cause) {
        state.cycle.done = true;
        state.phase = phase::DONE;
    }
}

/// "Pin fault: CELL_PIN 0; vchg or ichg code 0 without its override."
fn pin_fault(state: &State) -> bool {
    state.pins.cell == 0
        || (state.pins.vchg == 0 && !state.overrides().vchg)
        || (state.pins.ichg == 0 && !state.overrides().ichg)
}

/// "Base voltage: lower of VREG and the pack clamp, which is vchg x cells
/// or, with VCHG override, ceiling x cells."
pub fn base_voltage(state: &State) -> PackMv {
    let per_cell = if state.overrides().vchg { state.ceiling } else { state.pins.vchg_value() };
    PackMv(state.settings[Setting::Vreg]).min(per_cell.times(state.pins.cell))
}

/// "Charge voltage: base, less in warm 250, 100 or 0 per cell (JEITA_VSET
/// 1-3)." Cool beside warm "has no cut".
pub fn charge_voltage(state: &State) -> PackMv {
    let cut = match (band::of_state(state), state.stored.jeita_vset()) {
        (Band::Warm, 1) => CellMv(250),
        (Band::Warm, 2) => CellMv(100),
        _ => CellMv(0),
    };
    base_voltage(state).less(cut.times(state.pins.cell))
}

/// Moves the comparators. A pin fault forces those of the battery ("short,
/// low, not over") and leaves those of VIN alone.
fn compare(state: &mut State, fault: bool) {
    let old = state.comparators;
    let vin = state.sample.vin;
    state.comparators = Comparators {
        vin_ok: vin >= VIN_OK.at(old.vin_ok),
        vin_over: vin >= VIN_OVER.at(old.vin_over),
        short: fault || is_short(state),
        low: fault || is_low(state),
        battery_over: !fault && is_battery_over(state),
    };
}

fn vbat(state: &State) -> PackMv {
    PackMv(state.sample.vbat)
}

fn is_short(state: &State) -> bool {
    let cells = state.pins.cell;
    let points = if cells <= 2 { SHORT_FEW } else { SHORT_MANY };
    vbat(state) < CellMv(points.at(state.comparators.short)).times(cells)
}

fn is_low(state: &State) -> bool {
    let points = &LOW[state.settings[Setting::VbatLowv] as usize];
    vbat(state).is_below_share(base_voltage(state), points.at(state.comparators.low))
}

fn is_battery_over(state: &State) -> bool {
    let point = BATTERY_OVER.at(state.comparators.battery_over);
    !vbat(state).is_below_share(base_voltage(state), point)
}

/// "The recharge point .. is taken from the charge voltage after the band's
/// cut." (R-1)
fn below_recharge(state: &State) -> bool {
    let share = RECHARGE[state.settings[Setting::Vrechg] as usize];
    vbat(state).is_below_share(charge_voltage(state), share)
}

/// "Permission: input good, no HIZ (EN_HIZ, or EN_EXTILIM with the pin
/// high), EN_CHG, CE low, no pin fault."
fn permitted(state: &State, fault: bool) -> bool {
    state.comparators.input_good()
        && !high_impedance(state)
        && state.settings.is_on(Setting::EnChg)
        && !state.sample.shows(CE_HIGH)
        && !fault
}

fn high_impedance(state: &State) -> bool {
    let by_pin = state.settings.is_on(Setting::EnExtilim) && state.sample.shows(HIZ_PIN);
    state.settings.is_on(Setting::EnHiz) || by_pin
}

/// "When phase 5 would hold and VBAT is below [the recharge point], done and
/// times clear and the later phases are judged." Phases 7 and 6 come before
/// 5: while they hold, done survives.
fn restart_if_spent(state: &mut State) {
    if judged(state) == phase::DONE && below_recharge(state) {
        state.cycle = Cycle::default();
    }
}

/// The phase under permission, first that holds.
fn judged(state: &State) -> u32 {
    let Comparators { short, low, battery_over, .. } = state.comparators;
    if state.sample.shows(SHUTDOWN) || battery_over || state.limit_reached() {
        phase::FAULT
    } else if suspended(state) {
        phase::SUSPENDED
    } else if state.cycle.done {
        phase::DONE
    } else if short {
        phase::TRICKLE
    } else if low {
        phase::PRECHARGE
    } else if state.sample.vbat + TAPER_MARGIN >= charge_voltage(state).0 {
        phase::TAPER
    } else {
        phase::FAST
    }
}

/// "6 suspended, cold, hot, cool with JEITA_ISETC 0, warm with JEITA_VSET 0".
/// Cool beside warm "suspends whatever ISETC and VSET are".
fn suspended(state: &State) -> bool {
    match band::of_state(state) {
        Band::Cold | Band::Hot | Band::Mixed => true,
        Band::Cool => state.stored.jeita_isetc() == 0,
        Band::Warm => state.stored.jeita_vset() == 0,
        Band::Normal => false,
    }
}

/// "Done begins, and 5 is reported, only on an observation: phase 4 held
/// before it and judged after it, EN_TERM, IBAT < ITERM, no regulation". IBAT
/// is signed; the regulation is the new sample's. "One test fewer at the end
/// of charge" (R-2): the recharge point is the restart's alone.
fn done_begins(state: &State, cause: Cause) -> bool {
    cause == Cause::Observation { held: phase::TAPER }
        && state.phase == phase::TAPER
        && state.settings.is_on(Setting::EnTerm)
        && i64::from(state.sample.ibat) < i64::from(state.settings[Setting::Iterm])
        && !state.sample.regulates()
}
