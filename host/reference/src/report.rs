//! What a model reports: phase, current, voltage, input limit, and STAT.

use crate::band::{self, Band};
use crate::model::Model;
use crate::pins::MOST_CHARGE_CURRENT;
use crate::settings::Setting;
use crate::settle::charge_voltage;
use crate::state::{phase, State};

/// The trickle current, mA; limited by neither setting nor clamp.
const TRICKLE_CURRENT: u32 = 100;

/// ILIM pin: amperes times ohms, in mA x ohm.
const ILIM_FACTOR: u32 = 3_333_000;

/// A model's report.
#[derive(Clone, Copy, Debug, PartialEq, Eq, Default)]
pub struct Report {
    /// Phase, 0-7.
    pub phase: u32,
    /// Charge current, mA.
    pub current: u32,
    /// Charge voltage of the pack, mV.
    pub voltage: u32,
    /// Input current limit, mA.
    pub input_limit: u32,
}

/// The report; zeros before a power-on.
pub fn report(model: &Model) -> Report {
    match model {
        Model::Off => Report::default(),
        Model::On(state) => of_state(state),
    }
}

/// "Phases 1-4 report current and voltage, others zeros."
fn of_state(state: &State) -> Report {
    let (current, voltage) = match state.phase {
        phase::TRICKLE..=phase::TAPER => (charge_current(state), charge_voltage(state).0),
        _ => (0, 0),
    };
    Report { phase: state.phase, current, voltage, input_limit: input_limit(state) }
}

/// "Current: 100; IPRECHG; else the lower of ICHG and clamp, times [the
/// band's share]": trickle and precharge aren't scaled.
fn charge_current(state: &State) -> u32 {
    match state.phase {
        phase::TRICKLE => TRICKLE_CURRENT,
        phase::PRECHARGE => state.settings[Setting::Iprechg],
        _ => state.settings[Setting::Ichg].min(charge_clamp(state)) * band_percent(state) / 100,
    }
}

/// "Charge clamp: ichg's value; with override 3,300."
fn charge_clamp(state: &State) -> u32 {
    if state.overrides().ichg {
        MOST_CHARGE_CURRENT
    } else {
        state.pins.ichg_value()
    }
}

/// "times 20, 40, 100% in cool (ISETC 1-3), 40 or 100% in warm". ISETC 0
/// suspends, so a run never reports its share; it is nothing. Cool beside warm
/// suspends too, and "has no cut and no share": all of the current.
fn band_percent(state: &State) -> u32 {
    match band::of_state(state) {
        Band::Cool => [0, 20, 40, 100][usize::from(state.stored.jeita_isetc())],
        Band::Warm if !state.stored.jeita_iseth() => 40,
        _ => 100,
    }
}

/// "Input limit: IINDPM, or with EN_EXTILIM and ohms above 0 the lower of it
/// and floor(3,333,000/ohms)."
fn input_limit(state: &State) -> u32 {
    let iindpm = state.settings[Setting::Iindpm];
    if state.settings.is_on(Setting::EnExtilim) && state.ohms > 0 {
        iindpm.min(ILIM_FACTOR / state.ohms)
    } else {
        iindpm
    }
}

/// What the STAT pin does.
#[derive(Clone, Copy, Debug, PartialEq, Eq)]
pub enum Stat {
    /// Charging.
    Low,
    /// Suspended or at fault.
    Blinking,
    /// Neither, or disabled.
    High,
}

impl Stat {
    /// The name of what it does.
    pub fn name(self) -> &'static str {
        match self {
            Stat::Low => "low",
            Stat::Blinking => "blinking",
            Stat::High => "high",
        }
    }
}

/// "STAT: low in 1-4, blinking in 6-7, else high; high if disabled." It is
/// high before a power-on.
pub fn stat(model: &Model) -> Stat {
    match model {
        Model::On(state) if !state.settings.is_on(Setting::DisStatPin) => match state.phase {
            phase::TRICKLE..=phase::TAPER => Stat::Low,
            phase::SUSPENDED | phase::FAULT => Stat::Blinking,
            _ => Stat::High,
        },
        _ => Stat::High,
    }
}
