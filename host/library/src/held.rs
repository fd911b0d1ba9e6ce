//! What the reference says of a model that an image holds: of one event on
//! it, of its report and of its registers.

use crate::image::{Held, Powered};
use reference::pins::Pins;
use reference::{
    may_hold, read_register, report, stat, Event, Model, Refusal, Report, Stat, State, Step,
};

/// What an accepted event leaves and shows.
pub(crate) struct Accepted {
    pub(crate) held: Held,
    /// Phase, current, voltage, input limit, pulse, held flags, and what is
    /// handed back.
    pub(crate) shown: [u32; 7],
}

/// One event on a held model.
pub(crate) fn step(held: &Held, event: &Event) -> Result<Accepted, Refusal> {
    if matches!(held, Held::On(powered) if !passes(powered)) {
        return Err(Refusal::OutOfRange);
    }
    let step = held.model().step(event);
    match step.refusal {
        Some(refusal) => Err(refusal),
        None => Ok(Accepted { held: held.after(event, &step.model), shown: shown(&step) }),
    }
}

/// Whether each field is what it may be; the power-on's cell code is one that
/// the reference doesn't keep.
fn passes(powered: &Powered) -> bool {
    powered.cell <= 7 && may_hold(&Model::On(powered.state))
}

fn shown(step: &Step) -> [u32; 7] {
    let Report { phase, current, voltage, input_limit } = report(&step.model);
    let flags = held_flags(&step.model);
    [phase, current, voltage, input_limit, u32::from(step.pulse), flags, step.handed]
}

fn held_flags(model: &Model) -> u32 {
    match model {
        Model::Off => 0,
        Model::On(state) => state.flags,
    }
}

/// Phase, current, voltage, input limit, held flags and STAT; of a model that
/// may not hold what it does, too.
pub(crate) fn report_words(powered: &Powered) -> [u32; 6] {
    let model = Model::On(State { pins: codes(&powered.state.pins), ..powered.state });
    let Report { phase, current, voltage, input_limit } = report(&model);
    [phase, current, voltage, input_limit, powered.state.flags, stat_number(stat(&model))]
}

/// "0 low, 1 blinking, 2 high".
fn stat_number(stat: Stat) -> u32 {
    match stat {
        Stat::Low => 0,
        Stat::Blinking => 1,
        Stat::High => 2,
    }
}

/// Codes beyond their tables are read modulo the tables' length.
fn codes(pins: &Pins) -> Pins {
    Pins { vchg: pins.vchg % 8, ichg: pins.ichg % 8, ..*pins }
}

/// A register's byte.
pub(crate) fn register(held: &Held, address: u32) -> Result<u8, Refusal> {
    read_register(&held.model(), address)
}
