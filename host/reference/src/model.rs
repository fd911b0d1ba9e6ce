//! The model and one event on it.

use crate::edges::{edges, WATCHDOG_EXPIRED};
use crate::event::{EditionProfile, Event, Resistors};
use crate::hold::{edition_in_range, may_hold, resistors_in_range};
use crate::map;
use crate::refusal::Refusal;
use crate::registers::flags_at;
use crate::settle::{settle, Cause};
use crate::state::State;

/// The charger: without power, or with it.
#[derive(Clone, Copy, Debug, PartialEq, Eq)]
pub enum Model {
    /// Before a power-on.
    Off,
    /// After one.
    On(State),
}

/// The answer to one event.
#[derive(Clone, Copy, Debug, PartialEq, Eq)]
pub struct Step {
    /// Why the event was refused, if it was.
    pub refusal: Option<Refusal>,
    /// The refusal's place: that of the record, 0 outside a log and 0 for
    /// an accepted event.
    pub place: usize,
    /// The model after the event; the old one if it was refused.
    pub model: Model,
    /// Whether the event pulses.
    pub pulse: bool,
    /// What the event handed back: the flags (kind 4), or the flag register's
    /// byte (kind 14); else 0.
    pub handed: u32,
}

impl Step {
    /// The answer's number: 0, or the refusal's.
    pub fn code(&self) -> u32 {
        self.refusal.map_or(0, Refusal::number)
    }
}

/// What an accepted event gives.
struct Accepted {
    state: State,
    pulse: bool,
    handed: u32,
}

impl Model {
    /// One event given outside a log.
    pub fn step(&self, event: &Event) -> Step {
        self.step_at(event, 0)
    }

    /// One event whose record starts at `place`.
    pub fn step_at(&self, event: &Event, place: usize) -> Step {
        match self.accept(event) {
            Ok(Accepted { state, pulse, handed }) => {
                Step { refusal: None, place: 0, model: Model::On(state), pulse, handed }
            }
            Err(code) => Step { refusal: Some(code), place, model: *self, pulse: false, handed: 0 },
        }
    }

    /// "An event on a model with a field outside what it may hold is 5
    /// before all else".
    fn accept(&self, event: &Event) -> Result<Accepted, Refusal> {
        if !may_hold(self) {
            return Err(Refusal::OutOfRange);
        }
        match (event, self) {
            (Event::PowerOn(profile), _) => powered_on(&profile.of_first()),
            (Event::PowerOnResistors(resistors), _) => powered_by(resistors),
            (Event::PowerOnEdition(edition), _) => powered_on(edition),
            (_, Model::Off) => Err(Refusal::NotPowered),
            (_, Model::On(before)) => stepped(before, event),
        }
    }
}

/// "Power-on sets flags to 32 and pulses": exactly 32, whatever was held. A
/// power-on can be refused with 5 alone.
fn powered_on(edition: &EditionProfile) -> Result<Accepted, Refusal> {
    if !edition_in_range(edition) {
        return Err(Refusal::OutOfRange);
    }
    let mut state = State::at_power_on(edition);
    settle(&mut state, Cause::Other);
    state.flags = WATCHDOG_EXPIRED;
    Ok(Accepted { state, pulse: true, handed: 0 })
}

/// "ohms above 100,000 are 5"; else "it acts as kind 1 with those codes".
fn powered_by(resistors: &Resistors) -> Result<Accepted, Refusal> {
    if !resistors_in_range(resistors) {
        return Err(Refusal::OutOfRange);
    }
    powered_on(&resistors.profile().of_first())
}

fn stepped(before: &State, event: &Event) -> Result<Accepted, Refusal> {
    let mut state = *before;
    state.apply(event)?;
    settle(&mut state, cause_of(event, before));
    let edges = edges(before, &state);
    state.flags |= edges;
    let handed = hand_back(event, &mut state);
    Ok(Accepted { state, pulse: state.pulses(edges), handed })
}

/// What an event hands back, and clears, of a state that it has settled. Kinds
/// 4 and 14 settle as any other event does; only then are flags taken: by kind
/// 4 all of them, by kind 14 the register's own, of which it hands back "the
/// register's byte, not the flags' number".
fn hand_back(event: &Event, state: &mut State) -> u32 {
    match event {
        Event::TakeFlags => std::mem::take(&mut state.flags),
        Event::ReadFlags { address } => {
            let byte = map::byte(state, *address);
            state.flags &= !flags_at(*address).unwrap_or(0);
            byte.into()
        }
        _ => 0,
    }
}

fn cause_of(event: &Event, before: &State) -> Cause {
    match event {
        Event::Observe(_) | Event::ObserveTwo(_) => Cause::Observation { held: before.phase },
        _ => Cause::Other,
    }
}
