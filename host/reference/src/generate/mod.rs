//! Logs, records and models made from a seed, to compare implementations on.
//! Equal seeds make equal bytes.
//!
//! * [`plausible_log`]: a charger's days, with values at every threshold.
//! * [`any_log`]: valid records of any numbers at all.
//! * [`damaged_log`]: a plausible log with bytes changed, cut or put in, or a
//!   number misspelled.
//! * [`log_pair`]: two logs that share a start.
//! * [`any_event`], [`any_edition`], [`any_resistors`], [`any_two_sample`],
//!   [`any_run`]: single events, in their ranges and out of them;
//!   [`unspelled_run`]: such as have no spelling.
//! * [`any_state`], [`spoiled_state`]: models handed in from outside.

use crate::event::Event;
use crate::record::{self, Reading};

mod aim;
mod damage;
mod holds;
mod probe;
mod records;
mod rng;
mod runs;
mod samples;
mod states;
mod walk;

pub use records::{any_edition, any_event, any_resistors};
pub use rng::Rng;
pub use runs::{any_run, unspelled_run};
pub use samples::any_two_sample;
pub use states::{any_state, spoiled_state};

use damage::damage;
use records::power_on;
use samples::observation_of;
use walk::Walk;

const MOST_MV: u32 = 45_000;
const MOST_TS: u32 = 100_000;
/// TS in the normal band, whatever the thresholds.
const NORMAL_TS: u32 = 55_000;
const MOST_RESISTOR: u32 = 100_000;
/// How far back past its threshold a held band is left.
const BACK: u32 = 1_000;

/// How many rounds to run: `rounds`, times CHEUKDANE_TIMES for longer runs.
pub fn times(rounds: u64) -> u64 {
    let told = std::env::var("CHEUKDANE_TIMES").unwrap_or_else(|_| "1".to_string());
    rounds * told.parse::<u64>().expect("CHEUKDANE_TIMES is a number")
}

/// A plausible log of about `records` records.
pub fn plausible_log(seed: u64, records: usize) -> Vec<u8> {
    spelled(&plausible_events(seed, records))
}

/// The events of [`plausible_log`].
pub fn plausible_events(seed: u64, records: usize) -> Vec<Event> {
    let mut walk = Walk::new(seed);
    while walk.events.len() < records {
        walk.go_on();
    }
    walk.events.truncate(records);
    walk.events
}

/// A log of valid records whose numbers may be anything.
pub fn any_log(seed: u64, records: usize) -> Vec<u8> {
    let mut rng = Rng::new(seed);
    let events: Vec<Event> = (0..records).map(|_| any_event(&mut rng)).collect();
    spelled(&events)
}

/// A plausible log with one to four damages.
pub fn damaged_log(seed: u64, records: usize) -> Vec<u8> {
    let mut log = plausible_log(seed, records);
    let mut rng = Rng::new(!seed);
    for _ in 0..rng.within(1, 4) {
        damage(&mut rng, &mut log);
    }
    log
}

/// Two logs: equal, one the other's start, one damaged, one with its power-ons
/// and observations said otherwise, or parting at some record.
pub fn log_pair(seed: u64, records: usize) -> (Vec<u8>, Vec<u8>) {
    let mut rng = Rng::new(seed ^ 0x5EED_50F2_7065_A175);
    let events = plausible_events(seed, records);
    let whole = spelled(&events);
    let shared = rng.place(events.len() + 1);
    let other = match rng.within(0, 6) {
        0 => whole.clone(),
        1 => spelled(&events[..shared]),
        2 => whole[..rng.place(whole.len() + 1)].to_vec(),
        3 => {
            let mut damaged = whole.clone();
            damage(&mut rng, &mut damaged);
            damaged
        }
        4 => [spelled(&events[..shared]), any_log(rng.bits(), 3)].concat(),
        5 => spelled(&said_otherwise(&mut rng, &events)),
        _ => [whole.clone(), vec![rng.any() as u8; rng.place(6)]].concat(),
    };
    if rng.coin() {
        (whole, other)
    } else {
        (other, whole)
    }
}

/// The events, with power-ons that bring the same profiles and editions, and
/// observations that bring the same values, in place of theirs.
fn said_otherwise(rng: &mut Rng, events: &[Event]) -> Vec<Event> {
    let other = |event: &Event| match (event.powered(), event.observed()) {
        (Some(edition), _) => power_on(rng, edition),
        (_, Some(two)) => observation_of(rng, two),
        _ => *event,
    };
    events.iter().map(other).collect()
}

/// The records of `events`, one after another.
pub fn spelled(events: &[Event]) -> Vec<u8> {
    events.iter().flat_map(record::encode).collect()
}

/// The events of a log, up to its end or the first that can't be read.
pub fn events_of(log: &[u8]) -> Vec<Event> {
    let mut reader = record::Reader::new(log);
    std::iter::from_fn(|| match reader.read() {
        Reading::Record { event, .. } => Some(event),
        Reading::Refused(_) | Reading::End => None,
    })
    .collect()
}
