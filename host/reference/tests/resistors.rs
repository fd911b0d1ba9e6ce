//! A power-on by its resistors, kind 9: the spans of the pin table, that it
//! acts as kind 1 with the codes, its refusals, and what the generators reach
//! of it.

mod lines;
mod numbers;
mod power_on;

use std::collections::BTreeSet;

use reference::generate::{
    any_event, any_resistors, any_state, plausible_events, spoiled_state, times, Rng,
};
use reference::pins::{code_of, matches, RESISTORS};
use reference::{Event, Model, Profile, Refusal, Resistors, Step};

use lines::{each_parts, run_alike};
use numbers::{of_numbers, with, Range};
use power_on::{each_has_its_range, CEILING, OHMS, STAMP, TIME};

const KIND: u8 = 9;

/// The spans of codes 1 to 7, worked out by hand from "within 2%".
const SPANS: [(u32, u32); 7] = [
    (4_548, 4_732),
    (5_920, 6_160),
    (8_085, 8_415),
    (10_290, 10_710),
    (13_426, 13_974),
    (16_562, 17_238),
    (26_852, 27_948),
];
const MOST: u32 = 100_000;

/// Kind 9's numbers, each in its range.
const NUMBERS: [u32; 10] = [6_040, 13_700, 10_500, 0, 0, 4_500, 3_600, 7_200, 36_000, 0];

/// The code in whose span ohms lie, by the list above.
fn listed(ohms: u32) -> u32 {
    let found = (1..).zip(SPANS).find(|(_, (least, most))| (*least..=*most).contains(&ohms));
    found.map_or(0, |(code, _)| code)
}

#[test]
fn the_spans_are_those_of_the_list() {
    for ohms in 0..=MOST {
        assert_eq!(code_of(ohms), listed(ohms), "{ohms}");
    }
    for (code, (least, most)) in (1..).zip(SPANS) {
        assert_eq!([least - 1, least, most, most + 1].map(code_of), [0, code, code, 0]);
        assert_eq!(code_of(RESISTORS[code as usize - 1]), code);
    }
}

#[test]
fn no_two_spans_overlap() {
    for ohms in 0..=MOST {
        let codes = RESISTORS.into_iter().filter(|resistor| matches(ohms, *resistor)).count();
        assert!(codes <= 1, "{ohms}");
    }
}

/// Also where a hundredfold difference is small again in 32 bits.
#[test]
fn ohms_above_the_range_match_none() {
    for resistor in RESISTORS {
        for turn in 1..100u64 {
            let far = (turn << 32).div_ceil(100) as u32;
            assert_eq!([far, far + resistor].map(code_of), [0, 0], "{far}");
        }
    }
    assert_eq!(code_of(u32::MAX), 0);
}

fn pins(resistors: &Resistors) -> [u32; 3] {
    [resistors.cell, resistors.vchg, resistors.ichg]
}

fn in_range(resistors: &Resistors) -> bool {
    pins(resistors).iter().all(|ohms| *ohms <= MOST)
}

/// Kind 1 with the listed codes and the other numbers.
fn by_codes(resistors: &Resistors) -> Event {
    let [cell, vchg, ichg] = pins(resistors).map(listed);
    let Resistors { ohms, stamp, ceiling, trickle, precharge, fast, watchdog, .. } = *resistors;
    Event::PowerOn(Profile {
        cell,
        vchg,
        ichg,
        ohms,
        stamp,
        ceiling,
        trickle,
        precharge,
        fast,
        watchdog,
    })
}

/// What kind 9 owes on a model: "ohms above 100,000 are 5", else what kind 1
/// does.
fn owed(model: &Model, resistors: &Resistors) -> Step {
    if in_range(resistors) {
        return model.step(&by_codes(resistors));
    }
    let refusal = Some(Refusal::OutOfRange);
    Step { refusal, place: 0, model: *model, pulse: false, handed: 0 }
}

#[test]
fn it_acts_as_kind_1_with_the_codes() {
    let mut rng = Rng::new(31);
    for _ in 0..times(20_000) {
        let resistors = any_resistors(&mut rng);
        let (held, spoiled) = (any_state(&mut rng), spoiled_state(&mut rng));
        for model in [Model::Off, Model::On(held), Model::On(spoiled)] {
            let step = model.step(&Event::PowerOnResistors(resistors));
            assert_eq!(step, owed(&model, &resistors), "{resistors:?} on {model:?}");
        }
    }
}

#[test]
fn runs_are_those_of_kind_1() {
    run_alike(|event| match event {
        Event::PowerOnResistors(resistors) if in_range(resistors) => by_codes(resistors),
        _ => *event,
    });
}

/// Logs are compared as they are, though the models are equal.
#[test]
fn power_ons_that_are_said_otherwise_part() {
    let others = with(NUMBERS, 0, NUMBERS[0] + 1);
    let [one, other] = [NUMBERS, others].map(|numbers| of_numbers(KIND, &numbers));
    let by_codes = Event::PowerOn(one.powered().expect("a power-on").profile);
    each_parts(Event::Service, &[one, other, by_codes]);
}

/// A pin's ohms.
const PIN: Range = (&[0, 1, 33_001, MOST], &[MOST + 1, u32::MAX]);

#[test]
fn each_number_has_its_range() {
    let ranges = [PIN, PIN, PIN, OHMS, STAMP, CEILING, TIME, TIME, TIME, TIME];
    each_has_its_range(KIND, NUMBERS, &ranges);
}

/// "any kind but a power-on's, before a power-on" is 6; a refused power-on is
/// none.
#[test]
fn it_is_a_power_on() {
    let mut rng = Rng::new(32);
    let refused = of_numbers(KIND, &with(NUMBERS, 0, MOST + 1));
    let off = Model::Off.step(&refused).model;
    let on = Model::Off.step(&of_numbers(KIND, &NUMBERS)).model;
    for _ in 0..times(20_000) {
        let event = any_event(&mut rng);
        let not_powered = Some(Refusal::NotPowered);
        let powers = matches!(event.kind(), 1 | 9 | 11);
        assert_eq!(off.step(&event).refusal == not_powered, !powers, "{event:?}");
        assert_ne!(on.step(&event).refusal, not_powered);
    }
}

/// Whether a power-on came before, the pin, and its ohms.
type Met = (bool, usize, u32);

/// What is met of kind 9 in a run.
fn met(events: &[Event]) -> Vec<Met> {
    let mut model = Model::Off;
    let mut found = Vec::new();
    for event in events {
        if let Event::PowerOnResistors(resistors) = event {
            let later = model != Model::Off;
            found.extend((0..).zip(pins(resistors)).map(|(pin, ohms)| (later, pin, ohms)));
        }
        model = model.step(event).model;
    }
    found
}

/// At each pin, first and later: the maker's resistors, each end of each span
/// and beside it, the ends of the range and beside it.
#[test]
fn plausible_logs_reach_every_point_of_every_pin() {
    let spans = SPANS.iter().flat_map(|(least, most)| [least - 1, *least, *most, most + 1]);
    let points: Vec<u32> = spans.chain(RESISTORS).chain([0, 1, MOST, MOST + 1, u32::MAX]).collect();
    let places = [false, true].into_iter().flat_map(|later| (0..3).map(move |pin| (later, pin)));
    let wanted: BTreeSet<Met> = places
        .flat_map(|(later, pin)| points.iter().map(move |ohms| (later, pin, *ohms)))
        .collect();
    let reached: BTreeSet<Met> =
        (0..times(20_000)).flat_map(|seed| met(&plausible_events(seed, 24))).collect();
    let missing: Vec<&Met> = wanted.difference(&reached).collect();
    assert!(missing.is_empty(), "{missing:?}");
}
