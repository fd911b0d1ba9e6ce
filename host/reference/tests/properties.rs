//! What holds over generated logs and models, and what the generators reach.

use std::collections::BTreeSet;

use reference::generate::{
    any_event, any_log, any_state, damaged_log, events_of, log_pair, plausible_events,
    plausible_log, spoiled_state, times, Rng,
};
use reference::map;
use reference::{
    band, may_hold, read_register, record, report, runlog, stat, statelog, Event, Model, Reader,
    Reading, Refusal, State, Step,
};

const SEEDS: u64 = 300;
const RECORDS: usize = 120;

/// What a step owes whatever the event and the model.
fn check(before: &Model, event: &Event) -> Step {
    let step = before.step(event);
    if step.refusal.is_some() {
        assert_eq!(step.model, *before, "a refusal returns the old state");
        assert!(!step.pulse, "refused records pulse 0");
        assert_eq!(step.handed, 0);
    } else {
        assert!(may_hold(&step.model), "{event:?} on {before:?}");
    }
    assert_eq!(step, before.step(event), "equal inputs allow one outcome");
    step
}

/// "Settling with neither a new event nor time changes nothing."
fn check_settled(state: &State) {
    let step = Model::On(*state).step(&Event::TakeFlags);
    assert_eq!(step.model, Model::On(State { flags: 0, ..*state }));
    assert_eq!((step.handed, step.pulse), (state.flags, false));
    let Model::On(settled) = step.model else { unreachable!("it is powered") };
    let again = Model::On(*state).step(&Event::ObserveTwo(state.observed()));
    assert_eq!(again.refusal, None);
    if again.model != Model::On(*state) {
        // Only a charge that ends moves on an equal sample.
        assert_eq!((state.phase, report(&again.model).phase), (4, 5), "{settled:?}");
    }
}

#[test]
fn runs_stay_within_what_a_model_may_hold() {
    for seed in 0..times(SEEDS) {
        let mut model = Model::Off;
        for event in plausible_events(seed, RECORDS) {
            model = check(&model, &event).model;
            if let Model::On(state) = &model {
                check_settled(state);
            }
        }
    }
}

#[test]
fn an_accepted_event_on_any_model_that_passes_makes_one_that_passes() {
    let mut rng = Rng::new(1);
    for _ in 0..times(40_000) {
        let state = any_state(&mut rng);
        let model = Model::On(state);
        assert!(may_hold(&model), "{state:?}");
        check(&model, &any_event(&mut rng));
        let mut two = any_state(&mut rng).observed();
        let ahead = rng.pick(&[0, 1, 1_000, 3_599_999, 3_600_000, 3_600_001]);
        two.sample.stamp = state.sample.stamp.wrapping_add(ahead);
        check(&model, &Event::Observe(two.sample));
        check(&model, &Event::ObserveTwo(two));
    }
}

#[test]
fn an_event_on_a_model_that_does_not_pass_is_5() {
    let mut rng = Rng::new(2);
    for _ in 0..times(20_000) {
        let model = Model::On(spoiled_state(&mut rng));
        assert!(!may_hold(&model), "{model:?}");
        let step = check(&model, &any_event(&mut rng));
        assert_eq!(step.refusal, Some(Refusal::OutOfRange));
        show(&model);
    }
}

/// Reads, report and STAT answer on any model.
fn show(model: &Model) {
    let _ = (report(model), stat(model), band(model));
    for address in 0..=map::LAST + 1 {
        assert!(read_register(model, address).is_ok());
    }
}

#[test]
fn records_read_back() {
    let mut rng = Rng::new(3);
    for _ in 0..times(20_000) {
        let event = any_event(&mut rng);
        let bytes = record::encode(&event);
        assert_eq!(record::read(&bytes, 0), Reading::Record { event, next: bytes.len() });
        for short in 1..bytes.len() {
            let Reading::Refused(refused) = record::read(&bytes[..short], 0) else {
                panic!("{event:?} cut to {short}");
            };
            assert_eq!((refused.code, refused.place), (Refusal::EndsInside, short));
        }
        let mut room = vec![0xA5; bytes.len() + 2];
        assert_eq!(record::write(&mut room, &event), Ok(bytes.len()));
        assert_eq!(room, [bytes, vec![0xA5; 2]].concat());
    }
}

#[test]
fn what_is_read_from_any_bytes_is_written_the_same() {
    for seed in 0..times(SEEDS) {
        let log = damaged_log(seed, RECORDS);
        let read: Vec<u8> = events_of(&log).iter().flat_map(record::encode).collect();
        assert!(log.starts_with(&read));
    }
}

#[test]
fn equal_seeds_make_equal_bytes() {
    for seed in 0..20 {
        assert_eq!(plausible_log(seed, RECORDS), plausible_log(seed, RECORDS));
        assert_eq!(damaged_log(seed, RECORDS), damaged_log(seed, RECORDS));
        assert_eq!(any_log(seed, RECORDS), any_log(seed, RECORDS));
        assert_eq!(log_pair(seed, RECORDS), log_pair(seed, RECORDS));
        assert_ne!(plausible_log(seed, RECORDS), plausible_log(seed + 1, RECORDS));
        assert_eq!(events_of(&plausible_log(seed, RECORDS)).len(), RECORDS);
    }
}

/// What a set of runs has shown.
#[derive(Default)]
struct Seen {
    phases: BTreeSet<u32>,
    moves: BTreeSet<(u32, u32)>,
    bands: BTreeSet<&'static str>,
    stats: BTreeSet<&'static str>,
    kinds: BTreeSet<(u8, bool)>,
    refusals: BTreeSet<u32>,
    flags: u32,
    wrapped: bool,
}

impl Seen {
    fn run(&mut self, log: &[u8]) {
        let mut model = Model::Off;
        for event in events_of(log) {
            let step = model.step(&event);
            self.step(&model, &event, &step);
            model = step.model;
        }
    }

    fn step(&mut self, before: &Model, event: &Event, step: &Step) {
        self.refusals.insert(step.code());
        self.kinds.insert((event.kind(), step.pulse));
        self.bands.insert(band(&step.model).name());
        self.stats.insert(stat(&step.model).name());
        self.phases.insert(report(&step.model).phase);
        self.moves.insert((report(before).phase, report(&step.model).phase));
        if let (Model::On(old), Model::On(new)) = (before, &step.model) {
            let powered = event.powered().is_some();
            self.flags |= if powered { 0 } else { new.flags & !old.flags };
            self.wrapped |= !powered && new.sample.stamp < old.sample.stamp;
        }
    }
}

#[test]
fn plausible_logs_reach_every_part_of_the_model() {
    let mut seen = Seen::default();
    for seed in 0..times(SEEDS) {
        seen.run(&plausible_log(seed, RECORDS));
    }
    assert_eq!(seen.phases.len(), 8);
    assert_eq!(seen.bands.len(), 6);
    assert_eq!(seen.stats.len(), 3);
    assert_eq!(seen.flags, 4_095);
    assert!(seen.wrapped);
    assert_eq!(seen.refusals, BTreeSet::from([0, 5, 6, 7, 8, 9, 10, 11, 15]));
    let possible = BTreeSet::from([
        (1, true),
        (1, false),
        (2, true),
        (2, false),
        (3, true),
        (3, false),
        (4, false),
        (5, true),
        (5, false),
        (6, false),
        (7, true),
        (7, false),
        (8, true),
        (8, false),
        (9, true),
        (9, false),
        (10, true),
        (10, false),
        (11, true),
        (11, false),
        (14, false),
    ]);
    assert_eq!(seen.kinds, possible);
    let charge = [(0, 1), (1, 2), (2, 3), (3, 4), (4, 5), (5, 3), (4, 6), (6, 5), (3, 7), (7, 0)];
    for step in charge {
        assert!(seen.moves.contains(&step), "{step:?} isn't reached");
    }
}

/// The last line's code and offset, by a reader of its own: the log's end, or
/// a refusal and its place.
fn ending(log: &[u8]) -> (u32, usize) {
    let mut reader = Reader::new(log);
    loop {
        match reader.read() {
            Reading::Record { .. } => {}
            Reading::Refused(refused) => return (refused.code.number(), refused.place),
            Reading::End => return (0, log.len()),
        }
    }
}

#[test]
fn damaged_logs_reach_every_refusal_of_the_reader() {
    let mut codes = BTreeSet::new();
    for seed in 0..times(SEEDS) {
        let log = damaged_log(seed, RECORDS);
        let printed = runlog(&log);
        let last = printed.lines().last().expect("a last line");
        let words: Vec<&str> = last.split(' ').collect();
        assert_eq!((words[0], words.len()), ("end", 4));
        let records: usize = words[1].parse().expect("a count");
        assert_eq!(printed.lines().count(), records + 1);
        let (code, offset) = ending(&log);
        assert_eq!(words[2..], [code.to_string(), offset.to_string()]);
        codes.insert(words[2].to_string());
        assert!(statelog(&log, 0..=map::LAST).lines().count() <= records);
    }
    assert_eq!(codes.into_iter().collect::<String>(), "012345");
}

#[test]
fn any_logs_run() {
    for seed in 0..times(SEEDS) {
        let log = any_log(seed, RECORDS);
        assert!(runlog(&log).ends_with(&format!("end {RECORDS} 0 {}\n", log.len())));
    }
}
