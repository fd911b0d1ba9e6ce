//! Logs, whole and damaged, played record by record: answers, images, reports
//! and registers after every record.

use library::answers::Played;
use library::both;
use library::image::{self, Held, Powered};
use library::layout::{IMAGE, REPORT, SHOWN};
use library::tally::Tally;
use reference::generate::{
    any_event, any_log, any_state, damaged_log, plausible_log, spoiled_state, times, Rng,
};
use reference::record::{self, Reading};
use reference::Event;

/// A head that plays a log, and the reference's own run beside it.
struct Head {
    image: Vec<u8>,
    shown: [u8; SHOWN],
    place: usize,
    held: Held,
}

impl Head {
    fn off() -> Head {
        let mut image = vec![0xEE; IMAGE];
        both::off(&mut image);
        Head { image, shown: [0xEE; SHOWN], place: 0, held: Held::Off }
    }

    /// Plays one record; gives whether one was read.
    fn play(&mut self, log: &[u8], tally: &mut Tally) -> bool {
        let played = both::play(&mut self.image, log, self.place, &mut self.shown);
        tally.count(played.number);
        self.follow(log);
        assert_eq!(image::read(&self.image), Some(self.held));
        self.look();
        self.place = played.next as usize;
        played.kind != 0
    }

    /// The reference's run takes the same record; it never reads an image.
    fn follow(&mut self, log: &[u8]) {
        if let Reading::Record { event, .. } = record::read(log, self.place) {
            let step = self.held.model().step_at(&event, self.place);
            if step.refusal.is_none() {
                self.held = self.held.after(&event, &step.model);
            }
        }
    }

    /// What can be read of the model: of the registers, each fourth.
    fn look(&self) {
        both::report(&self.image, &mut [0; REPORT]);
        for address in (self.place as u32 % 4..=0x28).step_by(4) {
            both::register(&self.image, address);
        }
    }
}

fn play_all(logs: impl Iterator<Item = Vec<u8>>) -> Tally {
    let mut tally = Tally::default();
    for log in logs {
        let mut head = Head::off();
        while head.play(&log, &mut tally) {}
    }
    tally
}

#[test]
fn plausible_logs() {
    let logs = (0..times(50_000)).map(|seed| plausible_log(seed, 24));
    play_all(logs).met_exactly([0, 5, 6, 7, 8, 9, 10, 11, 15]);
}

#[test]
fn long_logs() {
    let logs = (0..times(300)).map(|seed| plausible_log(!seed, 2_000));
    play_all(logs).met_exactly([0, 5, 6, 7, 8, 9, 10, 11, 15]);
}

#[test]
fn damaged_logs() {
    let logs = (0..times(60_000)).map(|seed| damaged_log(seed + 1_000_000, 20));
    play_all(logs).met_exactly((0..=11).chain([15]));
}

#[test]
fn logs_of_any_numbers() {
    let logs = (0..times(40_000)).map(|seed| any_log(seed, 12));
    play_all(logs).met_exactly([0, 5, 6, 7, 8, 9, 10, 11, 15]);
}

/// Plays one record somewhere in a log on the image of a model from outside.
fn play_one(rng: &mut Rng, powered: Powered, event: &Event, tally: &mut Tally) {
    let place = rng.place(4);
    let log = [vec![0xFF; place], record::encode(event), vec![0xFF; rng.place(3)]].concat();
    let mut bytes = image::of(&Held::On(powered));
    let played = both::play(&mut bytes, &log, place, &mut [0xEE; SHOWN]);
    tally.count(played.number);
}

fn any_powered(rng: &mut Rng) -> Powered {
    let state = any_state(rng);
    Powered::new(rng.within(0, 7), rng.any(), state)
}

/// A sample at a gap of time that passes or just doesn't.
fn sample_after(rng: &mut Rng, powered: &Powered) -> Event {
    let ahead = rng.pick(&[0, 1, 1_000, 3_599_999, 3_600_000, 3_600_001]);
    let mut two = any_state(rng).observed();
    two.sample.stamp = powered.state.sample.stamp.wrapping_add(ahead);
    rng.pick(&[Event::Observe(two.sample), Event::ObserveTwo(two)])
}

#[test]
fn single_records_on_any_model() {
    let mut rng = Rng::new(4);
    let mut tally = Tally::default();
    for _ in 0..times(150_000) {
        let powered = any_powered(&mut rng);
        let event = any_event(&mut rng);
        play_one(&mut rng, powered, &event, &mut tally);
        let event = sample_after(&mut rng, &powered);
        play_one(&mut rng, powered, &event, &mut tally);
    }
    tally.met_exactly([0, 5, 7, 8, 9, 10, 11, 15]);
}

#[test]
fn single_records_on_models_that_do_not_pass() {
    let mut rng = Rng::new(5);
    let mut tally = Tally::default();
    for _ in 0..times(60_000) {
        let event = any_event(&mut rng);
        let powered = Powered::new(0, 0, spoiled_state(&mut rng));
        play_one(&mut rng, powered, &event, &mut tally);
    }
    tally.met_exactly([5]);
}

/// An unreadable record is no event: 1 to 5 and kind 0 come before a model's
/// own 5, which has the record's kind.
#[test]
fn unreadable_records_on_models_that_do_not_pass() {
    let mut rng = Rng::new(6);
    let mut tally = Tally::default();
    let unreadable: [&[u8]; 11] = [
        &[2],
        &[2, 0x80, 0x00],
        &[2, 0x80, 0x80, 0x80, 0x80, 0x10],
        &[9, 0x80, 0x00],
        &[8],
        &[8, 0x10, 0x00, 1],
        &[8, 0x10, 0x21, 1],
        &[10, 1, 1, 1, 1, 1, 1],
        &[11, 1, 1, 1, 1, 1, 1, 1, 1, 1, 1],
        &[18],
        &[0],
    ];
    for _ in 0..times(10_000) {
        let state = reference::State { ohms: 33_001, ..any_state(&mut rng) };
        let mut bytes = image::of(&Held::On(Powered::new(1, 0, state)));
        let log = rng.pick(&unreadable);
        let played = both::play(&mut bytes, log, 0, &mut [0xEE; SHOWN]);
        assert_eq!(played.kind, 0);
        tally.count(played.number);
    }
    tally.met_exactly(1..=5);
}

/// Records that start at any byte of a log, be it inside another record.
#[test]
fn every_place_of_a_log() {
    let mut tally = Tally::default();
    for seed in 0..times(300) {
        let log = damaged_log(seed, 20);
        let mut rng = Rng::new(seed);
        for place in 0..=log.len() {
            let mut bytes = image::of(&Held::On(any_powered(&mut rng)));
            tally.count(both::play(&mut bytes, &log, place, &mut [0xEE; SHOWN]).number);
        }
    }
    tally.met_exactly([0, 1, 2, 3, 4, 5, 7, 8, 9, 10, 11, 15]);
}

/// "the bytes up to and including that one decide, for 5 those up to the
/// length's last: every log that starts with them is refused with the same
/// number and place, and a log that ends before the place's byte isn't refused
/// with that number". The reader's 5 "has a place above the given one".
fn check_decided(log: &[u8], place: usize, refused: Played) {
    let play = |log: &[u8]| both::play(&mut [0; IMAGE], log, place, &mut [0xEE; SHOWN]);
    assert_eq!((refused.kind, refused.next), (0, place as u64), "{place} of {log:02X?}");
    let decided = refused.place as usize;
    if refused.number == 1 {
        assert_eq!(decided, log.len(), "{place} of {log:02X?}");
        return;
    }
    let mut last = decided;
    if refused.number == 5 {
        assert!(decided > place, "{place} of {log:02X?}");
        last += log[decided..].iter().take_while(|byte| **byte >= 0x80).count();
    }
    for tail in [&[][..], &[0], &[1; 50], &[0x80], &[0xFF; 6]] {
        let other = [&log[..=last], tail].concat();
        assert_eq!(play(&other), refused, "{place} of {other:02X?}");
    }
    assert_ne!(play(&log[..decided]).number, refused.number, "{place} of {log:02X?}");
}

#[test]
fn the_byte_that_decided_it() {
    let mut tally = Tally::default();
    for seed in 0..times(1_000) {
        let log = damaged_log(seed + 6_000_000, 12);
        for place in 0..log.len() {
            let played = both::play(&mut [0; IMAGE], &log, place, &mut [0xEE; SHOWN]);
            if played.kind == 0 {
                check_decided(&log, place, played);
                tally.count(played.number);
            }
        }
    }
    tally.met_exactly(1..=5);
}

/// At the log's end and past it there is no record, and no byte changes.
#[test]
fn the_end_and_past_it() {
    let log = plausible_log(1, 10);
    let mut image = vec![0; IMAGE];
    let far = [1 << 16, 1 << 32, usize::MAX - 1, usize::MAX];
    for place in (log.len()..log.len() + 20).chain(far) {
        let played = both::play(&mut image, &log, place, &mut [0xEE; SHOWN]);
        assert_eq!((played.number, played.kind, played.next), (0, 0, place as u64));
        both::play(&mut image, &[], place, &mut [0xEE; SHOWN]);
    }
}
