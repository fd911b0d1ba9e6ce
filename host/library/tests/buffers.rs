//! Answer buffers and record buffers of every length. What doesn't fit is 12
//! and changes no byte; bytes after what is written stay.

use library::both;
use library::given;
use library::image::{self, Held, Powered};
use library::layout::{IMAGE, RECORD, REPORT, SHOWN};
use library::tally::Tally;
use reference::generate::{
    any_edition, any_event, any_state, events_of, times, unspelled_run, Rng,
};
use reference::record::encode;
use reference::{Event, Run, Sample, TwoSample};

fn any_image(rng: &mut Rng) -> Vec<u8> {
    let state = any_state(rng);
    image::of(&Held::On(Powered::new(rng.within(0, 7), rng.any(), state)))
}

/// A buffer whose bytes tell their places.
fn buffer(length: usize) -> Vec<u8> {
    (0..length).map(|at| (at * 7 + 1) as u8).collect()
}

#[test]
fn shown_at_every_length() {
    let mut rng = Rng::new(12);
    let mut tally = Tally::default();
    for _ in 0..times(2_000) {
        let bytes = any_image(&mut rng);
        let event = any_event(&mut rng);
        let words = given::words(&event);
        for length in 0..=2 * SHOWN {
            let mut shown = buffer(length);
            let played = both::play(&mut bytes.clone(), &encode(&event), 0, &mut shown);
            tally.count(played.number);
            let kind = event.kind().into();
            let given = both::event(&mut bytes.clone(), kind, &words, &mut buffer(length));
            assert_eq!(given.number, played.number);
            assert_eq!(length < SHOWN, played.number == 12);
            let written = if played.number == 0 { SHOWN } else { 0 };
            assert_eq!(shown[written..], buffer(length)[written..]);
        }
    }
    tally.met_exactly([0, 5, 7, 8, 9, 10, 11, 12, 15]);
}

#[test]
fn reports_at_every_length() {
    let mut rng = Rng::new(13);
    let mut tally = Tally::default();
    for _ in 0..times(1_000) {
        let bytes = any_image(&mut rng);
        for length in 0..=2 * REPORT {
            tally.count(both::report(&bytes, &mut buffer(length)).number);
            tally.count(both::report(&[0; IMAGE], &mut buffer(length)).number);
        }
    }
    tally.met_exactly([0, 6, 12]);
}

/// Longer than 16 bits can count.
#[test]
fn long_buffers() {
    let mut rng = Rng::new(22);
    let bytes = any_image(&mut rng);
    let length = 1 << 16;
    assert_eq!(both::play(&mut bytes.clone(), &[4], 0, &mut buffer(length)).number, 0);
    assert_eq!(both::event(&mut bytes.clone(), 4, &[], &mut buffer(length)).number, 0);
    assert_eq!(both::report(&bytes, &mut buffer(length)).number, 0);
    assert_eq!(both::write(4, &[], &mut buffer(length)).number, 0);
}

/// "5 before all else; then an answer buffer that is too short is 12; then
/// what the call is about is judged."
#[test]
fn a_short_buffer_comes_after_the_image_and_before_all_else() {
    let mut tally = Tally::default();
    let logs: [&[u8]; 10] = [
        &[],
        &[8, 5, 0],
        &[9],
        &[10],
        &[11],
        &[18],
        &[2],
        &[2, 0x80, 0],
        &[4],
        &[2, 0xFF, 0xFF, 0xFF, 0xFF, 0xFF],
    ];
    for length in 0..SHOWN {
        for log in logs {
            tally.count(both::play(&mut [0; IMAGE], log, 0, &mut buffer(length)).number);
            assert_eq!(both::play(&mut [2; IMAGE], log, 0, &mut buffer(length)).number, 5);
        }
        for kind in [0, 1, 4, 8, 9, 10, 11, 14, 18, 256] {
            tally.count(both::event(&mut [0; IMAGE], kind, &[], &mut buffer(length)).number);
            assert_eq!(both::event(&mut [2; IMAGE], kind, &[], &mut buffer(length)).number, 5);
        }
    }
    tally.met_exactly([12]);
    for length in 0..=REPORT {
        assert_eq!(both::report(&[2; IMAGE], &mut buffer(length)).number, 5);
    }
}

fn write_at_every_length(event: &Event, tally: &mut Tally) {
    let words = given::words(event);
    let record = encode(event);
    for length in 0..=RECORD + 5 {
        let mut out = buffer(length);
        let written = both::write(event.kind().into(), &words, &mut out);
        tally.count(written.number);
        if written.number == 0 {
            assert!(out.starts_with(&record));
            assert_eq!(written.count as usize, record.len());
        }
    }
}

#[test]
fn records_at_every_length() {
    let mut rng = Rng::new(14);
    let mut tally = Tally::default();
    for _ in 0..times(8_000) {
        write_at_every_length(&any_event(&mut rng), &mut tally);
    }
    tally.met_exactly([0, 12]);
}

/// "has no record: 5, before 12", and no byte is written.
#[test]
fn runs_without_a_record_at_every_length() {
    let mut rng = Rng::new(71);
    for _ in 0..times(2_000) {
        let words = given::words(&Event::WriteRun(unspelled_run(&mut rng)));
        for length in 0..=RECORD + 5 {
            let mut out = buffer(length);
            let written = both::write(8, &words, &mut out);
            assert_eq!((written.number, written.count, out), (5, 0, buffer(length)));
        }
    }
}

/// Numbers at every border of their spellings' lengths, one after another.
#[test]
fn records_of_every_width() {
    let mut tally = Tally::default();
    for shift in 0..32usize {
        for value in [(1u32 << shift) - 1, 1 << shift, (1 << shift) + 1, u32::MAX] {
            write_at_every_length(&Event::Set { number: value, value: 0 }, &mut tally);
            write_at_every_length(&Event::Write { address: 0, byte: value }, &mut tally);
            write_at_every_length(&Event::ReadFlags { address: value }, &mut tally);
            let run = Run::new(value, &[0xFF; 32][..=shift]);
            write_at_every_length(&Event::WriteRun(run), &mut tally);
            let ibat = reference::number::unfold(value);
            let sample = Sample { stamp: value, vin: 0, vbat: value, ibat, ts: 0, bits: value };
            write_at_every_length(&Event::Observe(sample), &mut tally);
            let two = TwoSample { sample, second: value };
            write_at_every_length(&Event::ObserveTwo(two), &mut tally);
            let mut edition = any_edition(&mut Rng::new(shift as u64));
            edition.edition = value;
            write_at_every_length(&Event::PowerOnEdition(edition), &mut tally);
        }
    }
    tally.met_exactly([0, 12]);
}

#[test]
fn the_longest_records() {
    for (kind, count) in [(1, 10), (9, 10), (11, 11)] {
        let spelled = [vec![kind], [0xFF, 0xFF, 0xFF, 0xFF, 0x0F].repeat(count)].concat();
        let longest = events_of(&spelled).remove(0);
        assert_eq!(encode(&longest).len(), 1 + 5 * count);
        assert_eq!(encode(&longest).len() == RECORD, kind == 11);
        write_at_every_length(&longest, &mut Tally::default());
    }
}

/// A log written event by event, each lent the part that is left, is the
/// events' log.
#[test]
fn a_log_written_into_what_is_left() {
    let mut rng = Rng::new(15);
    for seed in 0..times(2_000) {
        let events = reference::generate::plausible_events(seed, 20);
        let mut log = vec![0xEE; 400 + rng.place(100)];
        let mut place = 0;
        let mut whole = Vec::new();
        for event in &events {
            let words = given::words(event);
            let written = both::write(event.kind().into(), &words, &mut log[place..]);
            if written.number == 12 {
                break;
            }
            place += written.count as usize;
            whole.extend(encode(event));
        }
        assert_eq!(log[..place], whole);
        assert!(log[place..].iter().all(|byte| *byte == 0xEE));
    }
}
