//! The paper's own rows, and its slips to exclude.

mod example;

use reference::event::{HIZ_PIN, IINDPM};
use reference::number;
use reference::state::phase;
use reference::{
    band, partlog, read_register, record, report, runlog, Band, Event, Model, Profile, Reading,
    Refusal, Refused, Resistors, Sample, Setting, State,
};

use example::PROFILE;

const EXAMPLE: [u8; 28] = [
    0x01, 0x02, 0x05, 0x04, 0x00, 0x00, 0x94, 0x23, 0x90, 0x1C, 0xA0, 0x38, 0xA0, 0x99, 0x02, 0x00,
    0x05, 0xE8, 0x07, 0xE0, 0x5D, 0xB0, 0x3B, 0x00, 0xD8, 0xAD, 0x03, 0x00,
];

fn sample() -> Sample {
    Sample { stamp: 1_000, vin: 12_000, vbat: 7_600, ibat: 0, ts: 55_000, bits: 0 }
}

fn powered(profile: Profile) -> Model {
    run(Model::Off, &[Event::PowerOn(profile)])
}

/// The model after events that are all accepted.
fn run(model: Model, events: &[Event]) -> Model {
    events.iter().fold(model, |model, event| {
        let step = model.step(event);
        assert_eq!(step.refusal, None, "{event:?}");
        step.model
    })
}

fn state(model: &Model) -> &State {
    match model {
        Model::On(state) => state,
        Model::Off => panic!("not powered"),
    }
}

fn write(address: u32, byte: u32) -> Event {
    Event::Write { address, byte }
}

fn set(setting: Setting, value: u32) -> Event {
    Event::Set { number: setting.number(), value }
}

#[test]
fn the_example_log() {
    let wanted = "1 1 0 0 0 0 3300 1 32\n2 5 0 3 1500 8400 3300 1 97\nend 2 0 28\n";
    assert_eq!(runlog(&EXAMPLE), wanted);
    let events = [Event::PowerOn(PROFILE), Event::Observe(sample())];
    assert_eq!(events.iter().flat_map(record::encode).collect::<Vec<u8>>(), EXAMPLE);
}

/// The example's power-on by its resistors.
#[test]
fn the_example_log_by_resistors() {
    let Profile { ohms, stamp, ceiling, trickle, precharge, fast, watchdog, .. } = PROFILE;
    let (cell, vchg, ichg) = (6_040, 13_700, 10_500);
    let resistors =
        Resistors { cell, vchg, ichg, ohms, stamp, ceiling, trickle, precharge, fast, watchdog };
    let record = record::encode(&Event::PowerOnResistors(resistors));
    let wanted = "1 9 0 0 0 0 3300 1 32\n2 5 0 3 1500 8400 3300 1 97\nend 2 0 31\n";
    assert_eq!(runlog(&[&record, &EXAMPLE[16..]].concat()), wanted);
}

#[test]
fn inputs_of_no_byte_and_too_many() {
    assert_eq!(runlog(&[]), "end 0 0 0\n");
    assert_eq!(runlog(&[0; 65_537]), "end 0 13 0\n");
    assert_eq!(runlog(&[0; 65_536]), "end 0 4 0\n");
    assert!(runlog(&[4; 65_536]).ends_with("\nend 65536 0 65536\n"));
}

#[test]
fn ohms_6040_gives_551() {
    let model = powered(Profile { ohms: 6_040, ..PROFILE });
    assert_eq!(report(&model).input_limit, 551);
}

#[test]
fn cold_is_judged_before_cool() {
    let cold = run(
        powered(PROFILE),
        &[write(0x18, 0x93), Event::Observe(Sample { ts: 70_900, ..sample() })],
    );
    assert_eq!(read_register(&cold, 0x18).map(|byte| byte >> 2 & 3), Ok(0));
    assert_eq!(band(&cold), Band::Cold);
    assert_eq!(report(&cold).phase, phase::SUSPENDED);
}

#[test]
fn hot_is_judged_before_warm() {
    let hot = run(
        powered(PROFILE),
        &[write(0x18, 0x35), Event::Observe(Sample { ts: 41_200, ..sample() })],
    );
    assert_eq!(band(&hot), Band::Hot);
}

#[test]
fn five_cells_to_four() {
    let model = powered(Profile { cell: 5, vchg: 3, ..PROFILE });
    let model = run(model, &[write(0x1B, 0x40), write(0x1B, 0x44)]);
    assert_eq!(state(&model).settings[Setting::Vreg], 16_000);
    assert_eq!(state(&model).settings[Setting::Vsysmin], 12_400);
    assert_eq!(read_register(&model, 0x1B), Ok(0x40 | 3 << 3 | 4));
}

#[test]
fn an_override_of_the_same_write_takes_no_count() {
    let model = run(powered(PROFILE), &[write(0x1B, 0x44)]);
    assert_eq!(read_register(&model, 0x1B), Ok(0x40 | 5 << 3 | 2));
}

#[test]
fn trickle_reports_100() {
    let short = Event::Observe(Sample { vbat: 1_000, ..sample() });
    let model = run(powered(PROFILE), &[set(Setting::Ichg, 40), short]);
    assert_eq!((report(&model).phase, report(&model).current), (phase::TRICKLE, 100));
}

#[test]
fn precharge_is_not_scaled_by_the_band() {
    let cool = Event::Observe(Sample { vbat: 5_000, ts: 69_000, ..sample() });
    let model = run(powered(PROFILE), &[cool]);
    assert_eq!(band(&model), Band::Cool);
    assert_eq!((report(&model).phase, report(&model).current), (phase::PRECHARGE, 120));
}

#[test]
fn seven_cells_cut_by_250_gives_650() {
    let warm = Event::Observe(Sample { vbat: 2_000, ts: 44_000, ..sample() });
    let model = powered(Profile { cell: 7, ..PROFILE });
    let model = run(model, &[set(Setting::Vreg, 2_400), write(0x19, 0xB7), warm]);
    assert_eq!(band(&model), Band::Warm);
    assert_eq!(report(&model).voltage, 650);
}

#[test]
fn stamps_wrap() {
    let model = powered(Profile { stamp: u32::MAX, watchdog: 1, ..PROFILE });
    let model = run(model, &[Event::Observe(Sample { stamp: 0, ..sample() })]);
    assert_eq!(state(&model).watchdog, 1);
}

#[test]
fn stamps_may_be_an_hour_ahead() {
    let model = powered(Profile { stamp: 100, ..PROFILE });
    for (ahead, refusal) in [
        (0, None),
        (3_600_000, None),
        (3_600_001, Some(Refusal::StampAhead)),
        (u32::MAX, Some(Refusal::StampAhead)),
    ] {
        let event = Event::Observe(Sample { stamp: 100u32.wrapping_add(ahead), ..sample() });
        let step = model.step_at(&event, 17);
        assert_eq!(step.refusal, refusal);
        assert_eq!(step.place, if refusal.is_some() { 17 } else { 0 });
    }
}

#[test]
fn small_spellings() {
    assert_eq!(number::fold(-1), 1);
    let refused = Refused { code: Refusal::NotShortest, place: 1 };
    assert_eq!(number::parse(&[0x80, 0x00]), Err(refused));
}

/// "the offset of the byte that decided it: the log's end for 1, the last
/// group for 2, the fifth group for 3", in the program's last line and in the
/// two-log answer; "Refusals 4 and 14 keep the record's start, the reader's 5
/// the length's".
#[test]
fn the_byte_that_decided_it() {
    let rows: [(&[u8], u32, usize); 25] = [
        (&[5], 1, 29),
        (&[5, 0xE8, 0x07, 0xE0], 1, 32),
        (&[2, 0x81, 0x80, 0x00, 7], 2, 31),
        (&[2, 9, 0x80, 0x80, 0x80, 0x80, 0x00], 2, 34),
        (&[2, 9, 0x80, 0x80, 0x80, 0x80, 0x10, 7], 3, 34),
        (&[2, 0xFF, 0xFF, 0xFF, 0xFF, 0xFF], 3, 33),
        (&[8, 0x80, 0x00], 2, 30),
        (&[8], 1, 29),
        (&[8, 0x90], 1, 30),
        (&[8, 0x10], 1, 30),
        (&[8, 0x10, 0x00, 7], 5, 30),
        (&[8, 0x10, 0x21, 7], 5, 30),
        (&[8, 0x90, 0x01, 0xA0, 0x01, 7], 5, 31),
        (&[8, 0x10, 0x81, 0x00, 7], 2, 31),
        (&[8, 0x10, 0xFF, 0xFF, 0xFF, 0xFF, 0x10], 3, 34),
        (&[8, 0x10, 0x02, 0x80], 1, 32),
        (&[9, 0x80, 0x00], 2, 30),
        (&[10, 1, 2, 3, 4, 5, 6], 1, 35),
        (&[10, 1, 2, 3, 4, 5, 0x86, 0x00, 7], 2, 35),
        (&[10, 1, 2, 3, 4, 5, 0xFF, 0xFF, 0xFF, 0xFF, 0x10], 3, 38),
        (&[11, 1, 2, 3, 4, 5, 6, 7, 8, 9, 10], 1, 39),
        (&[11, 1, 2, 3, 4, 5, 6, 7, 8, 9, 10, 0x81, 0x00], 2, 40),
        (&[11, 1, 2, 3, 4, 5, 6, 7, 8, 9, 10, 0xFF, 0xFF, 0xFF, 0xFF, 0x10], 3, 43),
        (&[18, 0x80, 0x00], 4, 28),
        (&[14, 0xA0], 1, 30),
    ];
    let longer = [EXAMPLE.as_slice(), &[7; 20]].concat();
    for (end, code, place) in rows {
        let log = [EXAMPLE.as_slice(), end].concat();
        assert!(runlog(&log).ends_with(&format!("\nend 2 {code} {place}\n")), "{end:02X?}");
        let refused = format!("refused {code} 3 {place}\n");
        assert_eq!(partlog(&log, &longer), refused);
        assert_eq!(partlog(&longer, &log), refused);
    }
    let other = [EXAMPLE.as_slice(), &[2, 1, 1]].concat();
    assert_eq!(partlog(&longer, &other), "refused 14 3 28\n");
}

#[test]
fn time_goes_to_the_phase_before_the_sample() {
    let short = Event::Observe(Sample { vbat: 1_000, ..sample() });
    let fast = Event::Observe(Sample { stamp: 2_500, ..sample() });
    let model = run(powered(PROFILE), &[short, fast]);
    assert_eq!(report(&model).phase, phase::FAST);
    assert_eq!(state(&model).cycle.times.trickle, 3_000);
    assert_eq!(state(&model).cycle.times.fast, 0);
}

#[test]
fn regulation_halves_the_rate() {
    let regulated = Event::Observe(Sample { bits: IINDPM, ..sample() });
    let free = Event::Observe(Sample { stamp: 2_500, ..sample() });
    let model = run(powered(PROFILE), &[regulated, free]);
    assert_eq!(state(&model).cycle.times.fast, 1_500);
}

#[test]
fn a_charge_ends_and_restarts() {
    let at = |stamp, vbat, ibat| Event::Observe(Sample { stamp, vbat, ibat, ..sample() });
    let model = run(powered(PROFILE), &[at(1_000, 8_390, 500)]);
    assert_eq!(report(&model).phase, phase::TAPER);
    let model = run(model, &[at(2_000, 8_400, 60)]);
    assert_eq!(report(&model).phase, phase::TAPER);
    let model = run(model, &[at(3_000, 8_400, 59)]);
    assert_eq!(report(&model).phase, phase::DONE);
    let model = run(model, &[at(4_000, 8_148, 0)]);
    assert_eq!(report(&model).phase, phase::DONE);
    let model = run(model, &[at(5_000, 8_147, 0)]);
    assert_eq!(report(&model).phase, phase::FAST);
}

#[test]
fn the_pin_of_high_impedance_counts_only_where_enabled() {
    let high = Event::Observe(Sample { bits: HIZ_PIN, ..sample() });
    let model = run(powered(PROFILE), &[high]);
    assert_eq!(report(&model).phase, phase::IDLE);
    let model = run(model, &[set(Setting::EnExtilim, 0)]);
    assert_eq!(report(&model).phase, phase::FAST);
}

#[test]
fn refusals_in_the_models_order() {
    let refusal = |model: &Model, event| model.step(&event).refusal;
    let on = powered(PROFILE);
    let bad_sample = Sample { stamp: u32::MAX, bits: 64, ..sample() };
    let none = [write(0, 999), set(Setting::Vreg, 0), Event::Observe(bad_sample), Event::TakeFlags];
    for event in none {
        assert_eq!(refusal(&Model::Off, event), Some(Refusal::NotPowered));
    }
    assert_eq!(refusal(&on, write(0x14, 999)), Some(Refusal::UnknownAddress));
    assert_eq!(refusal(&on, write(0x16, 256)), Some(Refusal::OutOfRange));
    assert_eq!(refusal(&on, write(0x16, 0x78)), Some(Refusal::Frequency));
    assert_eq!(refusal(&on, write(0x16, 0xFF)), Some(Refusal::Frequency));
    assert_eq!(
        refusal(&on, Event::Set { number: 15, value: 9_999 }),
        Some(Refusal::UnknownSetting)
    );
    assert_eq!(refusal(&on, set(Setting::Vreg, 2_405)), Some(Refusal::SettingValue));
    assert_eq!(refusal(&on, Event::Observe(bad_sample)), Some(Refusal::OutOfRange));
    for address in [0, 0x1B, 0x27, u32::MAX] {
        assert_eq!(read_register(&Model::Off, address), Err(Refusal::NotPowered));
    }
    assert_eq!(read_register(&on, 0x27), Ok(0xFF));
}

#[test]
fn a_reset_leaves_what_it_should() {
    let model = run(
        powered(PROFILE),
        &[
            write(0x19, 0x00),
            write(0x1B, 0xC0),
            write(0x1B, 0xC3),
            write(0x1C, 0x08),
            set(Setting::Masks, 7),
            Event::Reset,
        ],
    );
    assert_eq!(read_register(&model, 0x19), Ok(0x57));
    assert_eq!(read_register(&model, 0x1B), Ok(5 << 3 | 3));
    assert_eq!(read_register(&model, 0x1C), Ok(4));
    assert_eq!(state(&model).settings[Setting::Vreg], 12_600);
    assert_eq!(state(&model).settings[Setting::Masks], 0);
}

#[test]
fn every_signed_current_reads_back() {
    for ibat in [i32::MIN, -10_001, -1, 0, 1, i32::MAX] {
        let event = Event::Observe(Sample { ibat, ..sample() });
        let bytes = record::encode(&event);
        assert_eq!(record::read(&bytes, 0), Reading::Record { event, next: bytes.len() });
    }
}
