//! The header's names for the paper's numbers are the reference's numbers, and
//! there are no others: a name that is missing, added or misnumbered fails.

use reference::generate::events_of;
use reference::map::FIELDS;
use reference::pins::code_of;
use reference::state::phase;
use reference::{edges, event, Band, Event, Refusal, Run, Sample, Setting, TsBand};

const HEADER: &str = include_str!("../../../include/cheukdane.h");

/// The registers of more than one field, by the data sheet's list.
const SHEETS: [&str; 21] = [
    "PRECHARGE_AND_TERMINATION_CONTROL",
    "TIMER_CONTROL",
    "CHARGER_CONTROL_1",
    "CHARGER_CONTROL_2",
    "CHARGER_CONTROL_3",
    "CHARGER_CONTROL_4",
    "CONVERTER_CONTROL_1",
    "MPPT_CONTROL",
    "TS_CHARGING_THRESHOLD_CONTROL",
    "TS_CHARGING_BEHAVIOR_CONTROL",
    "TS_REVERSE_MODE_THRESHOLD_CONTROL",
    "PIN_DETECTION_STATUS_1",
    "PIN_DETECTION_STATUS_2",
    "CHARGER_STATUS_1",
    "CHARGER_STATUS_2",
    "FAULT_STATUS",
    "CHARGER_FLAG",
    "FAULT_FLAG",
    "CHARGER_MASK",
    "FAULT_MASK",
    "PART_INFORMATION",
];

/// The header's enumerators whose names start with `CHEUKDANE_` and `start`.
fn named(start: &str) -> Vec<(String, u32)> {
    let named = HEADER.lines().filter_map(|line| {
        let rest = line.trim().strip_prefix("CHEUKDANE_")?.strip_prefix(start)?;
        let (name, value) = rest.split_once(" = ")?;
        let (digits, radix) = value.strip_prefix("0x").map_or((value, 10), |hex| (hex, 16));
        let end = digits.find(|digit: char| !digit.is_digit(radix)).unwrap_or(digits.len());
        let number = u32::from_str_radix(&digits[..end], radix).expect("a number");
        Some((name.to_string(), number))
    });
    named.collect()
}

/// EndsInside -> ENDS_INSIDE.
fn upper(name: &str) -> String {
    let mut upper = String::new();
    for letter in name.chars() {
        if letter.is_ascii_uppercase() && !upper.is_empty() {
            upper.push('_');
        }
        upper.push(letter.to_ascii_uppercase());
    }
    upper
}

fn are(start: &str, wanted: &[(&str, u32)]) {
    let wanted: Vec<(String, u32)> =
        wanted.iter().map(|(name, n)| (name.to_string(), *n)).collect();
    assert_eq!(named(start), wanted, "CHEUKDANE_{start}..");
}

#[test]
fn refusals() {
    let wanted = [
        ("ENDS_INSIDE", Refusal::EndsInside),
        ("ZERO_GROUP", Refusal::NotShortest),
        ("TOO_LARGE", Refusal::TooLarge),
        ("UNKNOWN_KIND", Refusal::UnknownKind),
        ("OUT_OF_RANGE", Refusal::OutOfRange),
        ("NOT_POWERED", Refusal::NotPowered),
        ("STAMP_AHEAD", Refusal::StampAhead),
        ("UNKNOWN_SETTING", Refusal::UnknownSetting),
        ("BAD_VALUE", Refusal::SettingValue),
        ("UNKNOWN_ADDRESS", Refusal::UnknownAddress),
        ("BAD_FREQUENCY", Refusal::Frequency),
        ("NO_ROOM", Refusal::NoRoom),
        ("INPUT_TOO_LONG", Refusal::InputTooLong),
        ("LOGS_PART", Refusal::LogsPart),
        ("HALF_REGISTER", Refusal::HalfRegister),
    ];
    are("REFUSED_", &wanted.map(|(name, refusal)| (name, refusal.number())));
    are("ACCEPTED", &[("", 0)]);
}

#[test]
fn kinds() {
    let power_on = |kind| events_of(&[[kind].as_slice(), &[0; 11]].concat()).remove(0);
    let wanted = [
        ("POWER_ON", power_on(1)),
        ("SET", Event::Set { number: 1, value: 2_400 }),
        ("WRITE", Event::Write { address: 0x15, byte: 0 }),
        ("TAKE_FLAGS", Event::TakeFlags),
        ("OBSERVE", Event::Observe(Sample::at_power_on(0))),
        ("SERVICE", Event::Service),
        ("RESET", Event::Reset),
        ("WRITE_RUN", Event::WriteRun(Run::new(0x15, &[0]))),
        ("POWER_ON_RESISTORS", power_on(9)),
        ("OBSERVE_TWO", Event::ObserveTwo(Sample::at_power_on(0).of_two())),
        ("POWER_ON_EDITION", power_on(11)),
        ("READ_FLAGS", Event::ReadFlags { address: 0x20 }),
    ];
    are("KIND_", &wanted.map(|(name, event)| (name, event.kind().into())));
}

#[test]
fn settings() {
    let wanted: Vec<(String, u32)> =
        Setting::ALL.iter().map(|one| (upper(&format!("{one:?}")), one.number())).collect();
    assert_eq!(named("SETTING_"), wanted);
}

/// Every address at which fields begin. The registers' own names are those of
/// the data sheet's list; one of a single field has the field's.
#[test]
fn registers() {
    let mut wanted: Vec<(&str, u32)> = FIELDS
        .chunk_by(|one, other| one.address == other.address)
        .map(|fields| (if fields.len() == 1 { fields[0].name } else { "" }, fields[0].address))
        .collect();
    for ((name, _), sheets) in wanted.iter_mut().filter(|row| row.0.is_empty()).zip(SHEETS) {
        *name = sheets;
    }
    assert_eq!(wanted.len(), 31);
    are("REGISTER_", &wanted);
}

#[test]
fn phases_bands_and_stat() {
    let phases = [
        ("IDLE", phase::IDLE),
        ("TRICKLE", phase::TRICKLE),
        ("PRECHARGE", phase::PRECHARGE),
        ("FAST", phase::FAST),
        ("TAPER", phase::TAPER),
        ("DONE", phase::DONE),
        ("SUSPENDED", phase::SUSPENDED),
        ("FAULT", phase::FAULT),
    ];
    are("PHASE_", &phases);
    let bands = [
        ("NORMAL", Band::Normal),
        ("COLD", Band::Cold),
        ("HOT", Band::Hot),
        ("COOL", Band::Cool),
        ("WARM", Band::Warm),
        ("MIXED", Band::Mixed),
    ];
    are("BAND_", &bands.map(|(name, band)| (name, band.number())));
    for (band, (_, both)) in TsBand::ALL.into_iter().zip(bands) {
        assert_eq!((band.of_both(), band.number()), (both, both.number()), "one thermistor's");
    }
    are("STAT_", &[("LOW", 0), ("BLINKING", 1), ("HIGH", 2)]);
}

#[test]
fn flags_and_sample_bits() {
    let flags = [
        ("INPUT_GOOD", edges::INPUT_GOOD),
        ("INPUT_LOST", edges::INPUT_LOST),
        ("IINDPM", edges::IINDPM_BEGINS),
        ("VINDPM", edges::VINDPM_BEGINS),
        ("THERMAL_REGULATION", edges::THERMAL_BEGINS),
        ("WATCHDOG", edges::WATCHDOG_EXPIRED),
        ("PHASE", edges::PHASE_CHANGED),
        ("BAND", edges::BAND_CHANGED),
        ("VIN_OVER", edges::VIN_OVER),
        ("THERMAL_SHUTDOWN", edges::SHUTDOWN_BEGINS),
        ("BATTERY_OVER", edges::BATTERY_OVER),
        ("LIMIT", edges::LIMIT_REACHED),
    ];
    are("FLAG_", &flags);
    let bits = [
        ("CE_HIGH", event::CE_HIGH),
        ("ILIM_HIZ_HIGH", event::HIZ_PIN),
        ("IINDPM", event::IINDPM),
        ("VINDPM", event::VINDPM),
        ("THERMAL_REGULATION", event::THERMAL),
        ("THERMAL_SHUTDOWN", event::SHUTDOWN),
    ];
    are("BIT_", &bits);
}

/// The words of what is shown and of a report, in the order that the header
/// says in words above each.
#[test]
fn words_of_answers() {
    let both = ["PHASE", "CURRENT", "VOLTAGE", "LIMIT"];
    let shown = ["PULSE", "FLAGS", "HANDED"];
    let report = ["FLAGS", "STAT"];
    are("SHOWN_", &both.into_iter().chain(shown).zip(0..).collect::<Vec<_>>());
    are("REPORT_", &both.into_iter().chain(report).zip(0..).collect::<Vec<_>>());
}

/// The spans of a pin's resistor that the header lists, as `CODE LEAST-MOST`.
fn listed_spans() -> Vec<(u32, u32, u32)> {
    let start = HEADER.find("/* Kinds of events.").expect("the kinds' comment");
    let comment = HEADER[start..].split("*/").next().expect("its text");
    let rows = comment.lines().filter_map(|line| line.strip_prefix(" *     "));
    let text: String = rows.collect::<Vec<_>>().join(" ").replace(',', "").replace('-', " ");
    let numbers: Vec<u32> =
        text.split_whitespace().map(|word| word.parse().expect("a number")).collect();
    numbers.chunks(3).map(|row| (row[0], row[1], row[2])).collect()
}

#[test]
fn spans_of_resistors() {
    let span = |code| {
        let mut ohms = (0..=100_000).filter(|ohms| code_of(*ohms) == code);
        let least = ohms.next().expect("a span");
        (code, least, ohms.next_back().expect("more than an ohm"))
    };
    assert_eq!(listed_spans(), (1..=7).map(span).collect::<Vec<_>>());
}
