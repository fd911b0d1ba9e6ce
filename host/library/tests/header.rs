//! The constants used here are the header's.

use library::{calls, layout};

const HEADER: &str = include_str!("../../../include/cheukdane.h");

/// The number that the header defines for a name.
fn defined(name: &str) -> usize {
    let values = HEADER.lines().filter_map(|line| {
        let mut words = line.split_whitespace();
        let found = words.next() == Some("#define") && words.next() == Some(name);
        found.then(|| words.next().expect("a value"))
    });
    let values: Vec<&str> = values.collect();
    assert_eq!(values.len(), 1, "{name}");
    values[0].parse().expect("a number")
}

#[test]
fn constants_are_the_headers() {
    let constants = [
        ("RULES", layout::RULES as usize),
        ("FORMAT", layout::FORMAT as usize),
        ("IMAGE", layout::IMAGE),
        ("PROFILE", layout::PROFILE),
        ("SETTINGS", layout::SETTINGS),
        ("REGISTERS", layout::REGISTERS),
        ("LATCHES", layout::LATCHES),
        ("CYCLE", layout::CYCLE),
        ("WATCHDOG", layout::WATCHDOG),
        ("SAMPLE", layout::SAMPLE),
        ("PHASE", layout::PHASE),
        ("BANDS", layout::BANDS),
        ("FLAGS", layout::FLAGS),
        ("SHOWN", layout::SHOWN),
        ("REPORT", layout::REPORT),
        ("RECORD", layout::RECORD),
        ("RUN", layout::RUN),
    ];
    for (name, value) in constants {
        assert_eq!(defined(&format!("CHEUKDANE_{name}")), value, "{name}");
    }
    assert_eq!(layout::IMAGE, layout::WORD * layout::IMAGE_WORDS);
}

#[test]
fn rules_are_the_headers() {
    assert_eq!(calls::rules(), layout::RULES);
}
