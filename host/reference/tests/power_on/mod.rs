//! The ranges of the numbers that every power-on has, whatever it says of its
//! pins, and that each number of a power-on has its range.

use reference::{Model, Refusal};

use crate::numbers::{each_refused, each_taken, of_numbers, Range};

pub const OHMS: Range = (&[0, 33_000], &[33_001, 100_000, u32::MAX]);
pub const STAMP: Range = (&[0, u32::MAX], &[]);
pub const CEILING: Range = (&[4_350, 4_714], &[0, 4_349, 4_715, u32::MAX]);
/// A limit of a stage, or the watchdog period.
pub const TIME: Range = (&[0, 172_800], &[172_801, u32::MAX]);

/// Fails unless a kind's power-on is refused by these ranges, with 5 alone,
/// before another and after it.
pub fn each_has_its_range<const N: usize>(kind: u8, numbers: [u32; N], ranges: &[Range; N]) {
    let on = Model::Off.step(&of_numbers(kind, &numbers)).model;
    for model in [Model::Off, on] {
        each_taken(&model, kind, numbers, ranges);
        each_refused(&model, kind, numbers, ranges, Refusal::OutOfRange);
    }
}
