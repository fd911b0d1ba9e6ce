//! Events by the numbers of their records, and the range that each number has.

use reference::{number, record, Event, Model, Reading, Refusal};

/// Values of a number that are taken, and such as are refused.
pub type Range = (&'static [u32], &'static [u32]);

/// The event that a kind's numbers spell, in the log's order.
pub fn of_numbers(kind: u8, numbers: &[u32]) -> Event {
    let mut bytes = vec![kind];
    numbers.iter().for_each(|value| number::append(*value, &mut bytes));
    let Reading::Record { event, next } = record::read(&bytes, 0) else {
        panic!("{numbers:?} can't be read");
    };
    assert_eq!((next, record::encode(&event)), (bytes.len(), bytes));
    event
}

/// Numbers with another at an index.
pub fn with<const N: usize>(mut numbers: [u32; N], index: usize, value: u32) -> [u32; N] {
    numbers[index] = value;
    numbers
}

/// Fails unless a model takes each number with each of the values that are.
pub fn each_taken<const N: usize>(model: &Model, kind: u8, numbers: [u32; N], ranges: &[Range; N]) {
    for (index, (taken, _)) in ranges.iter().enumerate() {
        for value in *taken {
            let event = of_numbers(kind, &with(numbers, index, *value));
            assert_eq!(model.step(&event).refusal, None, "{index} {value}");
        }
    }
}

/// Fails unless a model refuses each number with each of the values that are,
/// and is left as it was.
pub fn each_refused<const N: usize>(
    model: &Model,
    kind: u8,
    numbers: [u32; N],
    ranges: &[Range; N],
    refusal: Refusal,
) {
    for (index, (_, refused)) in ranges.iter().enumerate() {
        for value in *refused {
            let step = model.step_at(&of_numbers(kind, &with(numbers, index, *value)), 7);
            assert_eq!((step.refusal, step.place), (Some(refusal), 7), "{index} {value}");
            assert_eq!(step.model, *model);
        }
    }
}
