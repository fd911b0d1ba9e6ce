//! Two thermistors of a battery that charges fast, and what events do to it.

use reference::{Band, Event, Model, Sample, State, Step, TwoSample};

use crate::left::on;

/// TH1, TH2, TH3 and TH5 by their codes, of the data sheet.
pub const THRESHOLDS: [[u32; 4]; 4] = [
    [77_150, 75_320, 73_300, 70_900],
    [70_900, 68_250, 65_350, 62_250],
    [48_400, 44_750, 41_200, 37_700],
    [41_200, 37_700, 34_375, 31_250],
];

/// A TS so far back from a threshold: below TH1 and TH2, above TH3 and TH5.
pub fn back(threshold: usize, at: u32, by: u32) -> u32 {
    if threshold < 2 {
        at - by
    } else {
        at + by
    }
}

/// 0x18 with one of its codes, the others as after a power-on.
pub fn coded(threshold: usize, code: u32) -> Event {
    let shift = 2 * threshold;
    write(0x18, 0x95 & !(3 << shift) | code << shift)
}

/// What an accepted event does.
pub fn give(state: &State, event: &Event) -> Step {
    let step = Model::On(*state).step(event);
    assert_eq!(step.refusal, None, "{event:?}");
    step
}

/// The state after an accepted event.
pub fn after(state: &State, event: &Event) -> State {
    on(&give(state, event))
}

/// A sample of two cells that charge fast.
pub fn sample(ts: u32) -> Sample {
    Sample { stamp: 1_000, vin: 12_000, vbat: 7_600, ibat: 0, ts, bits: 0 }
}

pub fn two(ts: u32, second: u32) -> Event {
    Event::ObserveTwo(TwoSample { sample: sample(ts), second })
}

pub fn write(address: u32, byte: u32) -> Event {
    Event::Write { address, byte }
}

/// The band of both.
pub fn band_of(state: &State) -> Band {
    reference::band(&Model::On(*state))
}
