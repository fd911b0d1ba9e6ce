//! A powered model as an image's words, and back, in plain arrays: no vectors
//! and no heap.

use library::image::Powered;
use library::layout::{
    BANDS, CYCLE, FLAGS, FORMAT, IMAGE_WORDS, LATCHES, PHASE, PROFILE, REGISTERS, SAMPLE, SETTINGS,
    WATCHDOG, WORD,
};
use reference::event::{Sample, TwoSample};
use reference::number::{fold, unfold};
use reference::pins::Pins;
use reference::settings::Settings;
use reference::state::{Comparators, Cycle, PerStage, State};
use reference::stored::{Stored, LENGTH};
use reference::volts::CellMv;
use reference::TsBand;

/// The word of CELL_PIN, after the stored fields.
const CELL_PIN: usize = REGISTERS + LENGTH / WORD;

/// An image's words.
pub type Words = [u32; IMAGE_WORDS];

/// Reads an image's words, lowest byte first.
pub fn read(image: &[u8]) -> Words {
    let mut words = [0; IMAGE_WORDS];
    for (word, bytes) in words.iter_mut().zip(image.chunks_exact(WORD)) {
        *word = u32::from_le_bytes(bytes.try_into().expect("four bytes"));
    }
    words
}

/// Writes words at the start of a buffer.
pub fn write(words: &[u32], buffer: &mut [u8]) {
    for (word, bytes) in words.iter().zip(buffer.chunks_exact_mut(WORD)) {
        bytes.copy_from_slice(&word.to_le_bytes());
    }
}

fn part<const N: usize>(words: &Words, start: usize) -> [u32; N] {
    std::array::from_fn(|at| words[start + at])
}

fn put<const N: usize>(words: &mut Words, start: usize, values: [u32; N]) {
    words[start..start + N].copy_from_slice(&values);
}

/// The words of a model.
pub fn of(powered: &Powered) -> Words {
    let Powered { cell, stamp, state } = powered;
    let State { pins, limits, comparators, cycle, sample, .. } = state;
    let mut words = [0; IMAGE_WORDS];
    words[0] = FORMAT;
    put(&mut words, PROFILE, [*cell, pins.vchg, pins.ichg, state.ohms, *stamp]);
    put(&mut words, PROFILE + 5, [state.ceiling.0]);
    put(&mut words, PROFILE + 6, [limits.trickle, limits.precharge, limits.fast]);
    put(&mut words, PROFILE + 9, [state.period, state.edition]);
    put(&mut words, SETTINGS, state.settings.0);
    for (word, bytes) in words[REGISTERS..].iter_mut().zip(state.stored.0.chunks_exact(WORD)) {
        *word = u32::from_le_bytes(bytes.try_into().expect("four bytes"));
    }
    words[CELL_PIN] = pins.cell;
    let Comparators { vin_ok, vin_over, short, low, battery_over } = *comparators;
    put(&mut words, LATCHES, [vin_ok, vin_over, short, low, battery_over].map(u32::from));
    let PerStage { trickle, precharge, fast } = cycle.times;
    put(&mut words, CYCLE, [trickle, precharge, fast, u32::from(cycle.done)]);
    words[WATCHDOG] = state.watchdog;
    let Sample { stamp, vin, vbat, ibat, ts, bits } = *sample;
    put(&mut words, SAMPLE, [stamp, vin, vbat, fold(ibat), ts, state.second, bits]);
    words[PHASE] = state.phase;
    put(&mut words, BANDS, state.bands.map(TsBand::number));
    words[FLAGS] = state.flags;
    words
}

/// The model that the words would be of. A word beyond its field's type is cut
/// to it; then these aren't the model's words.
pub fn powered(words: &Words) -> Powered {
    let [cell, vchg, ichg, ohms, stamp, ceiling, trickle, precharge, fast, period, edition] =
        part(words, PROFILE);
    let TwoSample { sample, second } = sample(part(words, SAMPLE));
    let state = State {
        pins: Pins { cell: words[CELL_PIN], vchg, ichg },
        ohms,
        ceiling: CellMv(ceiling),
        limits: PerStage { trickle, precharge, fast },
        period,
        edition,
        settings: settings(part(words, SETTINGS)),
        stored: stored(&words[REGISTERS..CELL_PIN]),
        comparators: comparators(part(words, LATCHES)),
        bands: part(words, BANDS).map(band),
        cycle: cycle(part(words, CYCLE)),
        watchdog: words[WATCHDOG],
        sample,
        second,
        phase: words[PHASE] % 8,
        flags: words[FLAGS] % (1 << 12),
    };
    Powered { cell, stamp, state }
}

fn bit(word: u32) -> bool {
    word % 2 == 1
}

fn stored(words: &[u32]) -> Stored {
    let mut bytes = [0; LENGTH];
    write(words, &mut bytes);
    Stored(bytes)
}

/// Settings 9 to 13 are switches.
fn settings(mut values: [u32; 14]) -> Settings {
    for switch in &mut values[8..13] {
        *switch %= 2;
    }
    Settings(values)
}

fn comparators(words: [u32; 5]) -> Comparators {
    let [vin_ok, vin_over, short, low, battery_over] = words.map(bit);
    Comparators { vin_ok, vin_over, short, low, battery_over }
}

fn cycle([trickle, precharge, fast, done]: [u32; 4]) -> Cycle {
    Cycle { times: PerStage { trickle, precharge, fast }, done: bit(done) }
}

fn sample([stamp, vin, vbat, ibat, ts, second, bits]: [u32; 7]) -> TwoSample {
    TwoSample { sample: Sample { stamp, vin, vbat, ibat: unfold(ibat), ts, bits }, second }
}

/// 0 to 4 are bands.
fn band(word: u32) -> TsBand {
    TsBand::ALL[word as usize % TsBand::ALL.len()]
}
