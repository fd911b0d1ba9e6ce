//! A reference model as the bytes of an image, and back.

use crate::layout::{bytes_of, words_of, FORMAT, IMAGE, IMAGE_WORDS};
use crate::words::Words;
use reference::event::Sample;
use reference::number::fold;
use reference::state::{Comparators, PerStage, State};
use reference::{EditionProfile, Event, Model, TsBand};

/// A model as an image holds it.
#[derive(Clone, Copy, Debug, PartialEq, Eq)]
pub enum Held {
    /// Before a power-on.
    Off,
    /// After one.
    On(Powered),
}

/// A powered model: the reference's state, and what that doesn't keep.
#[derive(Clone, Copy, Debug, PartialEq, Eq)]
pub struct Powered {
    /// The power-on's cell code, whatever CELL_PIN is now.
    pub cell: u32,
    /// The power-on's stamp.
    pub stamp: u32,
    /// All else.
    pub state: State,
}

impl Powered {
    /// A powered model by a power-on of this cell code and stamp.
    pub fn new(cell: u32, stamp: u32, state: State) -> Powered {
        Powered { cell, stamp, state }
    }
}

impl Held {
    /// The reference's model.
    pub fn model(&self) -> Model {
        match self {
            Held::Off => Model::Off,
            Held::On(powered) => Model::On(powered.state),
        }
    }

    /// What is held after `event` on this made `model`.
    pub fn after(&self, event: &Event, model: &Model) -> Held {
        match (model, event.powered(), self) {
            (Model::Off, _, _) => Held::Off,
            (Model::On(state), Some(EditionProfile { profile, .. }), _) => {
                Held::On(Powered::new(profile.cell, profile.stamp, *state))
            }
            (Model::On(state), _, Held::On(old)) => Held::On(Powered { state: *state, ..*old }),
            (Model::On(_), _, Held::Off) => panic!("{event:?} powered a model"),
        }
    }
}

/// The image of a model.
pub fn of(held: &Held) -> Vec<u8> {
    match held {
        Held::Off => vec![0; IMAGE],
        Held::On(powered) => bytes_of(&words(powered)),
    }
}

fn words(powered: &Powered) -> Vec<u32> {
    let Powered { cell, stamp, state } = powered;
    let mut words = vec![FORMAT, *cell, state.pins.vchg, state.pins.ichg, state.ohms, *stamp];
    words.push(state.ceiling.0);
    words.extend(stages(&state.limits));
    words.extend([state.period, state.edition]);
    words.extend(state.settings.0);
    words.extend(words_of(&state.stored.0).into_iter().flatten());
    words.push(state.pins.cell);
    let Comparators { vin_ok, vin_over, short, low, battery_over } = state.comparators;
    words.extend([vin_ok, vin_over, short, low, battery_over].map(u32::from));
    words.extend(stages(&state.cycle.times));
    words.extend([u32::from(state.cycle.done), state.watchdog]);
    let Sample { stamp, vin, vbat, ibat, ts, bits } = state.sample;
    words.extend([stamp, vin, vbat, fold(ibat), ts, state.second, bits]);
    let [first, second] = state.bands.map(TsBand::number);
    words.extend([state.phase, first, second, state.flags]);
    words
}

fn stages(per: &PerStage) -> [u32; 3] {
    [per.trickle, per.precharge, per.fast]
}

/// The model whose image the bytes are, if they are one: of an image's
/// length, off with zeros alone or of this format, and each word within its
/// field's type.
pub fn read(bytes: &[u8]) -> Option<Held> {
    let words = words_of(bytes).filter(|words| words.len() == IMAGE_WORDS)?;
    match words[0] {
        0 => words.iter().all(|word| *word == 0).then_some(Held::Off),
        FORMAT => Words::new(&words[1..]).powered().map(Held::On),
        _ => None,
    }
}
