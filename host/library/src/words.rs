//! An image's words, read back into a model.

use crate::image::Powered;
use crate::layout::WORD;
use reference::event::{Sample, TwoSample};
use reference::number::unfold;
use reference::pins::Pins;
use reference::settings::Settings;
use reference::state::{Comparators, Cycle, PerStage, State};
use reference::stored::{Stored, LENGTH};
use reference::volts::CellMv;
use reference::TsBand;

/// An image's words, read one after another.
pub(crate) struct Words<'words> {
    left: &'words [u32],
}

impl<'words> Words<'words> {
    pub(crate) fn new(left: &'words [u32]) -> Words<'words> {
        Words { left }
    }

    fn number(&mut self) -> u32 {
        let (word, left) = self.left.split_first().expect("a word is left");
        self.left = left;
        *word
    }

    fn below(&mut self, end: u32) -> Option<u32> {
        Some(self.number()).filter(|word| *word < end)
    }

    fn bit(&mut self) -> Option<bool> {
        self.below(2).map(|word| word == 1)
    }

    fn stages(&mut self) -> PerStage {
        PerStage { trickle: self.number(), precharge: self.number(), fast: self.number() }
    }

    /// The model of an image's words after the first, if each word is within
    /// its field's type. Fields are read in the order they are written here,
    /// the image's.
    pub(crate) fn powered(&mut self) -> Option<Powered> {
        let cell = self.number();
        let (vchg, ichg, ohms) = (self.number(), self.number(), self.number());
        let stamp = self.number();
        let ceiling = CellMv(self.number());
        let limits = self.stages();
        let (period, edition) = (self.number(), self.number());
        let settings = self.settings()?;
        let stored = self.stored();
        let pins = Pins { cell: self.number(), vchg, ichg };
        let comparators = self.comparators()?;
        let cycle = Cycle { times: self.stages(), done: self.bit()? };
        let watchdog = self.number();
        let TwoSample { sample, second } = self.sample();
        let phase = self.below(8)?;
        let bands = [self.band()?, self.band()?];
        let flags = self.below(1 << 12)?;
        let state = State {
            pins,
            ohms,
            ceiling,
            limits,
            period,
            edition,
            settings,
            stored,
            comparators,
            bands,
            cycle,
            watchdog,
            sample,
            second,
            phase,
            flags,
        };
        Some(Powered { cell, stamp, state })
    }

    /// Settings 9 to 13 are switches.
    fn settings(&mut self) -> Option<Settings> {
        let mut values = [0; 14];
        for (number, value) in (1..).zip(&mut values) {
            *value = if (9..=13).contains(&number) { self.below(2)? } else { self.number() };
        }
        Some(Settings(values))
    }

    /// Four addresses to a word, the lowest address lowest.
    fn stored(&mut self) -> Stored {
        let mut bytes = [0; LENGTH];
        for word in bytes.chunks_exact_mut(WORD) {
            word.copy_from_slice(&self.number().to_le_bytes());
        }
        Stored(bytes)
    }

    fn comparators(&mut self) -> Option<Comparators> {
        Some(Comparators {
            vin_ok: self.bit()?,
            vin_over: self.bit()?,
            short: self.bit()?,
            low: self.bit()?,
            battery_over: self.bit()?,
        })
    }

    fn sample(&mut self) -> TwoSample {
        let (stamp, vin, vbat) = (self.number(), self.number(), self.number());
        let ibat = unfold(self.number());
        let (ts, second, bits) = (self.number(), self.number(), self.number());
        TwoSample { sample: Sample { stamp, vin, vbat, ibat, ts, bits }, second }
    }

    /// A thermistor's, 0 to 4.
    fn band(&mut self) -> Option<TsBand> {
        TsBand::numbered(self.number())
    }
}
