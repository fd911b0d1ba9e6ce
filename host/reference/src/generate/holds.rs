//! Episodes of a run in which each thermistor's band is entered, held and left.

use super::aim::{back_from, share_of};
use super::rng::Rng;
use super::samples::one_or_both;
use super::walk::Walk;
use super::{BACK, NORMAL_TS};
use crate::event::{Event, Sample, TwoSample};
use crate::settings::Setting;
use crate::settle::base_voltage;
use crate::state::State;
use crate::stored::Stored;

const THRESHOLDS: u32 = 0x18;
const BEHAVIOUR: u32 = 0x19;

/// TS at one of the thresholds that let a band in, or normal.
fn entering(rng: &mut Rng, stored: &Stored) -> u32 {
    rng.pick(&[stored.th1(), stored.th2(), stored.th3(), stored.th5(), NORMAL_TS])
}

/// The thresholds that a byte of 0x18 stands for.
fn standing(stored: &Stored, byte: u32) -> Stored {
    let mut moved = *stored;
    moved.write(THRESHOLDS, byte as u8);
    moved
}

impl Walk {
    /// Bands that are entered, with what keeps, moves or ends a hold after
    /// each.
    pub(super) fn probe_holds(&mut self) {
        let behaviour = self.rng.within(0, 31) << 2 | 3;
        self.write_to(BEHAVIOUR, 0x80 | behaviour);
        for _ in 0..self.rng.within(1, 3) {
            let Some(state) = self.state() else { return };
            let [ts, second] = [(); 2].map(|()| entering(&mut self.rng, &state.stored));
            self.see_both(ts, second);
            for _ in 0..self.rng.within(2, 6) {
                self.go_on_held();
            }
        }
    }

    /// Observes the first thermistor alone, or both, of a battery that charges
    /// fast.
    fn see_both(&mut self, ts: u32, second: u32) {
        let Some(state) = self.state() else { return };
        let vbat = share_of(base_voltage(&state), 900);
        let sample = Sample { vbat, ts, ..state.sample };
        let event = one_or_both(&mut self.rng, TwoSample { sample, second });
        self.give(event);
    }

    fn go_on_held(&mut self) {
        let Some(state) = self.state() else { return };
        match self.rng.within(0, 11) {
            0..=4 => self.step_back(&state),
            5 | 6 => self.move_to_thresholds(&state),
            7 => self.switch(&state),
            8 => self.give(Event::Reset),
            9 => self.give(Event::Service),
            10 => self.give(Event::TakeFlags),
            _ => self.give(Event::Set { number: Setting::Iterm.number(), value: 60 }),
        }
    }

    /// One thermistor, or both, back to where what it holds is just kept, or is
    /// left.
    fn step_back(&mut self, state: &State) {
        let by = self.rng.pick(&[1, 500, BACK - 1, BACK - 1, BACK - 1, BACK, BACK + 1]);
        let [first, second] = state.bands.map(|band| back_from(&state.stored, band, by));
        let TwoSample { sample: Sample { ts, .. }, second: other } = state.observed();
        let (ts, second) = match self.rng.within(0, 3) {
            0 => (first.unwrap_or(ts), other),
            1 => (ts, second.unwrap_or(other)),
            _ => (first.unwrap_or(ts), second.unwrap_or(other)),
        };
        self.see_both(ts, second);
    }

    /// A band that is entered by other thresholds than those that stand once
    /// they are moved: TS is as far back past one of these as a band is held,
    /// or beside that.
    fn move_to_thresholds(&mut self, state: &State) {
        let byte = self.rng.within(0, 255);
        let moved = standing(&state.stored, byte);
        let (centre, entered) = self.rng.pick(&[
            (moved.th1() - BACK, byte | 0x03),
            (moved.th2() - BACK, byte | 0x0C),
            (moved.th3() + BACK, byte & !0x30),
            (moved.th5() + BACK, byte & !0xC0),
        ]);
        self.write_to(THRESHOLDS, entered);
        let ts = self.rng.near(centre);
        let (ts, second) =
            self.rng.pick(&[(ts, ts), (ts, state.second), (state.sample.ts, ts), (ts, NORMAL_TS)]);
        self.see_both(ts, second);
        self.write_to(THRESHOLDS, byte);
    }

    /// EN_TS, EN_JEITA or both off, and on again.
    fn switch(&mut self, state: &State) {
        let behaviour = u32::from(state.stored.0[BEHAVIOUR as usize]);
        let off = self.rng.pick(&[1, 2, 2, 3]);
        self.write_to(BEHAVIOUR, behaviour & !off);
        if self.rng.coin() {
            self.write_to(BEHAVIOUR, behaviour | 3);
        }
    }
}
