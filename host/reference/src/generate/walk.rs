//! A plausible run, made event by event.

use super::aim::{around, gap, threshold_of_ts, threshold_of_vbat, threshold_of_vin};
use super::records::{any_edition, any_event, good_edition, power_on};
use super::rng::Rng;
use super::runs::{any_flag_register, held_run};
use super::samples::{observation, one_or_both};
use super::{MOST_MV, NORMAL_TS};
use crate::event::{Event, Sample, TwoSample};
use crate::model::Model;
use crate::settings::Setting;
use crate::settle::{base_voltage, charge_voltage};
use crate::state::State;
use crate::volts::CellMv;

/// A run in the making: it holds the model, so as to aim at its thresholds.
pub(super) struct Walk {
    pub(super) rng: Rng,
    model: Model,
    pub(super) events: Vec<Event>,
}

impl Walk {
    pub(super) fn new(seed: u64) -> Walk {
        let mut walk = Walk { rng: Rng::new(seed), model: Model::Off, events: Vec::new() };
        if walk.rng.once_in(8) {
            let early = any_event(&mut walk.rng);
            walk.give(early);
        }
        walk.power_on();
        walk
    }

    pub(super) fn give(&mut self, event: Event) {
        self.model = self.model.step(&event).model;
        self.events.push(event);
    }

    fn power_on(&mut self) {
        let mut edition = good_edition(&mut self.rng);
        if self.rng.once_in(10) {
            edition = any_edition(&mut self.rng);
        }
        let event = power_on(&mut self.rng, edition);
        self.give(event);
    }

    /// Some more events.
    pub(super) fn go_on(&mut self) {
        let Model::On(state) = self.model else {
            return self.power_on();
        };
        match self.rng.within(0, 99) {
            0..=22 => self.charge(),
            23..=40 => self.observe_at_an_edge(&state),
            41..=52 => self.probe(),
            53..=62 => self.set(&state),
            63..=71 => self.write(),
            72..=79 => self.write_run(&state),
            80..=82 => self.give(Event::TakeFlags),
            83..=85 => self.read_flags(),
            86..=87 => self.give(Event::Service),
            88..=89 => self.give(Event::Reset),
            90..=91 => self.change_cells(),
            92 => self.power_on(),
            93 => self.fault_a_pin(),
            94..=95 => self.probe_ranges(),
            96 => self.solder_a_pin(),
            97 => self.odd_event(),
            _ => self.end_a_fault(),
        }
    }

    fn fault_a_pin(&mut self) {
        let edition = good_edition(&mut self.rng);
        self.probe_pin_fault(edition);
    }

    fn solder_a_pin(&mut self) {
        let edition = good_edition(&mut self.rng);
        self.probe_resistor(edition.profile);
    }

    fn odd_event(&mut self) {
        let event = any_event(&mut self.rng);
        self.give(event);
    }

    pub(super) fn state(&self) -> Option<State> {
        match self.model {
            Model::On(state) => Some(state),
            Model::Off => None,
        }
    }

    /// A charge from short to done, most of the time: steps of battery
    /// voltage, each held for a while.
    fn charge(&mut self) {
        self.give(Event::Set { number: Setting::EnChg.number(), value: 1 });
        if self.rng.once_in(3) {
            self.give(Event::Set { number: Setting::EnHiz.number(), value: 0 });
        }
        let steps = self.rng.within(2, 7);
        let from = self.rng.within(0, 2);
        for step in 0..steps {
            let Some(state) = self.state() else { return };
            let sample = self.charging_sample(&state, from + step);
            self.observe(sample);
        }
    }

    /// Observes a sample, with one thermistor or with two.
    pub(super) fn observe(&mut self, sample: Sample) {
        let event = observation(&mut self.rng, sample);
        self.give(event);
    }

    /// The sample of one step of a charge: 0 short, 1 low, 2-3 fast, from 4
    /// on at the charge voltage, with less and less current.
    fn charging_sample(&mut self, state: &State, step: u32) -> Sample {
        let base = base_voltage(state).0;
        let top = charge_voltage(state).0;
        let rng = &mut self.rng;
        let vbat = match step {
            0 => CellMv(1_700).times(state.pins.cell).0,
            1 => CellMv(2_300).times(state.pins.cell).0,
            2 => base * 8 / 10,
            3 => top.saturating_sub(rng.pick(&[12, 11, 100])),
            _ => rng.near(top),
        };
        let ibat = match step {
            0..=4 => rng.within_signed(100, 2_000),
            _ => around(rng, state.settings[Setting::Iterm] as i32),
        };
        let bits = if rng.once_in(5) { rng.pick(&[4, 8, 16, 28]) } else { 0 };
        let ts = if rng.once_in(6) { threshold_of_ts(rng, state) } else { NORMAL_TS };
        let stamp = state.sample.stamp.wrapping_add(gap(rng, state));
        Sample {
            stamp,
            vin: rng.pick(&[5_000, 9_000, 12_000, 20_000]),
            vbat: vbat.min(MOST_MV),
            ibat,
            ts,
            bits,
        }
    }

    /// The held sample with some of its numbers moved to a threshold.
    fn observe_at_an_edge(&mut self, state: &State) {
        let rng = &mut self.rng;
        let TwoSample { mut sample, mut second } = state.observed();
        sample.stamp = sample.stamp.wrapping_add(gap(rng, state));
        for _ in 0..rng.within(1, 2) {
            match rng.within(0, 6) {
                0 => sample.vin = threshold_of_vin(rng),
                1 | 2 => sample.vbat = threshold_of_vbat(rng, state),
                3 => sample.ts = threshold_of_ts(rng, state),
                4 => second = threshold_of_ts(rng, state),
                5 => sample.ibat = around(rng, state.settings[Setting::Iterm] as i32),
                _ => sample.bits ^= rng.pick(&[1, 2, 4, 8, 16, 32, 64]),
            }
        }
        let event = one_or_both(rng, TwoSample { sample, second });
        self.give(event);
    }

    /// A sample that lets a charge go on: input good, no bits, normal band.
    fn end_a_fault(&mut self) {
        let Some(state) = self.state() else { return };
        let lost = Sample { vin: 0, bits: 0, ts: NORMAL_TS, ..state.sample };
        self.observe(lost);
        self.observe(Sample { vin: 5_000, ..lost });
    }

    fn set(&mut self, state: &State) {
        let rng = &mut self.rng;
        let setting = rng.pick(&Setting::ALL);
        let range = setting.range();
        let steps = (range.most - range.least) / range.step;
        let value = match rng.within(0, 9) {
            0 => range.least.wrapping_sub(range.step),
            1 => range.most + range.step,
            2 => range.least + 1,
            3 => rng.pick(&[range.least, range.most]),
            4 if setting == Setting::Vreg => base_voltage(state).0 / 10 * 10,
            5 => range.least + rng.within(0, steps.min(3)) * range.step,
            _ => range.least + rng.within(0, steps) * range.step,
        };
        let number = if rng.once_in(20) { rng.pick(&[0, 15, 16]) } else { setting.number() };
        self.give(Event::Set { number, value });
    }

    fn write(&mut self) {
        let rng = &mut self.rng;
        let address = rng.pick(&[
            0x14, 0x15, 0x16, 0x17, 0x18, 0x18, 0x18, 0x19, 0x19, 0x19, 0x1A, 0x1B, 0x1B, 0x1C,
            0x1C, 0x1D,
        ]);
        let byte = match (address, rng.within(0, 9)) {
            (_, 0) => rng.pick(&[0, 255, 256, 257]),
            // The band stays of interest if EN_TS and EN_JEITA do.
            (0x19, 1..=6) => rng.within(0, 63) << 2 | 3,
            _ => rng.within(0, 255),
        };
        self.give(Event::Write { address, byte });
    }

    /// Registers as they are read, with some fields changed.
    fn write_run(&mut self, state: &State) {
        let run = held_run(&mut self.rng, state);
        self.give(Event::WriteRun(run));
    }

    fn read_flags(&mut self) {
        let address = any_flag_register(&mut self.rng);
        self.give(Event::ReadFlags { address });
    }

    /// Overrides and counts: the override first, mostly.
    fn change_cells(&mut self) {
        let rng = &mut self.rng;
        let allow = Event::Write { address: 0x1B, byte: rng.pick(&[0x40, 0xC0, 0xC7, 0x47]) };
        let count = Event::Write {
            address: 0x1B,
            byte: rng.pick(&[0x00, 0x40, 0x80, 0xC0]) | rng.within(0, 7),
        };
        let charge = Event::Write { address: 0x1C, byte: rng.within(0, 15) };
        let allowed = !rng.once_in(4);
        if allowed {
            self.give(allow);
        }
        self.give(count);
        if self.rng.coin() {
            self.give(charge);
        }
    }
}
