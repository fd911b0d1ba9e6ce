//! Episodes of a run that take one comparator, or one rule, to its points.

use super::aim::{share_of, threshold_of_ts};
use super::records::{edge_of_edition, power_on, soldered, span};
use super::runs::{held_bytes, put};
use super::samples::{as_of_one, edge_of_sample, one_or_both};
use super::walk::Walk;
use super::{MOST_MV, NORMAL_TS};
use crate::event::{EditionProfile, Event, Profile, Run, Sample, TwoSample, HIZ_PIN, SHUTDOWN};
use crate::settings::Setting;
use crate::settle::{base_voltage, charge_voltage};
use crate::state::State;
use crate::volts::CellMv;

/// Where low ends and returns, in thousandths of base, by VBAT_LOWV.
const LOW: [(u32, u32); 4] = [(300, 250), (550, 500), (667, 617), (714, 664)];
/// The recharge points, in thousandths of the charge voltage, by VRECHG.
const RECHARGE: [u32; 4] = [927, 941, 955, 970];

impl Walk {
    /// One episode, begun where a charge is permitted.
    pub(super) fn probe(&mut self) {
        self.permit();
        match self.rng.within(0, 27) {
            0 => self.probe_vin(),
            1 => self.probe_short(),
            2..=4 => self.probe_low(),
            5 => self.probe_over(),
            6 | 7 => self.probe_recharge(),
            8 => self.probe_clamps(),
            9 => self.probe_cells(),
            10 => self.probe_hiz_pin(),
            11 => self.probe_masks(),
            12 => self.probe_run_cells(),
            13 => self.probe_run_resets(),
            14 => self.probe_run_serves(),
            15 | 16 => self.probe_thermistors(),
            17..=26 => self.probe_holds(),
            _ => self.probe_done_in_fault(),
        }
    }

    /// Ends what keeps a charge from going on, as far as the pins let it; a
    /// lost input clears the times.
    fn permit(&mut self) {
        self.set_to(Setting::EnHiz, 0);
        self.set_to(Setting::EnChg, 1);
        self.see(|sample, _| *sample = Sample { vin: 0, ts: NORMAL_TS, bits: 0, ..*sample });
        self.see(|sample, _| sample.vin = 5_000);
    }

    fn set_to(&mut self, setting: Setting, value: u32) {
        self.give(Event::Set { number: setting.number(), value });
    }

    pub(super) fn write_to(&mut self, address: u32, byte: u32) {
        self.give(Event::Write { address, byte });
    }

    /// Observes the held sample with a change, at once or a little later.
    fn see(&mut self, change: impl FnOnce(&mut Sample, &State)) {
        let Some(state) = self.state() else { return };
        let mut sample = as_of_one(&state);
        sample.stamp = sample.stamp.wrapping_add(self.rng.pick(&[0, 0, 0, 1, 10]));
        change(&mut sample, &state);
        self.observe(sample);
    }

    fn see_vbat(&mut self, vbat: u32) {
        self.see(|sample, _| sample.vbat = vbat.min(MOST_MV));
    }

    /// From far below up over `upper`, from far above down over `lower`.
    fn see_points(&mut self, upper: u32, lower: u32) {
        for vbat in [0, upper.saturating_sub(1), upper, upper + 500, lower, lower.saturating_sub(1)]
        {
            self.see_vbat(vbat);
        }
    }

    fn probe_vin(&mut self) {
        for vin in [36_299, 36_300, 34_500, 34_499, 2_350, 2_349, 2_899, 2_900, 45_000, 5_000] {
            if !self.rng.once_in(4) {
                self.see(|sample, _| sample.vin = vin);
            }
        }
    }

    fn probe_short(&mut self) {
        let Some(state) = self.state() else { return };
        let (ends, returns) = if state.pins.cell <= 2 { (2_150, 1_850) } else { (2_200, 2_000) };
        let pack = |per_cell| CellMv(per_cell).times(state.pins.cell).0;
        self.see_points(pack(ends), pack(returns));
    }

    fn probe_low(&mut self) {
        let code = self.rng.within(0, 3);
        self.set_to(Setting::VbatLowv, code);
        let Some(state) = self.state() else { return };
        let (ends, returns) = LOW[code as usize];
        let base = base_voltage(&state);
        self.see_points(share_of(base, ends), share_of(base, returns));
    }

    fn probe_over(&mut self) {
        let Some(state) = self.state() else { return };
        let base = base_voltage(&state);
        self.see_points(share_of(base, 1_040), share_of(base, 1_020));
    }

    /// A charge that ends at the charge voltage or near it; one that restarts
    /// at the recharge point, by VBAT or by the band alone. The warm cut parts
    /// the charge voltage from the base, and so their points.
    fn probe_recharge(&mut self) {
        let code = self.rng.within(0, 3);
        self.set_to(Setting::Vrechg, code);
        self.set_to(Setting::EnTerm, 1);
        if self.rng.coin() {
            let cut = self.rng.within(1, 3);
            self.write_to(0x19, 0x97 | cut << 5);
            self.write_to(0x18, 0x95);
            self.see(|sample, state| sample.ts = state.stored.th3());
        }
        let Some(state) = self.state() else { return };
        let share = RECHARGE[code as usize];
        let point = share_of(charge_voltage(&state), share);
        let uncut = share_of(base_voltage(&state), share);
        let top = charge_voltage(&state).0;
        let low_current = state.settings[Setting::Iterm] as i32 - 1;
        self.see(|sample, _| (sample.vbat, sample.ibat) = (top.min(MOST_MV), 1_000));
        let ends_at = self.rng.pick(&[top, top.saturating_sub(10), uncut, uncut.saturating_sub(1)]);
        self.see(|sample, _| (sample.vbat, sample.ibat) = (ends_at, low_current));
        if self.rng.once_in(3) {
            self.see(|sample, state| sample.ts = state.stored.th1());
            self.see(|sample, _| sample.ts = NORMAL_TS);
        }
        if self.rng.coin() {
            let nearly = self.rng.pick(&[uncut, uncut.saturating_sub(1)]);
            self.see_vbat(nearly);
            self.see(|sample, _| sample.ts = NORMAL_TS);
        }
        self.see_vbat(point);
        self.see_vbat(point.saturating_sub(1));
        self.see(|sample, _| sample.ts = NORMAL_TS);
    }

    /// Settings above their clamps, with the overrides and without them.
    fn probe_clamps(&mut self) {
        let vreg = self.rng.pick(&[33_000, 30_000, 20_000, 4_710]);
        self.set_to(Setting::Vreg, vreg);
        let ichg = self.rng.pick(&[3_300, 3_280, 100, 40]);
        self.set_to(Setting::Ichg, ichg);
        let overrides = self.rng.pick(&[0x80, 0xC0, 0x00]);
        self.write_to(0x1B, overrides);
        let charge = self.rng.pick(&[0x08, 0x08, 0x00]);
        self.write_to(0x1C, charge);
        self.set_to(Setting::EnChg, 1);
        self.see(|sample, state| sample.vbat = share_of(base_voltage(state), 900));
        self.write_to(0x1C, 0x08 - charge);
        let th = self.rng.within(0, 3);
        self.see(|sample, state| {
            let stored = &state.stored;
            sample.ts = [stored.th1(), stored.th2(), stored.th3(), stored.th5()][th as usize];
        });
    }

    /// A count written with its override standing: the same, another, none.
    fn probe_cells(&mut self) {
        let Some(state) = self.state() else { return };
        let other = self.rng.within(0, 7);
        let count = self.rng.pick(&[state.pins.cell, other, other]);
        let kept = self.rng.pick(&[0x40, 0xC0, 0x00, 0x80]);
        self.write_to(0x1B, 0x40);
        self.set_to(Setting::Vreg, 9_990);
        self.set_to(Setting::Vsysmin, 5_000);
        self.write_to(0x1B, kept | count);
    }

    /// The ILIM_HIZ pin high, where it counts and where it doesn't.
    fn probe_hiz_pin(&mut self) {
        let counts = self.rng.within(0, 1);
        self.set_to(Setting::EnExtilim, counts);
        self.see(|sample, _| sample.bits = HIZ_PIN);
        self.set_to(Setting::EnExtilim, 1 - counts);
    }

    /// An edge that comes with a reset of the masks, or under one of them.
    fn probe_masks(&mut self) {
        let masks = self.rng.pick(&[4_095, 4_031, 64, 128, 1, 2]);
        self.set_to(Setting::Masks, masks);
        self.set_to(Setting::EnChg, 0);
        if self.rng.coin() {
            self.give(Event::Reset);
        } else {
            self.set_to(Setting::EnChg, 1);
        }
    }

    /// Writes registers as they are read, but for some fields.
    fn run_of(&mut self, first: usize, last: usize, fields: &[(&str, u32)]) {
        let Some(state) = self.state() else { return };
        let mut bytes = held_bytes(&state);
        for (name, code) in fields {
            put(&mut bytes, name, *code);
        }
        self.give(Event::WriteRun(Run::new(first as u32, &bytes[first..=last])));
    }

    /// A count beside the settings that it moves, in one run, with its override
    /// standing or not, and kept or not.
    fn probe_run_cells(&mut self) {
        let allowed = self.rng.pick(&[0x40, 0x40, 0xC0, 0x00]);
        self.write_to(0x1B, allowed);
        let count = self.rng.within(0, 7);
        let kept = self.rng.within(0, 1);
        let fields = [
            ("VREG", self.rng.within(240, 3_300)),
            ("VSYSMIN", self.rng.within(150, 1_400)),
            ("CELL_PIN", count),
            ("CELL_PIN_OVERRIDE", kept),
            ("REG_RST", u32::from(self.rng.once_in(4))),
        ];
        let first = self.rng.pick(&[0x00, 0x04, 0x10, 0x1B]);
        self.run_of(first, 0x1B, &fields);
    }

    /// A run with a reset bit, at a battery voltage where its other bytes alone
    /// would move a comparator, the phase or done.
    fn probe_run_resets(&mut self) {
        let share = self.rng.pick(&[700, 990, 1_000]);
        self.see(|sample, state| sample.vbat = share_of(base_voltage(state), share).min(MOST_MV));
        let fields = [
            ("VREG", self.rng.pick(&[240, 500, 800, 3_300])),
            ("VBAT_LOWV", self.rng.within(0, 3)),
            ("EN_CHG", self.rng.within(0, 1)),
            ("REG_RST", 1),
            ("WD_RST", self.rng.within(0, 1)),
        ];
        let last = self.rng.pick(&[0x10, 0x12, 0x13, 0x19, 0x23]);
        self.run_of(0x04, last, &fields);
    }

    /// A run with the service bit and one without it, once time has gone by.
    fn probe_run_serves(&mut self) {
        self.see(|sample, _| sample.stamp = sample.stamp.wrapping_add(500));
        let served = self.rng.within(0, 1);
        for bit in [served, 1 - served] {
            let last = self.rng.pick(&[0x12, 0x13, 0x17]);
            self.run_of(0x12, last, &[("WD_RST", bit)]);
        }
    }

    /// Two thermistors at thresholds or beside them, one way round and the
    /// other, with any of what cool and warm may do alone.
    fn probe_thermistors(&mut self) {
        let enabled = self.rng.pick(&[3, 3, 3, 3, 1, 2]);
        let behaviour = self.rng.within(0, 31) << 2 | enabled;
        self.write_to(0x19, 0x80 | behaviour);
        self.see(|sample, state| sample.vbat = share_of(base_voltage(state), 900));
        for _ in 0..self.rng.within(1, 3) {
            let Some(state) = self.state() else { return };
            let [one, other] = [(); 2].map(|()| threshold_of_ts(&mut self.rng, &state));
            for (ts, second) in [(one, other), (other, one)] {
                let sample = Sample { ts, ..state.sample };
                self.give(Event::ObserveTwo(TwoSample { sample, second }));
            }
        }
    }

    /// A done charge that falls below the recharge point while a fault or a
    /// suspension holds.
    fn probe_done_in_fault(&mut self) {
        self.set_to(Setting::EnTerm, 1);
        for ibat in [1_000, -1] {
            self.see(|sample, state| {
                (sample.vbat, sample.ibat) = (charge_voltage(state).0.min(MOST_MV), ibat);
            });
        }
        let hot = self.rng.coin();
        self.see(|sample, state| {
            sample.vbat = share_of(base_voltage(state), 900);
            if hot {
                sample.ts = state.stored.th5();
            } else {
                sample.bits = SHUTDOWN;
            }
        });
        let back = self.rng.pick(&[900, 980, 1_000]);
        self.see(|sample, state| {
            let vbat = share_of(base_voltage(state), back);
            *sample = Sample { vbat, ts: NORMAL_TS, bits: 0, ..*sample };
        });
    }

    /// A pin fault that an override ends, at a battery voltage where short
    /// and low keep what they were.
    pub(super) fn probe_pin_fault(&mut self, edition: EditionProfile) {
        let profile = edition.profile;
        let by_voltage = self.rng.coin();
        let (vchg, ichg) = if by_voltage { (0, profile.ichg) } else { (profile.vchg, 0) };
        let profile = Profile { vchg, ichg, ..profile };
        let fault = power_on(&mut self.rng, EditionProfile { profile, ..edition });
        self.give(fault);
        let (address, bit) = if by_voltage { (0x1B, 0x80) } else { (0x1C, 0x08) };
        self.write_to(address, bit);
        self.set_to(Setting::Vreg, CellMv(3_600).times(profile.cell.max(1)).0);
        self.permit();
        let cells = profile.cell;
        let between = self.rng.pick(&[2_100, 2_500]) * cells;
        let vbat = self.rng.pick(&[3_700 * cells, 3_800 * cells, 3_000 * cells]);
        self.see_vbat(vbat);
        if self.rng.coin() {
            self.see_vbat(between);
        }
        self.write_to(address, 0);
        if self.rng.coin() {
            self.set_to(Setting::EnChg, 1);
            self.see_vbat(between);
        }
        self.write_to(address, bit);
        self.set_to(Setting::EnChg, 1);
    }

    /// Power-ons that differ in one pin's resistor: from just below a code's
    /// span to just above it, each with a charge that is seen.
    pub(super) fn probe_resistor(&mut self, profile: Profile) {
        let mut resistors = soldered(&mut self.rng, &profile);
        let pin = self.rng.within(0, 2);
        let (least, most) = span(self.rng.within(1, 7));
        for ohms in [least - 1, least, most, most + 1] {
            match pin {
                0 => resistors.cell = ohms,
                1 => resistors.vchg = ohms,
                _ => resistors.ichg = ohms,
            }
            self.give(Event::PowerOnResistors(resistors));
            self.see(|sample, state| {
                (sample.vin, sample.vbat) = (5_000, share_of(base_voltage(state), 900));
            });
        }
    }

    /// Numbers at the ends of their ranges, and just outside.
    pub(super) fn probe_ranges(&mut self) {
        for _ in 0..self.rng.within(1, 4) {
            let Some(state) = self.state() else { return };
            let event = if self.rng.coin() {
                let edition = edge_of_edition(&mut self.rng);
                power_on(&mut self.rng, edition)
            } else {
                let two = edge_of_sample(&mut self.rng, state.observed());
                one_or_both(&mut self.rng, two)
            };
            self.give(event);
        }
    }
}
