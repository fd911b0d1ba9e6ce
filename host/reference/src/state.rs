//! What a powered model holds, and what each event does to it before it
//! settles.

use crate::band::TsBand;
use crate::event::{EditionProfile, Event, Sample, TwoSample};
use crate::hold::sample_in_range;
use crate::pins::{Overrides, Pins};
use crate::refusal::Refusal;
use crate::registers;
use crate::runs;
use crate::settings::{Setting, Settings};
use crate::stored::Stored;
use crate::volts::CellMv;

/// The phases' numbers.
pub mod phase {
    /// No permission.
    pub const IDLE: u32 = 0;
    /// Battery short.
    pub const TRICKLE: u32 = 1;
    /// Battery low.
    pub const PRECHARGE: u32 = 2;
    /// Constant current.
    pub const FAST: u32 = 3;
    /// At the charge voltage.
    pub const TAPER: u32 = 4;
    /// Charge done.
    pub const DONE: u32 = 5;
    /// Suspended by the temperature band.
    pub const SUSPENDED: u32 = 6;
    /// Thermal shutdown, battery over or a stage limit reached.
    pub const FAULT: u32 = 7;
}

/// "stamp more than 3,600,000 ms ahead" is refused.
pub const MOST_AHEAD_MS: u32 = 3_600_000;

/// Units of stage time in a second, at two units per ms.
pub const UNITS_PER_SECOND: u32 = 2_000;

/// A stage of the charge that has a limit of its own.
#[derive(Clone, Copy, Debug, PartialEq, Eq)]
pub enum Stage {
    /// Phase 1.
    Trickle,
    /// Phase 2.
    Precharge,
    /// "fast and taper share one": phases 3 and 4.
    Fast,
}

impl Stage {
    /// All stages.
    pub const ALL: [Stage; 3] = [Stage::Trickle, Stage::Precharge, Stage::Fast];

    /// The stage that time goes to in this phase, if any.
    pub fn of_phase(held: u32) -> Option<Stage> {
        match held {
            phase::TRICKLE => Some(Stage::Trickle),
            phase::PRECHARGE => Some(Stage::Precharge),
            phase::FAST | phase::TAPER => Some(Stage::Fast),
            _ => None,
        }
    }
}

/// One number for each stage.
#[derive(Clone, Copy, Debug, PartialEq, Eq, Default)]
pub struct PerStage {
    /// For trickle.
    pub trickle: u32,
    /// For precharge.
    pub precharge: u32,
    /// For fast and taper.
    pub fast: u32,
}

impl PerStage {
    /// The number of `stage`.
    pub fn of(&self, stage: Stage) -> u32 {
        match stage {
            Stage::Trickle => self.trickle,
            Stage::Precharge => self.precharge,
            Stage::Fast => self.fast,
        }
    }

    /// The number of `stage`, to be changed.
    pub fn of_mut(&mut self, stage: Stage) -> &mut u32 {
        match stage {
            Stage::Trickle => &mut self.trickle,
            Stage::Precharge => &mut self.precharge,
            Stage::Fast => &mut self.fast,
        }
    }
}

/// The charge cycle: what clears together.
#[derive(Clone, Copy, Debug, PartialEq, Eq, Default)]
pub struct Cycle {
    /// The stages' times, in half milliseconds.
    pub times: PerStage,
    /// The charge is done.
    pub done: bool,
}

/// The comparators, each a latch between two points.
#[derive(Clone, Copy, Debug, PartialEq, Eq)]
pub struct Comparators {
    /// VIN ok.
    pub vin_ok: bool,
    /// VIN over.
    pub vin_over: bool,
    /// Battery short.
    pub short: bool,
    /// Battery low.
    pub low: bool,
    /// Battery over.
    pub battery_over: bool,
}

impl Comparators {
    fn at_power_on() -> Comparators {
        Comparators { vin_ok: false, vin_over: false, short: true, low: true, battery_over: false }
    }

    /// "Input good: ok and not over."
    pub fn input_good(&self) -> bool {
        self.vin_ok && !self.vin_over
    }
}

/// What a powered model holds.
#[derive(Clone, Copy, Debug, PartialEq, Eq)]
pub struct State {
    /// The pin codes.
    pub pins: Pins,
    /// ILIM ohms.
    pub ohms: u32,
    /// Cell ceiling.
    pub ceiling: CellMv,
    /// The stages' limits, seconds.
    pub limits: PerStage,
    /// The watchdog's period, seconds.
    pub period: u32,
    /// The edition of the pack's sheet.
    pub edition: u32,
    /// The settings.
    pub settings: Settings,
    /// The stored fields of the register map.
    pub stored: Stored,
    /// The comparators.
    pub comparators: Comparators,
    /// The band of each thermistor.
    pub bands: [TsBand; 2],
    /// The cycle.
    pub cycle: Cycle,
    /// The watchdog's count, ms, at most 1,000 x period.
    pub watchdog: u32,
    /// The sample that stands; its stamp is the last stamp.
    pub sample: Sample,
    /// The second thermistor's TS of it.
    pub second: u32,
    /// The phase.
    pub phase: u32,
    /// The held flags.
    pub flags: u32,
}

impl State {
    /// The state of a power-on, before it settles.
    pub(crate) fn at_power_on(EditionProfile { profile, edition }: &EditionProfile) -> State {
        let pins = Pins { cell: profile.cell, vchg: profile.vchg, ichg: profile.ichg };
        let TwoSample { sample, second } = Sample::at_power_on(profile.stamp).of_two();
        State {
            pins,
            ohms: profile.ohms,
            ceiling: CellMv(profile.ceiling),
            limits: PerStage {
                trickle: profile.trickle,
                precharge: profile.precharge,
                fast: profile.fast,
            },
            period: profile.watchdog,
            edition: *edition,
            settings: Settings::at_start(&pins),
            stored: Stored::at_power_on(),
            comparators: Comparators::at_power_on(),
            bands: [TsBand::Normal; 2],
            cycle: Cycle::default(),
            watchdog: 0,
            sample,
            second,
            phase: phase::IDLE,
            flags: 0,
        }
    }

    /// The sample that stands, of both thermistors.
    pub fn observed(&self) -> TwoSample {
        TwoSample { sample: self.sample, second: self.second }
    }

    /// The pins' overrides.
    pub fn overrides(&self) -> Overrides {
        self.stored.overrides()
    }

    /// Whether the watchdog has expired and rests.
    pub fn watchdog_expired(&self) -> bool {
        self.period != 0 && u64::from(self.watchdog) >= self.watchdog_end()
    }

    /// The count at which the watchdog expires. It may be above all counts if
    /// the period is one that a model may not hold.
    pub fn watchdog_end(&self) -> u64 {
        u64::from(self.period) * 1_000
    }

    /// Whether a stage's limit is reached: "A limit of s seconds is reached
    /// at 2,000s units; a limit 0 counts nothing."
    pub fn limit_reached(&self) -> bool {
        Stage::ALL.into_iter().any(|stage| {
            let limit = u64::from(self.limits.of(stage));
            let time = u64::from(self.cycle.times.of(stage));
            limit != 0 && time >= limit * u64::from(UNITS_PER_SECOND)
        })
    }

    /// Time since the last stamp goes to the stage held, at the rate that
    /// the old sample gives.
    fn count_stage(&mut self, elapsed: u32) {
        let Some(stage) = Stage::of_phase(self.phase) else {
            return;
        };
        if self.limits.of(stage) != 0 {
            let units_per_ms = if self.sample.regulates() { 1 } else { 2 };
            *self.cycle.times.of_mut(stage) += units_per_ms * elapsed;
        }
    }

    /// "reaching its period expires it: all three overrides clear, and it
    /// rests until service or a reset zeroes it". Resting, it clears nothing
    /// again.
    fn count_watchdog(&mut self, elapsed: u32) {
        if self.period == 0 || self.watchdog_expired() {
            return;
        }
        self.watchdog = (self.watchdog + elapsed).min(self.watchdog_end() as u32);
        if self.watchdog_expired() {
            self.stored.clear_overrides();
        }
    }

    fn observe(&mut self, two: &TwoSample) -> Result<(), Refusal> {
        if !sample_in_range(two) {
            return Err(Refusal::OutOfRange);
        }
        let TwoSample { sample, second } = *two;
        let elapsed = sample.stamp.wrapping_sub(self.sample.stamp);
        if elapsed > MOST_AHEAD_MS {
            return Err(Refusal::StampAhead);
        }
        self.count_stage(elapsed);
        self.count_watchdog(elapsed);
        self.sample = sample;
        self.second = second;
        Ok(())
    }

    fn set(&mut self, number: u32, value: u32) -> Result<(), Refusal> {
        let setting = Setting::numbered(number).ok_or(Refusal::UnknownSetting)?;
        if !setting.range().takes(value) {
            return Err(Refusal::SettingValue);
        }
        self.settings[setting] = value;
        Ok(())
    }

    /// "Register reset restores start values, from the held codes, and the
    /// resets above, clears overrides, cycle and watchdog count; it leaves
    /// pin codes, flags, comparators and 0x19 bit 7." It "leaves what is held"
    /// of the bands, "as it leaves comparators".
    pub(crate) fn reset(&mut self) {
        self.settings = Settings::at_start(&self.pins);
        self.stored = self.stored.reset();
        self.cycle = Cycle::default();
        self.watchdog = 0;
    }

    /// What an event other than a power-on does before settling.
    pub(crate) fn apply(&mut self, event: &Event) -> Result<(), Refusal> {
        match event {
            Event::PowerOn(_) | Event::PowerOnResistors(_) | Event::PowerOnEdition(_) => {}
            Event::TakeFlags => {}
            Event::Set { number, value } => self.set(*number, *value)?,
            Event::Write { address, byte } => registers::write(self, *address, *byte)?,
            Event::Observe(sample) => self.observe(&sample.of_two())?,
            Event::ObserveTwo(two) => self.observe(two)?,
            Event::Service => self.watchdog = 0,
            Event::Reset => self.reset(),
            Event::WriteRun(run) => runs::write(self, run)?,
            Event::ReadFlags { address } => registers::is_flag_register(*address)?,
        }
        Ok(())
    }

    pub(crate) fn pulses(&self, edges: u32) -> bool {
        edges & !self.settings[Setting::Masks] != 0
    }
}
