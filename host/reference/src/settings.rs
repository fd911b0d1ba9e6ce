//! The fourteen settings, their ranges and their start values.

use std::ops::{Index, IndexMut};

use crate::pins::Pins;
use crate::volts::CellMv;

/// A setting; the discriminant is its number.
#[derive(Clone, Copy, Debug, PartialEq, Eq)]
#[repr(u32)]
pub enum Setting {
    /// Charge voltage of the pack, mV.
    Vreg = 1,
    /// Charge current, mA.
    Ichg = 2,
    /// Precharge current, mA.
    Iprechg = 3,
    /// Termination current, mA.
    Iterm = 4,
    /// Input current limit, mA.
    Iindpm = 5,
    /// Least system voltage, mV.
    Vsysmin = 6,
    /// Where precharge ends, by code.
    VbatLowv = 7,
    /// Where a charge restarts, by code.
    Vrechg = 8,
    /// Charging is enabled.
    EnChg = 9,
    /// Termination is enabled.
    EnTerm = 10,
    /// High impedance is asked for.
    EnHiz = 11,
    /// The ILIM_HIZ pin counts.
    EnExtilim = 12,
    /// The STAT pin is disabled.
    DisStatPin = 13,
    /// Masks of the flags' pulses.
    Masks = 14,
}

impl Setting {
    /// All settings, in the order of their numbers.
    pub const ALL: [Setting; 14] = [
        Setting::Vreg,
        Setting::Ichg,
        Setting::Iprechg,
        Setting::Iterm,
        Setting::Iindpm,
        Setting::Vsysmin,
        Setting::VbatLowv,
        Setting::Vrechg,
        Setting::EnChg,
        Setting::EnTerm,
        Setting::EnHiz,
        Setting::EnExtilim,
        Setting::DisStatPin,
        Setting::Masks,
    ];

    /// The setting with this number, if it is 1-14.
    pub fn numbered(number: u32) -> Option<Setting> {
        Setting::ALL.into_iter().find(|setting| setting.number() == number)
    }

    /// The setting's number.
    pub fn number(self) -> u32 {
        self as u32
    }

    /// What the setting may be.
    pub fn range(self) -> Range {
        let (least, most, step) = match self {
            Setting::Vreg => (2_400, 33_000, 10),
            Setting::Ichg | Setting::Iindpm => (40, 3_300, 20),
            Setting::Iprechg | Setting::Iterm => (20, 620, 20),
            Setting::Vsysmin => (3_000, 28_000, 20),
            Setting::VbatLowv | Setting::Vrechg => (0, 3, 1),
            Setting::EnChg
            | Setting::EnTerm
            | Setting::EnHiz
            | Setting::EnExtilim
            | Setting::DisStatPin => (0, 1, 1),
            Setting::Masks => (0, 4_095, 1),
        };
        Range { least, most, step }
    }

    fn index(self) -> usize {
        self as usize - 1
    }
}

/// The values a setting may take.
#[derive(Clone, Copy, Debug, PartialEq, Eq)]
pub struct Range {
    /// The least.
    pub least: u32,
    /// The greatest.
    pub most: u32,
    /// The distance between neighbours.
    pub step: u32,
}

impl Range {
    /// Whether `value` is in the range and on its step.
    pub fn takes(self, value: u32) -> bool {
        let past_a_step = value.saturating_sub(self.least) % self.step;
        (self.least..=self.most).contains(&value) && past_a_step == 0
    }
}

/// The values of all settings.
#[derive(Clone, Copy, Debug, PartialEq, Eq)]
pub struct Settings(pub [u32; 14]);

impl Settings {
    /// The start values under these pin codes.
    pub fn at_start(pins: &Pins) -> Settings {
        let mut settings = Settings([0; 14]);
        for setting in Setting::ALL {
            settings[setting] = start_value(setting, pins);
        }
        settings
    }

    /// Whether a 0-1 setting is 1.
    pub fn is_on(&self, setting: Setting) -> bool {
        self[setting] == 1
    }
}

impl Index<Setting> for Settings {
    type Output = u32;

    fn index(&self, setting: Setting) -> &u32 {
        &self.0[setting.index()]
    }
}

impl IndexMut<Setting> for Settings {
    fn index_mut(&mut self, setting: Setting) -> &mut u32 {
        &mut self.0[setting.index()]
    }
}

/// "start values are house"
fn start_value(setting: Setting, pins: &Pins) -> u32 {
    match setting {
        Setting::Vreg => vreg_start(pins),
        Setting::Ichg => ichg_start(pins),
        Setting::Iprechg => 120,
        Setting::Iterm => 60,
        Setting::Iindpm => 3_300,
        Setting::Vsysmin => vsysmin_start(pins),
        Setting::VbatLowv | Setting::Vrechg => 3,
        Setting::EnChg | Setting::EnTerm | Setting::EnExtilim => 1,
        Setting::EnHiz | Setting::DisStatPin | Setting::Masks => 0,
    }
}

/// "starts at vchg x cells (either code 0: 2,400)"
fn vreg_start(pins: &Pins) -> u32 {
    match (pins.vchg, pins.cell) {
        (0, _) | (_, 0) => 2_400,
        (_, cells) => pins.vchg_value().times(cells).0,
    }
}

/// "starts at its pin (code 0: 40)"
fn ichg_start(pins: &Pins) -> u32 {
    match pins.ichg {
        0 => 40,
        _ => pins.ichg_value(),
    }
}

/// "starts 3,100 x cells (one cell 3,500; code 0: 3,000)"
pub fn vsysmin_start(pins: &Pins) -> u32 {
    match pins.cell {
        0 => 3_000,
        1 => 3_500,
        cells => CellMv(3_100).times(cells).0,
    }
}

#[cfg(test)]
mod tests {
    use super::*;

    #[test]
    fn every_start_value_is_one_its_setting_takes() {
        for codes in 0..512 {
            let pins = Pins { cell: codes % 8, vchg: codes / 8 % 8, ichg: codes / 64 };
            let settings = Settings::at_start(&pins);
            for setting in Setting::ALL {
                assert!(setting.range().takes(settings[setting]), "{pins:?} {setting:?}");
            }
        }
    }

    #[test]
    fn numbers_are_one_to_fourteen() {
        assert_eq!(Setting::numbered(0), None);
        assert_eq!(Setting::numbered(15), None);
        for (number, setting) in (1..).zip(Setting::ALL) {
            assert_eq!(Setting::numbered(number), Some(setting));
        }
    }
}
