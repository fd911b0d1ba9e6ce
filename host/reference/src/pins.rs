//! The detected pin codes, their overrides and the clamps they make.

use crate::volts::CellMv;

/// The charge current with its clamp overridden, mA.
pub const MOST_CHARGE_CURRENT: u32 = 3_300;

/// The maker's resistors for codes 1 to 7, ohms; the same at all three pins.
pub const RESISTORS: [u32; 7] = [4_640, 6_040, 8_250, 10_500, 13_700, 16_900, 27_400];

const VCHG_PER_CELL: [u32; 8] = [0, 3_500, 3_600, 4_000, 4_100, 4_200, 4_300, 4_350];
const ICHG: [u32; 8] = [0, 100, 500, 1_000, 1_500, 2_000, 2_500, 3_300];

/// The held pin codes, 0-7; 0 is a fault.
#[derive(Clone, Copy, Debug, PartialEq, Eq)]
pub struct Pins {
    /// CELL_PIN: the count of cells.
    pub cell: u32,
    /// VCHG_PIN.
    pub vchg: u32,
    /// ICHG_PIN.
    pub ichg: u32,
}

impl Pins {
    /// The voltage per cell that the vchg code stands for; 0 for a fault.
    pub fn vchg_value(&self) -> CellMv {
        CellMv(looked_up(&VCHG_PER_CELL, self.vchg))
    }

    /// The current that the ichg code stands for; 0 for a fault.
    pub fn ichg_value(&self) -> u32 {
        looked_up(&ICHG, self.ichg)
    }
}

fn looked_up(table: &[u32; 8], code: u32) -> u32 {
    table.get(code as usize).copied().unwrap_or(0)
}

/// The code that a resistor stands for; "no match is code 0, a pin fault".
pub fn code_of(ohms: u32) -> u32 {
    let found = (1..).zip(RESISTORS).find(|(_, resistor)| matches(ohms, *resistor));
    found.map_or(0, |(code, _)| code)
}

/// Whether ohms match one of the maker's resistors: "within 2% either way, in
/// whole numbers", of the maker's, by multiplying, both ends included.
pub fn matches(ohms: u32, resistor: u32) -> bool {
    100 * u64::from(ohms.abs_diff(resistor)) <= 2 * u64::from(resistor)
}

/// The three override bits of 0x1B and 0x1C.
#[derive(Clone, Copy, Debug, PartialEq, Eq, Default)]
pub struct Overrides {
    /// VCHG_PIN_OVERRIDE.
    pub vchg: bool,
    /// CELL_PIN_OVERRIDE.
    pub cell: bool,
    /// ICHG_PIN_OVERRIDE.
    pub ichg: bool,
}
