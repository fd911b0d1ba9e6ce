//! The register map, 0x00-0x26: tables 6-14 to 6-44 of the data sheet, a row
//! for each field that isn't reserved, and what is read there.

use crate::band;
use crate::edges;
use crate::event::{IINDPM, SHUTDOWN, THERMAL, VINDPM};
use crate::settings::Setting;
use crate::state::{phase, State};

/// The highest address. The map begins at 0 and has no hole.
pub const LAST: u32 = 0x26;

/// "Reads outside the map return 0xFF, not 10."
const OUTSIDE: u8 = 0xFF;

/// A field: its bits of a register, and what stands there.
#[derive(Clone, Copy, Debug)]
pub struct Field {
    /// The sheet's name.
    pub name: &'static str,
    /// The register's address. "Sixteen-bit registers are little-endian":
    /// bits 8 to 15 are those of the next address.
    pub address: u32,
    /// The highest bit.
    pub high: u32,
    /// The lowest bit.
    pub low: u32,
    /// What stands there.
    pub holds: Holds,
}

/// What stands in a field.
#[derive(Clone, Copy, Debug)]
pub enum Holds {
    /// A code that is only stored.
    Stored {
        /// The code after a power-on.
        reset: u32,
        /// Whether the sheet has it "Reset by: REG_RESET".
        restored: bool,
    },
    /// A setting, in so many mV or mA to the code.
    Setting {
        /// The setting.
        setting: Setting,
        /// The unit.
        unit: u32,
    },
    /// Whether all these bits of setting 14 are 1.
    Masks(u32),
    /// Whether one of these flags is held.
    Flags(u32),
    /// A code that the state shows.
    Shown(fn(&State) -> u32),
    /// The sheet's reset: the paper has no word of the field, or a written 1
    /// acts and isn't kept.
    Fixed(u32),
}

impl Field {
    const fn new(name: &'static str, address: u32, bits: (u32, u32), holds: Holds) -> Field {
        Field { name, address, high: bits.0, low: bits.1, holds }
    }

    /// The greatest code that the field's bits have.
    pub fn most(&self) -> u32 {
        (1 << (self.high - self.low + 1)) - 1
    }

    /// The bits of a code in the byte at an address. A code that is too large,
    /// of a handed-in model, has its low bits there.
    pub fn bits_at(&self, address: u32, code: u32) -> u8 {
        let bytes = ((code & self.most()) << self.low).to_le_bytes();
        let byte = address.checked_sub(self.address).and_then(|at| bytes.get(at as usize));
        byte.copied().unwrap_or(0)
    }

    fn code(&self, state: &State) -> u32 {
        match self.holds {
            Holds::Stored { .. } => state.stored.code(self),
            Holds::Setting { setting, unit } => state.settings[setting] / unit,
            Holds::Masks(bits) => u32::from(state.settings[Setting::Masks] & bits == bits),
            Holds::Flags(bits) => u32::from(state.flags & bits != 0),
            Holds::Shown(code) => code(state),
            Holds::Fixed(code) => code,
        }
    }
}

/// The byte that is read at any address: what its fields hold; reserved bits
/// are 0.
pub fn byte(state: &State, address: u32) -> u8 {
    if address > LAST {
        return OUTSIDE;
    }
    let here = FIELDS.iter().filter(|field| (field.address..field.address + 2).contains(&address));
    here.fold(0, |byte, field| byte | field.bits_at(address, field.code(state)))
}

/// "Status fields are read from the model's phase": 1-4 are as they are, done
/// is the sheet's 111b, and the others don't charge.
fn charge_stat(state: &State) -> u32 {
    match state.phase {
        charging @ phase::TRICKLE..=phase::TAPER => charging,
        phase::DONE => 7,
        _ => 0,
    }
}

/// A stored field that a register reset restores.
const fn stored(name: &'static str, address: u32, bits: (u32, u32), reset: u32) -> Field {
    Field::new(name, address, bits, Holds::Stored { reset, restored: true })
}

/// A stored field without the sheet's mark: a register reset leaves it.
const fn unmarked(name: &'static str, address: u32, bits: (u32, u32), reset: u32) -> Field {
    Field::new(name, address, bits, Holds::Stored { reset, restored: false })
}

const fn setting(
    name: &'static str,
    address: u32,
    bits: (u32, u32),
    setting: Setting,
    unit: u32,
) -> Field {
    Field::new(name, address, bits, Holds::Setting { setting, unit })
}

const fn mask(name: &'static str, address: u32, bit: u32, bits: u32) -> Field {
    Field::new(name, address, (bit, bit), Holds::Masks(bits))
}

const fn flag(name: &'static str, address: u32, bit: u32, bits: u32) -> Field {
    Field::new(name, address, (bit, bit), Holds::Flags(bits))
}

const fn shown(
    name: &'static str,
    address: u32,
    bits: (u32, u32),
    code: fn(&State) -> u32,
) -> Field {
    Field::new(name, address, bits, Holds::Shown(code))
}

const fn fixed(name: &'static str, address: u32, bits: (u32, u32), reset: u32) -> Field {
    Field::new(name, address, bits, Holds::Fixed(reset))
}

/// The fields by their addresses, highest bit first.
pub static FIELDS: [Field; 120] = [
    setting("VSYSMIN", 0x00, (14, 4), Setting::Vsysmin, 20),
    setting("ICHG", 0x02, (11, 4), Setting::Ichg, 20),
    setting("VREG", 0x04, (14, 3), Setting::Vreg, 10),
    setting("IINDPM", 0x06, (11, 4), Setting::Iindpm, 20),
    unmarked("VINDPM", 0x08, (14, 4), 0x91),
    stored("IIN_REV", 0x0A, (11, 4), 0xA5),
    stored("VIN_REV", 0x0C, (14, 4), 0xFA),
    setting("IPRECHG", 0x0E, (5, 0), Setting::Iprechg, 20),
    setting("ITERM", 0x0F, (5, 0), Setting::Iterm, 20),
    fixed("REG_RST", 0x10, (7, 7), 0),
    setting("DIS_STAT", 0x10, (6, 6), Setting::DisStatPin, 1),
    setting("VRECHG", 0x10, (5, 4), Setting::Vrechg, 1),
    setting("EN_TERM", 0x10, (3, 3), Setting::EnTerm, 1),
    setting("VBAT_LOWV", 0x10, (2, 1), Setting::VbatLowv, 1),
    stored("EN_PRECHG", 0x10, (0, 0), 1),
    stored("TOPOFF_TMR", 0x11, (7, 6), 0),
    stored("WATCHDOG", 0x11, (5, 4), 1),
    stored("EN_CHG_TMR", 0x11, (3, 3), 1),
    stored("CHG_TMR", 0x11, (2, 1), 2),
    stored("EN_TMR2X", 0x11, (0, 0), 1),
    stored("IBAT_REV", 0x12, (7, 6), 2),
    stored("RBAT_SNS", 0x12, (5, 5), 0),
    stored("EN_BYPASS", 0x12, (4, 4), 0),
    stored("EN_EXT_BYPASS", 0x12, (3, 3), 0),
    fixed("WD_RST", 0x12, (2, 2), 0),
    unmarked("STOP_WD_CHG", 0x12, (1, 1), 0),
    stored("PRECHG_TMR", 0x12, (0, 0), 0),
    stored("EN_AUTO_DSCHG", 0x13, (7, 7), 1),
    stored("FORCE_ISYS_DSCHG", 0x13, (6, 6), 0),
    setting("EN_CHG", 0x13, (5, 5), Setting::EnChg, 1),
    setting("EN_HIZ", 0x13, (4, 4), Setting::EnHiz, 1),
    stored("FORCE_VIN_DSCHG", 0x13, (3, 3), 0),
    stored("RAC_SNS", 0x13, (2, 2), 0),
    stored("EN_REV", 0x13, (1, 1), 0),
    stored("EN_BACKUP", 0x13, (0, 0), 0),
    stored("VIN_BACKUP", 0x14, (7, 6), 0),
    setting("EN_EXTILIM", 0x14, (5, 5), Setting::EnExtilim, 1),
    stored("BATFET_CTRL", 0x14, (4, 4), 0),
    stored("EN_BAT_DETECT", 0x14, (3, 3), 1),
    stored("FORCE_VINDPM", 0x14, (2, 2), 0),
    stored("FORCE_ICO", 0x14, (1, 1), 0),
    stored("EN_ICO", 0x14, (0, 0), 0),
    stored("EN_FAST_VOTG_RESPONSE", 0x15, (3, 3), 0),
    stored("VBAT_DETECT", 0x15, (1, 0), 0),
    stored("EN_PFM", 0x16, (7, 7), 1),
    stored("EN_PFM_OOA", 0x16, (6, 6), 1),
    stored("TREG", 0x16, (5, 5), 1),
    stored("EN_DITHER", 0x16, (4, 3), 0),
    stored("FSW", 0x16, (2, 0), 1),
    stored("VOC_PCT", 0x17, (7, 5), 5),
    stored("VOC_DLY", 0x17, (4, 3), 1),
    stored("VOC_RATE", 0x17, (2, 1), 1),
    stored("EN_MPPT", 0x17, (0, 0), 0),
    stored("TS_TH5", 0x18, (7, 6), 2),
    stored("TS_TH3", 0x18, (5, 4), 1),
    stored("TS_TH2", 0x18, (3, 2), 1),
    stored("TS_TH1", 0x18, (1, 0), 1),
    unmarked("EN_BYPASS_LL_EXIT", 0x19, (7, 7), 1),
    stored("JEITA_VSET", 0x19, (6, 5), 2),
    stored("JEITA_ISETH", 0x19, (4, 4), 1),
    stored("JEITA_ISETC", 0x19, (3, 2), 1),
    stored("EN_JEITA", 0x19, (1, 1), 1),
    stored("EN_TS", 0x19, (0, 0), 1),
    stored("TS_REV_HOT", 0x1A, (7, 6), 1),
    stored("TS_REV_COLD", 0x1A, (5, 5), 0),
    stored("CV_TMR", 0x1A, (3, 0), 0),
    stored("VCHG_PIN_OVERRIDE", 0x1B, (7, 7), 0),
    stored("CELL_PIN_OVERRIDE", 0x1B, (6, 6), 0),
    shown("VCHG_PIN", 0x1B, (5, 3), |state| state.pins.vchg),
    shown("CELL_PIN", 0x1B, (2, 0), |state| state.pins.cell),
    stored("ICHG_PIN_OVERRIDE", 0x1C, (3, 3), 0),
    shown("ICHG_PIN", 0x1C, (2, 0), |state| state.pins.ichg),
    shown("PG_STAT", 0x1D, (7, 7), |state| state.comparators.input_good().into()),
    shown("IINDPM_STAT", 0x1D, (6, 6), |state| state.sample.shows(IINDPM).into()),
    shown("VINDPM_STAT", 0x1D, (5, 5), |state| state.sample.shows(VINDPM).into()),
    shown("TREG_STAT", 0x1D, (4, 4), |state| state.sample.shows(THERMAL).into()),
    shown("WD_STAT", 0x1D, (3, 3), |state| state.watchdog_expired().into()),
    shown("CHARGE_STAT", 0x1D, (2, 0), charge_stat),
    fixed("ICO_STAT", 0x1E, (6, 5), 0),
    fixed("REV_STAT", 0x1E, (4, 3), 0),
    shown("TS_STAT", 0x1E, (2, 0), |state| band::of_state(state).number()),
    shown("VIN_OVP_STAT", 0x1F, (7, 7), |state| state.comparators.vin_over.into()),
    shown("BAT_FAULT_STAT", 0x1F, (6, 5), |state| 2 * u32::from(state.comparators.battery_over)),
    shown("CHG_TMR_STAT", 0x1F, (4, 4), |state| state.limit_reached().into()),
    fixed("CV_TMR_STAT", 0x1F, (3, 3), 0),
    shown("TSHUT_STAT", 0x1F, (2, 2), |state| state.sample.shows(SHUTDOWN).into()),
    fixed("REV_TERM_STAT", 0x1F, (0, 0), 0),
    flag("PG_FLAG", 0x20, 7, edges::INPUT_GOOD | edges::INPUT_LOST),
    flag("IINDPM_FLAG", 0x20, 6, edges::IINDPM_BEGINS),
    flag("VINDPM_FLAG", 0x20, 5, edges::VINDPM_BEGINS),
    flag("TREG_FLAG", 0x20, 4, edges::THERMAL_BEGINS),
    flag("WD_FLAG", 0x20, 3, edges::WATCHDOG_EXPIRED),
    fixed("ICO_FLAG", 0x20, (2, 2), 0),
    flag("TS_FLAG", 0x20, 1, edges::BAND_CHANGED),
    flag("CHARGE_FLAG", 0x20, 0, edges::PHASE_CHANGED),
    flag("VIN_OVP_FLAG", 0x21, 7, edges::VIN_OVER),
    flag("BAT_FAULT_FLAG", 0x21, 6, edges::BATTERY_OVER),
    flag("CHG_TMR_FLAG", 0x21, 5, edges::LIMIT_REACHED),
    fixed("CV_TMR_FLAG", 0x21, (4, 4), 0),
    flag("TSHUT_FLAG", 0x21, 3, edges::SHUTDOWN_BEGINS),
    fixed("BYPASS_FLAG", 0x21, (2, 2), 0),
    fixed("REV_FLAG", 0x21, (0, 0), 0),
    mask("PG_MASK", 0x22, 7, edges::INPUT_GOOD | edges::INPUT_LOST),
    mask("IINDPM_MASK", 0x22, 6, edges::IINDPM_BEGINS),
    mask("VINDPM_MASK", 0x22, 5, edges::VINDPM_BEGINS),
    mask("TREG_MASK", 0x22, 4, edges::THERMAL_BEGINS),
    mask("WD_MASK", 0x22, 3, edges::WATCHDOG_EXPIRED),
    stored("ICO_MASK", 0x22, (2, 2), 0),
    mask("TS_MASK", 0x22, 1, edges::BAND_CHANGED),
    mask("CHARGE_MASK", 0x22, 0, edges::PHASE_CHANGED),
    mask("VIN_OVP_MASK", 0x23, 7, edges::VIN_OVER),
    mask("BAT_FAULT_MASK", 0x23, 6, edges::BATTERY_OVER),
    mask("CHG_TMR_MASK", 0x23, 5, edges::LIMIT_REACHED),
    stored("CV_TMR_MASK", 0x23, (4, 4), 0),
    mask("TSHUT_MASK", 0x23, 3, edges::SHUTDOWN_BEGINS),
    stored("BYPASS_MASK", 0x23, (2, 2), 0),
    stored("REV_MASK", 0x23, (0, 0), 0),
    fixed("ICO_IINDPM", 0x24, (11, 4), 0xA5),
    fixed("PN", 0x26, (5, 2), 1),
    fixed("DEV_REV", 0x26, (1, 0), 1),
];
