//! The stored fields: what the host writes and the model only keeps, by the
//! bytes of their addresses. Some of them the rules read.

use std::sync::LazyLock;

use crate::map::{Field, Holds, FIELDS};
use crate::pins::Overrides;

/// How many bytes are held: those of 0x00-0x27. The map ends at 0x26, and a
/// model that is handed in has whole words of four bytes.
pub const LENGTH: usize = 0x28;

const FREQUENCY: u32 = 0x16;
const THRESHOLDS: u32 = 0x18;
const BEHAVIOUR: u32 = 0x19;
const PINS_1: u32 = 0x1B;
const PINS_2: u32 = 0x1C;

/// 0x16 bits 2:0.
const FSW: u8 = 0x07;
/// 0x1B bit 7.
const VCHG_OVERRIDE: u8 = 0x80;
/// 0x1B bit 6.
const CELL_OVERRIDE: u8 = 0x40;
/// 0x1C bit 3.
const ICHG_OVERRIDE: u8 = 0x08;

const TH5: [u32; 4] = [41_200, 37_700, 34_375, 31_250];
const TH3: [u32; 4] = [48_400, 44_750, 41_200, 37_700];
const TH2: [u32; 4] = [70_900, 68_250, 65_350, 62_250];
const TH1: [u32; 4] = [77_150, 75_320, 73_300, 70_900];

/// The bits that are some stored field's.
pub static WRITABLE: LazyLock<[u8; LENGTH]> = LazyLock::new(|| laid(|_, _| u32::MAX));

static RESETS: LazyLock<[u8; LENGTH]> = LazyLock::new(|| laid(|reset, _| reset));

/// The bits that a register reset restores.
static RESTORED: LazyLock<[u8; LENGTH]> =
    LazyLock::new(|| laid(|_, restored| if restored { u32::MAX } else { 0 }));

/// The bytes in which every stored field has the code that `code` makes of its
/// reset, and of whether a register reset restores it.
fn laid(code: fn(u32, bool) -> u32) -> [u8; LENGTH] {
    let mut bytes = [0; LENGTH];
    for field in FIELDS {
        if let Holds::Stored { reset, restored } = field.holds {
            for (address, byte) in (0..).zip(&mut bytes) {
                *byte |= field.bits_at(address, code(reset, restored));
            }
        }
    }
    bytes
}

/// The bytes of 0x00-0x27; bits that are no stored field's are 0.
#[derive(Clone, Copy, Debug, PartialEq, Eq)]
pub struct Stored(pub [u8; LENGTH]);

impl Stored {
    /// The fields after a power-on.
    pub fn at_power_on() -> Stored {
        Stored(*RESETS)
    }

    /// The fields after a register reset. It leaves those that the sheet
    /// doesn't mark 'Reset by: REG_RESET', as the paper's "leaves [...] 0x19
    /// bit 7".
    pub fn reset(self) -> Stored {
        let bytes = self.0.iter().zip(*RESETS).zip(*RESTORED);
        let mut stored = self;
        for (byte, ((held, reset), restored)) in stored.0.iter_mut().zip(bytes) {
            *byte = held & !restored | reset & restored;
        }
        stored
    }

    fn byte(&self, address: u32) -> u8 {
        self.0[address as usize]
    }

    /// The code of a stored field.
    pub fn code(&self, field: &Field) -> u32 {
        let halves = [self.byte(field.address), self.byte(field.address + 1)];
        u32::from(u16::from_le_bytes(halves)) >> field.low & field.most()
    }

    /// Takes the bits of a written byte that are stored fields'.
    pub fn write(&mut self, address: u32, byte: u8) {
        self.0[address as usize] = byte & WRITABLE[address as usize];
    }

    /// The override bits.
    pub fn overrides(&self) -> Overrides {
        Overrides {
            vchg: self.byte(PINS_1) & VCHG_OVERRIDE != 0,
            cell: self.byte(PINS_1) & CELL_OVERRIDE != 0,
            ichg: self.byte(PINS_2) & ICHG_OVERRIDE != 0,
        }
    }

    /// "all three overrides clear"
    pub fn clear_overrides(&mut self) {
        self.0[PINS_1 as usize] &= !(VCHG_OVERRIDE | CELL_OVERRIDE);
        self.0[PINS_2 as usize] &= !ICHG_OVERRIDE;
    }

    fn threshold(&self, table: [u32; 4], shift: u32) -> u32 {
        table[usize::from(self.byte(THRESHOLDS) >> shift & 3)]
    }

    /// The hot threshold (0x18 bits 7:6).
    pub fn th5(&self) -> u32 {
        self.threshold(TH5, 6)
    }

    /// The warm threshold (0x18 bits 5:4).
    pub fn th3(&self) -> u32 {
        self.threshold(TH3, 4)
    }

    /// The cool threshold (0x18 bits 3:2).
    pub fn th2(&self) -> u32 {
        self.threshold(TH2, 2)
    }

    /// The cold threshold (0x18 bits 1:0).
    pub fn th1(&self) -> u32 {
        self.threshold(TH1, 0)
    }

    /// JEITA_VSET (0x19 bits 6:5).
    pub fn jeita_vset(&self) -> u8 {
        self.byte(BEHAVIOUR) >> 5 & 3
    }

    /// JEITA_ISETH (0x19 bit 4).
    pub fn jeita_iseth(&self) -> bool {
        self.byte(BEHAVIOUR) & 0x10 != 0
    }

    /// JEITA_ISETC (0x19 bits 3:2).
    pub fn jeita_isetc(&self) -> u8 {
        self.byte(BEHAVIOUR) >> 2 & 3
    }

    /// EN_JEITA (0x19 bit 1).
    pub fn en_jeita(&self) -> bool {
        self.byte(BEHAVIOUR) & 2 != 0
    }

    /// EN_TS (0x19 bit 0).
    pub fn en_ts(&self) -> bool {
        self.byte(BEHAVIOUR) & 1 != 0
    }

    /// Whether accepted events can give these bytes: bits that are no stored
    /// field's 0, and FSW 1-6.
    pub fn may_hold(&self) -> bool {
        let stored_alone = self.0.iter().zip(*WRITABLE).all(|(byte, mask)| byte & !mask == 0);
        stored_alone && frequency_is_known(self.byte(FREQUENCY))
    }
}

/// Whether FSW of a byte of 0x16 is one that the sheet lists.
pub fn frequency_is_known(byte: u8) -> bool {
    (1..=6).contains(&(byte & FSW))
}
