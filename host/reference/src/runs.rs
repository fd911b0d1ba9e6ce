//! Runs of written bytes (kind 8): "taken whole or not at all".

use crate::event::Run;
use crate::map::{Field, Holds, FIELDS, LAST};
use crate::refusal::Refusal;
use crate::registers::take_count;
use crate::settings::Setting;
use crate::state::State;
use crate::stored::frequency_is_known;

/// The registers of sixteen bits, by their lower halves.
pub const SIXTEEN_BITS: [u32; 8] = [0x00, 0x02, 0x04, 0x06, 0x08, 0x0A, 0x0C, 0x24];

const FREQUENCY: u32 = 0x16;
const PINS_1: u32 = 0x1B;

/// REG_RST: 0x10 bit 7.
const RESET: (u32, u8) = (0x10, 0x80);
/// WD_RST: 0x12 bit 2.
const SERVICE: (u32, u8) = (0x12, 0x04);

/// The bytes that a run writes, at their addresses, none of which is outside
/// the map.
struct Bytes<'run> {
    first: u32,
    bytes: &'run [u8],
}

impl Bytes<'_> {
    /// "a run touching an address outside the map [...] is 10"; no address
    /// wraps.
    fn of(run: &Run) -> Result<Bytes<'_>, Refusal> {
        let bytes = run.written().ok_or(Refusal::OutOfRange)?;
        let last = u64::from(run.address) + bytes.len() as u64 - 1;
        if last > u64::from(LAST) {
            return Err(Refusal::UnknownAddress);
        }
        Ok(Bytes { first: run.address, bytes })
    }

    fn last(&self) -> u32 {
        self.first + self.bytes.len() as u32 - 1
    }

    fn at(&self, address: u32) -> Option<u8> {
        let place = address.checked_sub(self.first)?;
        self.bytes.get(place as usize).copied()
    }

    /// Whether one of a byte's bits is written 1.
    fn has(&self, (address, bits): (u32, u8)) -> bool {
        self.at(address).is_some_and(|byte| byte & bits != 0)
    }

    /// The code written to a field, if its register is. "Sixteen-bit registers
    /// are little-endian".
    fn code(&self, field: &Field) -> Option<u32> {
        let lower = self.at(field.address)?;
        let upper = self.at(field.address + 1).unwrap_or(0);
        Some(u32::from(u16::from_le_bytes([lower, upper])) >> field.low & field.most())
    }

    /// Whether the run begins with an upper half or ends with a lower one.
    fn halves_a_register(&self) -> bool {
        SIXTEEN_BITS.iter().any(|lower| self.first == lower + 1 || self.last() == *lower)
    }

    /// "15, half of a sixteen-bit register, after 10, then 11; a field value
    /// that its setting can't hold is 9, last."
    fn judge(&self) -> Result<(), Refusal> {
        if self.halves_a_register() {
            return Err(Refusal::HalfRegister);
        }
        if self.at(FREQUENCY).is_some_and(|byte| !frequency_is_known(byte)) {
            return Err(Refusal::Frequency);
        }
        if !FIELDS.iter().all(|field| self.can_be_held(field)) {
            return Err(Refusal::SettingValue);
        }
        Ok(())
    }

    fn can_be_held(&self, field: &Field) -> bool {
        match (field.holds, self.code(field)) {
            (Holds::Setting { setting, unit }, Some(code)) => setting.range().takes(code * unit),
            _ => true,
        }
    }
}

/// Takes a run into a powered model: all is judged, as written, before
/// anything changes. "Reset and service bits act as kinds 7 and 6 after the
/// run's other bytes."
pub fn write(state: &mut State, run: &Run) -> Result<(), Refusal> {
    let bytes = Bytes::of(run)?;
    bytes.judge()?;
    for address in bytes.first..=bytes.last() {
        take(state, &bytes, address);
    }
    if bytes.has(RESET) {
        state.reset();
    }
    if bytes.has(SERVICE) {
        state.watchdog = 0;
    }
    Ok(())
}

/// Takes one register's byte. A field of sixteen bits is taken with its lower
/// half's; a count of cells by its rule, before the override beside it is.
fn take(state: &mut State, bytes: &Bytes, address: u32) {
    for field in FIELDS.iter().filter(|field| field.address == address) {
        if let Some(code) = bytes.code(field) {
            take_field(state, field, code);
        }
    }
    let Some(byte) = bytes.at(address) else { return };
    if address == PINS_1 {
        take_count(state, byte);
    }
    state.stored.write(address, byte);
}

/// Takes a field that is a setting or a mask. Stored fields are taken by their
/// bytes; the others are read-only.
fn take_field(state: &mut State, field: &Field, code: u32) {
    match field.holds {
        Holds::Setting { setting, unit } => state.settings[setting] = code * unit,
        Holds::Masks(bits) if code == 1 => state.settings[Setting::Masks] |= bits,
        Holds::Masks(bits) => state.settings[Setting::Masks] &= !bits,
        _ => {}
    }
}
