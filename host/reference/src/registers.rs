//! The host's reads of any address, those of a flag register that clear it
//! (kind 14), and its writes of 0x15-0x1C (kind 3).

use crate::map;
use crate::model::Model;
use crate::refusal::Refusal;
use crate::settings::{vsysmin_start, Setting};
use crate::state::State;
use crate::stored::frequency_is_known;

/// The lowest address that is written.
pub const FIRST: u32 = 0x15;
/// The highest address that is written.
pub const LAST: u32 = 0x1C;

const FREQUENCY: u32 = 0x16;
const PINS_1: u32 = 0x1B;

/// The flag registers.
const CHARGER_FLAG: u32 = 0x20;
const FAULT_FLAG: u32 = 0x21;

/// 0x1B bits 2:0.
const CELL_COUNT: u8 = 0x07;

/// Reads one register, any address. "Reads change nothing and can refuse with
/// 6".
pub fn read_register(model: &Model, address: u32) -> Result<u8, Refusal> {
    match model {
        Model::Off => Err(Refusal::NotPowered),
        Model::On(state) => Ok(map::byte(state, address)),
    }
}

/// The flags that a read of a flag register clears, "its own": bits 0-7 for
/// 0x20, 8-11 for 0x21. No other register has any.
pub fn flags_at(address: u32) -> Option<u32> {
    match address {
        CHARGER_FLAG => Some(0x0FF),
        FAULT_FLAG => Some(0xF00),
        _ => None,
    }
}

/// Judges the address of a read that clears: "kind 14 on no flag register, is
/// 10".
pub fn is_flag_register(address: u32) -> Result<(), Refusal> {
    flags_at(address).map(|_| ()).ok_or(Refusal::UnknownAddress)
}

/// Takes a write into a powered model. "Model order: 6, 10, 5, 11 for
/// writes": a bad address comes before a bad byte.
pub fn write(state: &mut State, address: u32, byte: u32) -> Result<(), Refusal> {
    if !(FIRST..=LAST).contains(&address) {
        return Err(Refusal::UnknownAddress);
    }
    let byte = u8::try_from(byte).map_err(|_| Refusal::OutOfRange)?;
    match address {
        FREQUENCY if !frequency_is_known(byte) => return Err(Refusal::Frequency),
        PINS_1 => take_count(state, byte),
        _ => {}
    }
    state.stored.write(address, byte);
    Ok(())
}

/// "CELL_PIN takes a written count only if CELL_PIN_OVERRIDE stood before
/// the write": the count is judged before the byte's own override bits are
/// taken. They are taken whether the count is or not.
pub(crate) fn take_count(state: &mut State, byte: u8) {
    let count = u32::from(byte & CELL_COUNT);
    if state.overrides().cell && count != 0 && count != state.pins.cell {
        change_cells(state, count);
    }
}

/// "Then VSYSMIN takes its start value and VREG becomes vchg x count
/// (unchanged if vchg is 0)."
fn change_cells(state: &mut State, count: u32) {
    state.pins.cell = count;
    state.settings[Setting::Vsysmin] = vsysmin_start(&state.pins);
    if state.pins.vchg != 0 {
        state.settings[Setting::Vreg] = state.pins.vchg_value().times(count).0;
    }
}
