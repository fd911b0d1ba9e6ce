//! The refusal numbers.

/// Why a call was refused; the discriminant is the paper's number.
#[derive(Clone, Copy, Debug, PartialEq, Eq, PartialOrd, Ord, Hash)]
#[repr(u32)]
pub enum Refusal {
    /// The log ends inside a record.
    EndsInside = 1,
    /// The last group is zero and not the only one.
    NotShortest = 2,
    /// Five groups all have the high bit, or the value is above 4,294,967,295.
    TooLarge = 3,
    /// The kind is not 1-11 or 14.
    UnknownKind = 4,
    /// A number is outside its range, or a handed-in model's field is. Of the
    /// log reader: a run's length is not 1-32; of an event, that it has no
    /// spelling.
    OutOfRange = 5,
    /// Any kind but a power-on's, before a power-on.
    NotPowered = 6,
    /// The stamp is more than 3,600,000 ms ahead.
    StampAhead = 7,
    /// The setting number is not 1-14.
    UnknownSetting = 8,
    /// The setting's value is outside its range or off its step.
    SettingValue = 9,
    /// A written address is not 0x15-0x1C; of a run, an address is outside the
    /// map; of a read that clears, it is no flag register's.
    UnknownAddress = 10,
    /// FSW (0x16 bits 2:0) is written 0 or 7.
    Frequency = 11,
    /// The record is longer than the room left in the lent buffer.
    NoRoom = 12,
    /// The program's input is above 65,536 bytes.
    InputTooLong = 13,
    /// Two logs part.
    LogsPart = 14,
    /// A run has half of a sixteen-bit register.
    HalfRegister = 15,
}

impl Refusal {
    /// The paper's number.
    pub fn number(self) -> u32 {
        self as u32
    }
}

/// A refusal and the place it belongs to.
///
/// Of 1, 2 and 3 it is "the offset of the byte that decided it"; "Refusals 4
/// and 14 keep the record's start, the reader's 5 the length's"; the model's
/// have the record's start. "An event given outside a log has place 0."
#[derive(Clone, Copy, Debug, PartialEq, Eq)]
pub struct Refused {
    /// Why.
    pub code: Refusal,
    /// Where.
    pub place: usize,
}
