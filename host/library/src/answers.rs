//! The header's answers: structs by value, in C's layout.

/// `struct cheukdane_answer`.
#[repr(C)]
#[derive(Clone, Copy, Debug, PartialEq, Eq)]
pub struct Answer {
    /// 0, or the refusal's number.
    pub number: u32,
    /// The refusal's place.
    pub place: u64,
}

/// `struct cheukdane_played`.
#[repr(C)]
#[derive(Clone, Copy, Debug, PartialEq, Eq)]
pub struct Played {
    /// 0, or the refusal's number.
    pub number: u32,
    /// The kind of the record that was read; 0 if none was.
    pub kind: u32,
    /// The given place, where the record starts; of what can't be read, 1 to
    /// 5, the place of what decided it.
    pub place: u64,
    /// Where the next record starts; the given place if none was read.
    pub next: u64,
}

/// `struct cheukdane_replayed`.
#[repr(C)]
#[derive(Clone, Copy, Debug, PartialEq, Eq)]
pub struct Replayed {
    /// 0, or the refusal's number.
    pub number: u32,
    /// 0 at the log's end; else that of what can't be read.
    pub code: u32,
    /// How many records were read.
    pub records: u64,
    /// The log's end; with a code, the place of what decided it.
    pub place: u64,
    /// Where to go on: the log's end, or where the record that can't be read
    /// starts.
    pub next: u64,
}

/// `struct cheukdane_byte`.
#[repr(C)]
#[derive(Clone, Copy, Debug, PartialEq, Eq)]
pub struct Byte {
    /// 0, or the refusal's number.
    pub number: u32,
    /// The register's byte; 0 with a refusal.
    pub byte: u32,
    /// The refusal's place.
    pub place: u64,
}

/// `struct cheukdane_written`.
#[repr(C)]
#[derive(Clone, Copy, Debug, PartialEq, Eq)]
pub struct Written {
    /// 0, or the refusal's number.
    pub number: u32,
    /// Bytes of the record; 0 with a refusal.
    pub count: u32,
    /// The refusal's place.
    pub place: u64,
}

/// `struct cheukdane_compared`.
#[repr(C)]
#[derive(Clone, Copy, Debug, PartialEq, Eq)]
pub struct Compared {
    /// 0, or the refusal's number.
    pub number: u32,
    /// Whose rest it is: 1 or 2; 0 with a refusal.
    pub log: u32,
    /// With a refusal, the record's number, from 1; else 0.
    pub record: u64,
    /// Where the rest starts; with 14, where the record does; with 1 to 5, the
    /// place of what decided it, in its own log.
    pub place: u64,
}
