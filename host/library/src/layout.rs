//! The header's constants: lengths of what is lent, and where an image's
//! words stand.

/// The number of the rules.
pub const RULES: u32 = 8;
/// The format of an image: word 0 of a model that is on.
pub const FORMAT: u32 = 8;
/// Bytes of a word.
pub const WORD: usize = 4;
/// Words of an image.
pub const IMAGE_WORDS: usize = 58;
/// Bytes of an image.
pub const IMAGE: usize = 232;
/// The word of an image at which the power-on's eleven numbers start, as kind
/// 11 has them.
pub const PROFILE: usize = 1;
/// The word at which settings 1 to 14 start.
pub const SETTINGS: usize = 12;
/// The word at which the registers start: ten of the stored fields' bytes, and
/// CELL_PIN.
pub const REGISTERS: usize = 26;
/// The word at which the comparators start.
pub const LATCHES: usize = 37;
/// The word at which the stages' times and done start.
pub const CYCLE: usize = 42;
/// The word of the watchdog's count.
pub const WATCHDOG: usize = 46;
/// The word at which the sample's seven numbers start, as kind 10 has them.
pub const SAMPLE: usize = 47;
/// The word of the phase.
pub const PHASE: usize = 54;
/// The word at which the two thermistors' bands start.
pub const BANDS: usize = 55;
/// The word of the held flags.
pub const FLAGS: usize = 57;
/// Bytes of what an accepted event shows.
pub const SHOWN: usize = 28;
/// Bytes of a report.
pub const REPORT: usize = 24;
/// Bytes of the longest record.
pub const RECORD: usize = 56;
/// Bytes of a run's words.
pub const RUN: usize = 40;

/// The bytes of words, lowest byte first.
pub fn bytes_of(words: &[u32]) -> Vec<u8> {
    words.iter().flat_map(|word| word.to_le_bytes()).collect()
}

/// The words of bytes, if they come out even.
pub fn words_of(bytes: &[u8]) -> Option<Vec<u32>> {
    let words = bytes.chunks_exact(WORD);
    let even = words.remainder().is_empty();
    let read = |word: &[u8]| u32::from_le_bytes(word.try_into().expect("four bytes"));
    even.then(|| words.map(read).collect())
}
