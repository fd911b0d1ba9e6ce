//! A stand-in for libcheukdane: the header's calls, answered by what
//! host/library expects of them. It is right by its making; host/wrong has
//! edits that make it wrong, for scripts/standins, which asks whether the
//! tests notice.

#![warn(missing_docs)]

#[path = "../../library/src/answers.rs"]
pub mod answers;
#[path = "../../library/src/expected.rs"]
pub mod expected;
#[path = "../../library/src/held.rs"]
mod held;
#[path = "../../library/src/image.rs"]
pub mod image;
#[path = "../../library/src/layout.rs"]
pub mod layout;
#[path = "../../library/src/words.rs"]
mod words;

use answers::{Answer, Byte, Compared, Played, Replayed, Written};
use std::slice;

/// Bytes that C lends to be read; an empty part may be NULL.
///
/// # Safety
/// The pointer is to `length` bytes, which nothing changes meanwhile.
unsafe fn part<'lent>(start: *const u8, length: usize) -> &'lent [u8] {
    if length == 0 {
        return &[];
    }
    slice::from_raw_parts(start, length)
}

/// Bytes that C lends to be changed; an empty part may be NULL.
///
/// # Safety
/// The pointer is to `length` bytes, lent once.
unsafe fn part_mut<'lent>(start: *mut u8, length: usize) -> &'lent mut [u8] {
    if length == 0 {
        return &mut [];
    }
    slice::from_raw_parts_mut(start, length)
}

/// The header's call of this name.
#[no_mangle]
pub extern "C" fn cheukdane_rules() -> u32 {
    layout::RULES
}

/// The header's call of this name.
///
/// # Safety
/// Each pointer is to as many bytes as the length beside it says, and those
/// that the call may change are lent once.
#[no_mangle]
pub unsafe extern "C" fn cheukdane_off(image: *mut u8, image_length: usize) -> Answer {
    expected::off(part_mut(image, image_length))
}

/// The header's call of this name.
///
/// # Safety
/// As for [`cheukdane_off`].
#[no_mangle]
pub unsafe extern "C" fn cheukdane_play(
    image: *mut u8,
    image_length: usize,
    log: *const u8,
    log_length: usize,
    place: usize,
    shown: *mut u8,
    shown_length: usize,
) -> Played {
    let (image, shown) = (part_mut(image, image_length), part_mut(shown, shown_length));
    expected::play(image, part(log, log_length), place, shown)
}

/// The header's call of this name.
///
/// # Safety
/// As for [`cheukdane_off`].
#[no_mangle]
pub unsafe extern "C" fn cheukdane_replay(
    image: *mut u8,
    image_length: usize,
    log: *const u8,
    log_length: usize,
    place: usize,
) -> Replayed {
    expected::replay(part_mut(image, image_length), part(log, log_length), place)
}

/// The header's call of this name.
///
/// # Safety
/// As for [`cheukdane_off`].
#[no_mangle]
pub unsafe extern "C" fn cheukdane_event(
    image: *mut u8,
    image_length: usize,
    kind: u32,
    words: *const u8,
    words_length: usize,
    shown: *mut u8,
    shown_length: usize,
) -> Answer {
    let (image, shown) = (part_mut(image, image_length), part_mut(shown, shown_length));
    expected::event(image, kind, part(words, words_length), shown)
}

/// The header's call of this name.
///
/// # Safety
/// As for [`cheukdane_off`].
#[no_mangle]
pub unsafe extern "C" fn cheukdane_report(
    image: *const u8,
    image_length: usize,
    report: *mut u8,
    report_length: usize,
) -> Answer {
    expected::report(part(image, image_length), part_mut(report, report_length))
}

/// The header's call of this name.
///
/// # Safety
/// As for [`cheukdane_off`].
#[no_mangle]
pub unsafe extern "C" fn cheukdane_register(
    image: *const u8,
    image_length: usize,
    address: u32,
) -> Byte {
    expected::register(part(image, image_length), address)
}

/// The header's call of this name.
///
/// # Safety
/// As for [`cheukdane_off`].
#[no_mangle]
pub unsafe extern "C" fn cheukdane_write(
    kind: u32,
    words: *const u8,
    words_length: usize,
    out: *mut u8,
    out_length: usize,
) -> Written {
    expected::write(kind, part(words, words_length), part_mut(out, out_length))
}

/// The header's call of this name.
///
/// # Safety
/// As for [`cheukdane_off`].
#[no_mangle]
pub unsafe extern "C" fn cheukdane_compare(
    first: *const u8,
    first_length: usize,
    second: *const u8,
    second_length: usize,
) -> Compared {
    expected::compare(part(first, first_length), part(second, second_length))
}
