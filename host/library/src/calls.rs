//! The library's calls, each slice as a pointer and a length. An empty slice
//! goes as NULL and 0, which the header allows.

use crate::answers::{Answer, Byte, Compared, Played, Replayed, Written};
use std::ptr;

extern "C" {
    fn cheukdane_rules() -> u32;
    fn cheukdane_off(image: *mut u8, image_length: usize) -> Answer;
    fn cheukdane_play(
        image: *mut u8,
        image_length: usize,
        log: *const u8,
        log_length: usize,
        place: usize,
        shown: *mut u8,
        shown_length: usize,
    ) -> Played;
    fn cheukdane_replay(
        image: *mut u8,
        image_length: usize,
        log: *const u8,
        log_length: usize,
        place: usize,
    ) -> Replayed;
    fn cheukdane_event(
        image: *mut u8,
        image_length: usize,
        kind: u32,
        words: *const u8,
        words_length: usize,
        shown: *mut u8,
        shown_length: usize,
    ) -> Answer;
    fn cheukdane_report(
        image: *const u8,
        image_length: usize,
        report: *mut u8,
        report_length: usize,
    ) -> Answer;
    fn cheukdane_register(image: *const u8, image_length: usize, address: u32) -> Byte;
    fn cheukdane_write(
        kind: u32,
        words: *const u8,
        words_length: usize,
        out: *mut u8,
        out_length: usize,
    ) -> Written;
    fn cheukdane_compare(
        first: *const u8,
        first_length: usize,
        second: *const u8,
        second_length: usize,
    ) -> Compared;
}

fn start(part: &[u8]) -> *const u8 {
    if part.is_empty() {
        ptr::null()
    } else {
        part.as_ptr()
    }
}

fn start_mut(part: &mut [u8]) -> *mut u8 {
    if part.is_empty() {
        ptr::null_mut()
    } else {
        part.as_mut_ptr()
    }
}

/// The number of the rules.
pub fn rules() -> u32 {
    // SAFETY: nothing is lent.
    unsafe { cheukdane_rules() }
}

/// Makes the image of a model before its power-on.
pub fn off(image: &mut [u8]) -> Answer {
    // SAFETY: the pointer is to as many bytes as the length says, lent once.
    unsafe { cheukdane_off(start_mut(image), image.len()) }
}

/// Plays the record at a place of a log.
pub fn play(image: &mut [u8], log: &[u8], place: usize, shown: &mut [u8]) -> Played {
    let (lent, room) = (image.len(), shown.len());
    // SAFETY: as for `off`, of each slice; the two lent to be changed are apart.
    unsafe {
        cheukdane_play(start_mut(image), lent, start(log), log.len(), place, start_mut(shown), room)
    }
}

/// Plays every record of a log from a place on.
pub fn replay(image: &mut [u8], log: &[u8], place: usize) -> Replayed {
    let lent = image.len();
    // SAFETY: as for `off`, of each slice.
    unsafe { cheukdane_replay(start_mut(image), lent, start(log), log.len(), place) }
}

/// Gives one event outside a log.
pub fn event(image: &mut [u8], kind: u32, words: &[u8], shown: &mut [u8]) -> Answer {
    let (lent, room) = (image.len(), shown.len());
    // SAFETY: as for `play`.
    unsafe {
        cheukdane_event(
            start_mut(image),
            lent,
            kind,
            start(words),
            words.len(),
            start_mut(shown),
            room,
        )
    }
}

/// The report, the flags and STAT of the model as it stands.
pub fn report(image: &[u8], report: &mut [u8]) -> Answer {
    let room = report.len();
    // SAFETY: as for `off`, of each slice.
    unsafe { cheukdane_report(start(image), image.len(), start_mut(report), room) }
}

/// A register's byte.
pub fn register(image: &[u8], address: u32) -> Byte {
    // SAFETY: as for `off`.
    unsafe { cheukdane_register(start(image), image.len(), address) }
}

/// Writes an event's record at the start of `out`.
pub fn write(kind: u32, words: &[u8], out: &mut [u8]) -> Written {
    let room = out.len();
    // SAFETY: as for `off`, of each slice.
    unsafe { cheukdane_write(kind, start(words), words.len(), start_mut(out), room) }
}

/// Reads two logs side by side.
pub fn compare(first: &[u8], second: &[u8]) -> Compared {
    // SAFETY: as for `off`, of each slice.
    unsafe { cheukdane_compare(start(first), first.len(), start(second), second.len()) }
}
