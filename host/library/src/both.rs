//! Each call made of the library and of the reference on equal bytes. Answers
//! and lent bytes must agree, and the library may touch no byte beside those
//! that it was lent, and none that it was lent to be read.

use crate::answers::{Answer, Byte, Compared, Played, Replayed, Written};
use crate::{calls, expected};
use std::fmt::Debug;

/// Bytes on either side of a lent part.
const BESIDE: usize = 13;
const BESIDE_BYTE: u8 = 0xC3;

/// A copy of bytes to lend, with others beside it.
struct Lent(Vec<u8>);

impl Lent {
    fn new(part: &[u8]) -> Lent {
        let beside = [BESIDE_BYTE; BESIDE];
        Lent([&beside, part, &beside].concat())
    }

    fn part(&mut self) -> &mut [u8] {
        let end = self.0.len() - BESIDE;
        &mut self.0[BESIDE..end]
    }

    /// The lent part as it was left; the bytes beside it must be as before.
    fn left(&self) -> &[u8] {
        let (before, rest) = self.0.split_at(BESIDE);
        let (part, after) = rest.split_at(rest.len() - BESIDE);
        let mut beside = before.iter().chain(after);
        assert!(beside.all(|byte| *byte == BESIDE_BYTE), "a byte beside was written");
        part
    }
}

/// What `library` answers, if that is what `reference` does, bytes too.
fn agreed<T: Debug + PartialEq>(
    buffer: &mut [u8],
    library: impl FnOnce(&mut [u8]) -> T,
    reference: impl FnOnce(&mut [u8]) -> T,
    told: impl FnOnce() -> String,
) -> T {
    let mut lent = Lent::new(buffer);
    let answer = library(lent.part());
    let wanted = reference(buffer);
    if answer != wanted || lent.left() != buffer {
        let (left, told) = (lent.left(), told());
        panic!("{told}\n  made   {answer:?}\n  wanted {wanted:?}\n  left   {left:02X?}\n  wanted {buffer:02X?}");
    }
    answer
}

/// The same of two buffers, an image and what is shown.
fn agreed_on_two<T: Debug + PartialEq>(
    image: &mut [u8],
    shown: &mut [u8],
    library: impl FnOnce(&mut [u8], &mut [u8]) -> T,
    reference: impl FnOnce(&mut [u8], &mut [u8]) -> T,
    told: impl Fn() -> String,
) -> T {
    let mut lent_shown = Lent::new(shown);
    let answer = agreed(
        image,
        |image| library(image, lent_shown.part()),
        |image| reference(image, shown),
        &told,
    );
    assert_eq!(lent_shown.left(), shown, "what is shown: {}", told());
    answer
}

/// Lends bytes that may only be read.
fn only_read<T>(bytes: &[u8], call: impl FnOnce(&[u8]) -> T) -> T {
    let mut lent = Lent::new(bytes);
    let answer = call(lent.part());
    assert_eq!(lent.left(), bytes, "bytes that were lent to be read");
    answer
}

/// `cheukdane_off`.
pub fn off(image: &mut [u8]) -> Answer {
    agreed(image, calls::off, expected::off, || "off".to_string())
}

/// `cheukdane_play`.
pub fn play(image: &mut [u8], log: &[u8], place: usize, shown: &mut [u8]) -> Played {
    let before = image.to_vec();
    agreed_on_two(
        image,
        shown,
        |image, shown| only_read(log, |log| calls::play(image, log, place, shown)),
        |image, shown| expected::play(image, log, place, shown),
        || format!("play {place} of {log:02X?} on {before:02X?}"),
    )
}

/// `cheukdane_replay`.
pub fn replay(image: &mut [u8], log: &[u8], place: usize) -> Replayed {
    let before = image.to_vec();
    agreed(
        image,
        |image| only_read(log, |log| calls::replay(image, log, place)),
        |image| expected::replay(image, log, place),
        || format!("replay from {place} of {log:02X?} on {before:02X?}"),
    )
}

/// `cheukdane_event`.
pub fn event(image: &mut [u8], kind: u32, words: &[u8], shown: &mut [u8]) -> Answer {
    let before = image.to_vec();
    agreed_on_two(
        image,
        shown,
        |image, shown| only_read(words, |words| calls::event(image, kind, words, shown)),
        |image, shown| expected::event(image, kind, words, shown),
        || format!("event {kind} {words:02X?} on {before:02X?}"),
    )
}

/// `cheukdane_report`.
pub fn report(image: &[u8], report: &mut [u8]) -> Answer {
    agreed(
        report,
        |report| only_read(image, |image| calls::report(image, report)),
        |report| expected::report(image, report),
        || format!("report of {image:02X?}"),
    )
}

/// `cheukdane_register`.
pub fn register(image: &[u8], address: u32) -> Byte {
    let answer = only_read(image, |image| calls::register(image, address));
    assert_eq!(answer, expected::register(image, address), "register {address} of {image:02X?}");
    answer
}

/// `cheukdane_write`.
pub fn write(kind: u32, words: &[u8], out: &mut [u8]) -> Written {
    agreed(
        out,
        |out| only_read(words, |words| calls::write(kind, words, out)),
        |out| expected::write(kind, words, out),
        || format!("write {kind} {words:02X?}"),
    )
}

/// `cheukdane_compare`.
pub fn compare(first: &[u8], second: &[u8]) -> Compared {
    let answer =
        only_read(first, |first| only_read(second, |second| calls::compare(first, second)));
    let wanted = expected::compare(first, second);
    assert_eq!(answer, wanted, "compare {first:02X?} with {second:02X?}");
    answer
}
