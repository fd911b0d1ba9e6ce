//! An event as the words that a call is given.

use crate::layout::bytes_of;
use reference::record::numbers_of;
use reference::Event;

/// The bytes of an event's words: its numbers, and a run's 32 bytes behind
/// them.
pub fn words(event: &Event) -> Vec<u8> {
    let mut words = bytes_of(&numbers_of(event));
    if let Event::WriteRun(run) = event {
        words.extend(run.bytes);
    }
    words
}
