//! Damages to a log's bytes.

use std::ops::Range;

use super::rng::Rng;
use crate::event::Event;
use crate::number::{append, MOST_GROUPS};
use crate::record::{Reader, Reading};

const HIGH_BIT: u8 = 0x80;

/// Does one damage to `log`.
pub(super) fn damage(rng: &mut Rng, log: &mut Vec<u8>) {
    if log.is_empty() {
        log.push(rng.any() as u8);
        return;
    }
    let at = rng.place(log.len());
    let odd = rng.pick(&[0x00, 0x80, 0xFF, 0x08, 0x09, 0x0A, 0x0B, 0x0E, 0x12, 0x7F, 0x05]);
    match rng.within(0, 9) {
        0 => log.truncate(at),
        1 => log[at] ^= 1 << rng.within(0, 7),
        2 => log[at] = rng.any() as u8,
        3 => log[at] = odd,
        4 => log.insert(at, odd),
        5 => drop(log.remove(at)),
        6 => lengthen(rng, log),
        7 => relength(rng, log),
        _ => misspell(rng, log),
    }
}

/// Spells a group of some number longer than it should be, or far too long.
fn lengthen(rng: &mut Rng, log: &mut Vec<u8>) {
    let at = rng.place(log.len());
    log[at] |= HIGH_BIT;
    let tail: &[u8] = rng.pick(&[
        [0x00].as_slice(),
        &[0x80, 0x80, 0x80, 0x00],
        &[0x80, 0x80, 0x80, 0x10],
        &[0xFF, 0xFF, 0xFF, 0xFF],
    ]);
    log.splice(at + 1..at + 1, tail.iter().copied());
}

/// Misspells a number of some record: cut off with the log, with a last group
/// of zero, or too large. All numbers of a kind are equally likely.
fn misspell(rng: &mut Rng, log: &mut Vec<u8>) {
    let kind = rng.pick(&[1, 1, 1, 1, 2, 3, 5, 5, 8, 9, 9, 9, 9, 10, 10, 11, 11, 11, 14]);
    let found = numbers(log, kind);
    if found.is_empty() {
        return lengthen(rng, log);
    }
    let at = found[rng.place(found.len())].clone();
    let any = rng.any() as u8;
    let group = HIGH_BIT | rng.pick(&[0x00, 0x7F, any]);
    let most = MOST_GROUPS - 1;
    match rng.within(0, 2) {
        0 => {
            log.truncate(at.start);
            log.resize(at.start + rng.place(most + 1), group);
        }
        1 => respell(log, at, group, rng.place(most) + 1, 0x00),
        _ => respell(log, at, group, most, rng.pick(&[0x10, 0x1F, 0x7F, 0x80, 0xFF])),
    }
}

/// Puts so many groups and a last one in place of a number.
fn respell(log: &mut Vec<u8>, at: Range<usize>, group: u8, groups: usize, last: u8) {
    log.splice(at, [vec![group; groups], vec![last]].concat());
}

/// Gives a run of written bytes another length, in its range or out of it, or
/// cuts its bytes off with the log.
fn relength(rng: &mut Rng, log: &mut Vec<u8>) {
    let lengths: Vec<Range<usize>> = numbers(log, 8).into_iter().skip(1).step_by(2).collect();
    if lengths.is_empty() {
        return lengthen(rng, log);
    }
    let at = lengths[rng.place(lengths.len())].clone();
    let kept = rng.place(usize::from(log[at.start]));
    let free = rng.any_length();
    let other = match rng.within(0, 3) {
        0 => return log.truncate(at.end + kept),
        1 => rng.within(1, 32),
        2 => rng.pick(&[0, 33]),
        _ => rng.pick(&[0, 33, 64, 127, 128, 129, 160, 256, 288, u32::MAX, free]),
    };
    let mut spelled = Vec::new();
    append(other, &mut spelled);
    log.splice(at, spelled);
}

/// Where the numbers stand of the records of one kind, as far as the log can
/// be read.
fn numbers(log: &[u8], kind: u8) -> Vec<Range<usize>> {
    let mut reader = Reader::new(log);
    let mut found = Vec::new();
    loop {
        let mut at = reader.place() + 1;
        let Reading::Record { event, next } = reader.read() else {
            return found;
        };
        if event.kind() == kind {
            for number in log[at..next - raw(&event)].split_inclusive(|byte| byte & HIGH_BIT == 0) {
                found.push(at..at + number.len());
                at += number.len();
            }
        }
    }
}

/// How many raw bytes an event's record ends with.
fn raw(event: &Event) -> usize {
    match event {
        Event::WriteRun(run) => run.length as usize,
        _ => 0,
    }
}
