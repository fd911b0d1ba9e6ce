//! `play` by the reference over the same bytes as the library's, with plain
//! arrays: no vectors and no heap.

use crate::plain_words::{of, powered, read, write, Words};
use library::answers::Played;
use library::image::{Held, Powered};
use library::layout::{IMAGE, IMAGE_WORDS, SHOWN};
use reference::record::{self, Reading};
use reference::{report, Event, Refusal, Report, Step};

const MOST_CELL: u32 = 7;

/// The held model, if the bytes are its image.
fn loaded(image: &[u8]) -> Option<Held> {
    if image.len() != IMAGE {
        return None;
    }
    let words = read(image);
    if words[0] == 0 {
        return (words == [0; IMAGE_WORDS]).then_some(Held::Off);
    }
    let powered = powered(&words);
    (of(&powered) == words).then_some(Held::On(powered))
}

/// The held model, or why no record is looked for.
fn lent(image: &[u8], room: usize) -> Result<Held, Refusal> {
    let held = loaded(image).ok_or(Refusal::OutOfRange)?;
    if room < SHOWN {
        return Err(Refusal::NoRoom);
    }
    Ok(held)
}

/// One event on a held model: the words that are left and those that are shown.
fn stepped(held: &Held, event: &Event) -> Result<(Words, [u32; 7]), Refusal> {
    if matches!(held, Held::On(Powered { cell, .. }) if *cell > MOST_CELL) {
        return Err(Refusal::OutOfRange);
    }
    let step = held.model().step(event);
    if let Some(refusal) = step.refusal {
        return Err(refusal);
    }
    match held.after(event, &step.model) {
        Held::On(after) => Ok((of(&after), shown(&step, after.state.flags))),
        Held::Off => unreachable!("an accepted event leaves a powered model"),
    }
}

fn shown(step: &Step, flags: u32) -> [u32; 7] {
    let Report { phase, current, voltage, input_limit } = report(&step.model);
    [phase, current, voltage, input_limit, u32::from(step.pulse), flags, step.handed]
}

/// As `cheukdane_play`.
pub fn play(image: &mut [u8], log: &[u8], place: usize, shown: &mut [u8]) -> Played {
    let none = |number| Played { number, kind: 0, place: place as u64, next: place as u64 };
    let held = match lent(image, shown.len()) {
        Ok(held) => held,
        Err(refusal) => return none(refusal.number()),
    };
    let (event, next) = match record::read(log, place) {
        Reading::Record { event, next } => (event, next),
        Reading::Refused(refused) => {
            return Played { place: refused.place as u64, ..none(refused.code.number()) }
        }
        Reading::End => return none(0),
    };
    let number = match stepped(&held, &event) {
        Ok((left, shows)) => {
            write(&left, image);
            write(&shows, shown);
            0
        }
        Err(refusal) => refusal.number(),
    };
    Played { number, kind: event.kind().into(), place: place as u64, next: next as u64 }
}

#[cfg(test)]
mod tests {
    use super::*;
    use library::calls;
    use library::tally::Tally;
    use reference::generate::{any_log, damaged_log, plausible_log, times};

    /// What `play` answers and leaves, if that is what the library does.
    fn agreed(image: &mut [u8], log: &[u8], place: usize, room: usize) -> Played {
        let (mut own, mut shown, mut own_shown) =
            (image.to_vec(), vec![0xEE; room], vec![0xEE; room]);
        let wanted = calls::play(&mut own, log, place, &mut own_shown);
        let made = play(image, log, place, &mut shown);
        let (left, wanted) = ((made, &*image, &shown), (wanted, &own[..], &own_shown));
        assert_eq!(left, wanted, "place {place} of {log:02X?}");
        made
    }

    fn play_all(logs: impl Iterator<Item = Vec<u8>>) -> Tally {
        let mut tally = Tally::default();
        for log in logs {
            let (mut image, mut place) = ([0; IMAGE], 0);
            loop {
                let played = agreed(&mut image, &log, place, SHOWN);
                tally.count(played.number);
                if played.kind == 0 {
                    break;
                }
                place = played.next as usize;
            }
        }
        tally
    }

    #[test]
    fn plays_as_the_library_does() {
        play_all((0..times(1_000)).map(|seed| plausible_log(seed, 200)))
            .met_exactly([0, 5, 6, 7, 8, 9, 10, 11, 15]);
        play_all((0..times(4_000)).map(|seed| damaged_log(seed, 40)))
            .met_exactly((0..=11).chain([15]));
        play_all((0..times(4_000)).map(|seed| any_log(seed, 40)))
            .met_exactly([0, 5, 6, 7, 8, 9, 10, 11, 15]);
    }

    /// Each bit of an image turned; lengths that don't serve.
    #[test]
    fn refuses_as_the_library_does() {
        let log = plausible_log(1, 200);
        let mut image = [0; IMAGE];
        let end = calls::replay(&mut image, &log, 0);
        assert_eq!((end.number, end.code), (0, 0));
        for image in [[0; IMAGE], image] {
            for bit in 0..8 * IMAGE {
                let mut turned = image;
                turned[bit / 8] ^= 1 << (bit % 8);
                agreed(&mut turned, &[4], 0, SHOWN);
            }
            for length in 0..IMAGE {
                agreed(&mut image.to_vec()[..length], &[4], 0, SHOWN);
            }
            for room in 0..SHOWN + 3 {
                agreed(&mut image.to_vec(), &[4], 0, room);
            }
        }
    }
}
