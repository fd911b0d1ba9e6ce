//! Logs whose events say the same in other kinds: they lead to the same, and
//! are compared as they are.

use reference::generate::{plausible_events, spelled, times};
use reference::map::LAST;
use reference::{partlog, runlog, statelog, Event};

/// Fails unless runs go on alike when each of their events is said otherwise.
pub fn run_alike(said: impl Fn(&Event) -> Event) {
    for seed in 0..times(500) {
        let events = plausible_events(seed, 60);
        let otherwise: Vec<Event> = events.iter().map(&said).collect();
        let (log, other) = (spelled(&events), spelled(&otherwise));
        assert_eq!(lines(&log), lines(&other));
        assert_eq!(held(&log), held(&other));
    }
}

/// Fails unless each of these events leads to the same after the first one, and
/// its log yet parts from each other's, at the second record.
pub fn each_parts(first: Event, events: &[Event]) {
    let place = spelled(&[first]).len();
    let logs: Vec<Vec<u8>> = events.iter().map(|event| spelled(&[first, *event])).collect();
    for (at, log) in logs.iter().enumerate() {
        assert_eq!(held(log), held(&logs[0]));
        for other in &logs[at + 1..] {
            assert_eq!(partlog(log, other), format!("refused 14 2 {place}\n"));
        }
    }
}

/// What the model holds after each record, every register read.
fn held(log: &[u8]) -> String {
    statelog(log, 0..=LAST)
}

/// The lines of a log without their kinds, and without the last.
fn lines(log: &[u8]) -> Vec<String> {
    let mut lines: Vec<String> = runlog(log).lines().map(without_kind).collect();
    lines.pop();
    lines
}

fn without_kind(line: &str) -> String {
    let words: Vec<&str> = line.split(' ').collect();
    [&words[..1], &words[2..]].concat().join(" ")
}
