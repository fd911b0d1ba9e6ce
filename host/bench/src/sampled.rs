//! Contenders timed by turns, so that what else the machine does falls on all
//! of them alike.

use std::time::{Duration, Instant};

/// How often each contender runs.
const TURNS: usize = 25;

/// What one contender's turns took.
pub struct Sampled {
    /// The shortest.
    pub best: Duration,
    /// The one in the middle.
    pub median: Duration,
}

/// Runs each contender by turns.
pub fn by_turns<const N: usize>(contenders: [impl Fn(); N]) -> [Sampled; N] {
    let mut taken: [Vec<Duration>; N] = std::array::from_fn(|_| Vec::new());
    for _ in 0..TURNS {
        for (run, taken) in contenders.iter().zip(&mut taken) {
            let start = Instant::now();
            run();
            taken.push(start.elapsed());
        }
    }
    taken.map(|mut taken| {
        taken.sort();
        Sampled { best: taken[0], median: taken[TURNS / 2] }
    })
}

/// How many times longer `one` took than `other`.
pub fn ratio(one: Duration, other: Duration) -> f64 {
    one.as_secs_f64() / other.as_secs_f64()
}
