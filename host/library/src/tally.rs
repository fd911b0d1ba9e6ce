//! Which answers a test has met, and how often.

use std::collections::{BTreeMap, BTreeSet};

/// Counts of answers, by their number.
#[derive(Debug, Default)]
pub struct Tally(BTreeMap<u32, u64>);

impl Tally {
    /// Counts one answer.
    pub fn count(&mut self, number: u32) {
        *self.0.entry(number).or_default() += 1;
    }

    /// Fails unless exactly the answers `numbers` were met.
    pub fn met_exactly(&self, numbers: impl IntoIterator<Item = u32>) {
        let met: BTreeSet<u32> = self.0.keys().copied().collect();
        assert_eq!(met, numbers.into_iter().collect(), "the answers met: {:?}", self.0);
    }
}
