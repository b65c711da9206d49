//! Counting what a trial brings up.

use std::collections::BTreeMap;
use std::fmt::Debug;

/// How often each outcome of a trial came up.
#[derive(Debug)]
pub struct Tally<Outcome>(BTreeMap<Outcome, usize>);

impl<Outcome> Default for Tally<Outcome> {
    fn default() -> Self {
        Tally(BTreeMap::new())
    }
}

impl<Outcome: Ord + Debug> Tally<Outcome> {
    pub fn note(&mut self, outcome: Outcome) {
        *self.0.entry(outcome).or_default() += 1;
    }

    /// Each of these outcomes must have come up at least so often, or the trial means little.
    pub fn expect(&self, outcomes: impl IntoIterator<Item = Outcome>, least: usize) {
        for outcome in outcomes {
            let count = self.0.get(&outcome).copied().unwrap_or(0);
            assert!(count >= least, "{outcome:?} came up too seldom: {self:?}");
        }
    }
}
