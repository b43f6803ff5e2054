//! What came how often, so that a test says what it tried.

use super::say;
use std::collections::BTreeMap;

#[derive(Default)]
pub struct Tally(BTreeMap<&'static str, usize>);

impl Tally {
    /// Counts something where it came.
    pub fn count(&mut self, what: &'static str, came: bool) {
        self.add(what, usize::from(came));
    }

    pub fn add(&mut self, what: &'static str, times: usize) {
        *self.0.entry(what).or_default() += times;
    }
}

/// Prints how often each thing came, and fails where that is less than wanted.
pub fn check(tallies: &[Tally], wanted: &[(&str, usize)]) {
    for (what, least) in wanted {
        let counts = tallies.iter().filter_map(|tally| tally.0.get(what));
        let sum: usize = counts.sum();
        say(&format!("{what}: {sum}"));
        assert!(sum >= *least, "{what}: {sum} only");
    }
}
