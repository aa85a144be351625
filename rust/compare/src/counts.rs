//! Counts of what came out of a comparison, so that a test can assert that each
//! thing came out in quantity.

use std::collections::BTreeMap;

#[derive(Default)]
pub struct Counts(BTreeMap<String, u64>);

impl Counts {
    pub fn add(&mut self, what: impl Into<String>) {
        *self.0.entry(what.into()).or_default() += 1;
    }

    pub fn print(&self) {
        for (what, count) in &self.0 {
            println!("{what}: {count}");
        }
    }

    /// Asserts that things with these words were counted so often.
    pub fn assert_least(&self, words: &str, least: u64) {
        let named = self.0.iter().filter(|(what, _)| what.contains(words));
        let count: u64 = named.map(|(_, count)| count).sum();
        assert!(count >= least, "{words}: {count}");
    }

    /// Asserts that so many things were counted, each so often.
    pub fn assert_each(&self, things: usize, least: u64) {
        assert_eq!(self.0.len(), things);
        assert!(self.0.values().all(|&count| count >= least), "{:?}", self.0);
    }
}
