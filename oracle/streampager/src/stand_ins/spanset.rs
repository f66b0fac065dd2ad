//! src/search.rs keeps the numbers of the lines that match.

#![allow(dead_code)]

use std::collections::BTreeSet;

pub struct SpanSet(BTreeSet<usize>);

impl SpanSet {
    pub fn new() -> SpanSet {
        SpanSet(BTreeSet::new())
    }

    pub fn insert(&mut self, line: usize) {
        self.0.insert(line);
    }

    pub fn contains(&self, line: usize) -> bool {
        self.0.contains(&line)
    }
}
