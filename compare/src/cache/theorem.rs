//! What document 02 says of calls on one line, none kept at first and nothing else writing
//! the kept wraps, reckoned from the calls alone: those kept are the last four different
//! keys used whose wraps have at most 1,024 rows.

use super::model::{Key, MOST_KEPT, MOST_ROWS};
use super::sequence::Ask;
use oracle::Answer;

/// The keys used, the last one last.
#[derive(Default)]
pub struct Theorem {
    used: Vec<Key>,
}

impl Theorem {
    /// A call, and how a line answers it that was never asked before.
    pub fn call(&mut self, ask: &Ask, answer: &Answer) {
        let accepted = answer.number == 0;
        if accepted && !ask.is_unwrapped_height() && answer.count <= MOST_ROWS {
            self.used.push(ask.key());
        }
    }

    /// The keys kept, the last used first.
    pub fn keys(&self) -> Vec<Key> {
        let mut keys = Vec::new();
        for key in self.used.iter().rev() {
            if !keys.contains(key) {
                keys.push(*key);
            }
        }
        keys.truncate(MOST_KEPT);
        keys
    }
}
