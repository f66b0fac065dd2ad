//! A line and the oracle's answers about it.

use super::sequence::Ask;
use oracle::{ample, Answer, Call, Sizes};
use std::collections::HashMap;

/// Rows or height, width, mode, sizes lent.
type Question = (bool, usize, usize, Sizes);

/// Each answer is asked for once: the oracle knows no kept wraps.
pub struct Line {
    bytes: Vec<u8>,
    /// The line read, with enough lent.
    reading: Answer,
    answers: HashMap<Question, Answer>,
}

impl Line {
    pub fn new(bytes: &[u8]) -> Line {
        let matches = Vec::new();
        Line {
            bytes: bytes.to_vec(),
            reading: Call::Read { matches }.ample_answer(bytes),
            answers: HashMap::new(),
        }
    }

    pub fn bytes(&self) -> &[u8] {
        &self.bytes
    }

    pub fn reading(&self) -> &Answer {
        &self.reading
    }

    /// The answer of a line that was never asked before.
    pub fn answer(&mut self, ask: &Ask, sizes: Sizes) -> &Answer {
        let question = (ask.rows, ask.width, ask.mode, sizes);
        let answer = self.answers.entry(question);
        answer.or_insert_with(|| ask.call().answer(&self.bytes, sizes))
    }

    /// Start and end of each row, where width and mode are allowed.
    pub fn rows(&mut self, width: usize, mode: usize) -> &[usize] {
        let sizes = ample(&self.bytes);
        &self.answer(&Ask::new(true, width, mode), sizes).pairs
    }
}
