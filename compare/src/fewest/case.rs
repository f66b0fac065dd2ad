//! A line at a width, in mode 1.

use crate::lines::LONGEST_ADMITTED;
use oracle::{Call, Case as Asked};
use std::fmt;

const LARGEST_WIDTH: usize = 65_535;

#[derive(Clone, Debug)]
pub struct Case {
    pub line: Vec<u8>,
    pub width: usize,
}

impl Case {
    /// The line and width of a call for rows or height.
    pub fn of(asked: &Asked) -> Option<Case> {
        let width = match asked.call {
            Call::Rows { width, .. } | Call::Height { width, .. } => width,
            _ => return None,
        };
        let line = asked.line.clone();
        Some(Case { line, width })
    }

    /// Whether questions 1 and 5 are passed.
    pub fn is_admitted(&self) -> bool {
        self.line.len() <= LONGEST_ADMITTED && self.width <= LARGEST_WIDTH
    }

    /// The call for rows, lent enough: the converted line has at most 8 times the line's
    /// bytes, a span one of them at least, and a column begins two rows at most.
    pub fn rows(&self) -> Asked {
        let most = 8 * self.line.len();
        let width = self.width;
        let rows = 4 * most + 4;
        Asked::new(
            &self.line,
            Call::Rows { width, mode: 1 },
            [most, most, rows, 0],
        )
    }
}

impl fmt::Display for Case {
    fn fmt(&self, f: &mut fmt::Formatter<'_>) -> fmt::Result {
        self.rows().fmt(f)
    }
}
