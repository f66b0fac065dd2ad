//! A line at a width, in a mode.

use oracle::{Call, Case as Asked, Sizes, NONE};
use std::fmt;

/// The largest width, first row and row count.
pub const LARGEST: usize = 65_535;

#[derive(Clone, Debug)]
pub struct Case {
    pub line: Vec<u8>,
    pub width: usize,
    pub mode: usize,
}

impl Case {
    /// The line, width and mode of a call; none where it is not admitted or doesn't wrap.
    pub fn of(asked: &Asked) -> Option<Case> {
        let (width, mode) = match asked.call {
            Call::Rows { width, mode }
            | Call::Height { width, mode }
            | Call::DrawRow { width, mode, .. } => (width, mode),
            _ => return None,
        };
        let line = asked.line.clone();
        let admitted = (1..=4).contains(&mode) && width <= LARGEST;
        admitted.then_some(Case { line, width, mode })
    }

    pub fn asked(&self, call: Call, sizes: Sizes) -> Asked {
        Asked::new(&self.line, call, sizes)
    }

    /// Reading the line, lent enough: the converted line has at most 8 times the line's
    /// bytes, and a span has one of them at least.
    pub fn reading(&self) -> Asked {
        let most = 8 * self.line.len();
        let matches = Vec::new();
        self.asked(Call::Read { matches }, [most, most, 0, 0])
    }

    pub fn rows(&self) -> Call {
        let Case { width, mode, .. } = *self;
        Call::Rows { width, mode }
    }

    pub fn height(&self) -> Call {
        let Case { width, mode, .. } = *self;
        Call::Height { width, mode }
    }

    pub fn drawing(&self, first: usize, count: usize, current: usize) -> Call {
        Call::DrawRow {
            matches: Vec::new(),
            current,
            first,
            count,
            width: self.width,
            mode: self.mode,
        }
    }

    pub fn unwrapped(&self) -> Call {
        let whole = Case {
            mode: 0,
            ..self.clone()
        };
        whole.drawing(0, 1, NONE)
    }
}

impl fmt::Display for Case {
    fn fmt(&self, f: &mut fmt::Formatter<'_>) -> fmt::Result {
        self.asked(self.height(), self.reading().sizes()).fmt(f)
    }
}
