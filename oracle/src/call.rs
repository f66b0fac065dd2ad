//! The six calls as values: a call with its arguments, and a case, which is a call
//! on a line with the sizes that are lent to it.

use crate::answer::{self, Answer};

/// A call with its arguments.
#[derive(Clone, Debug, PartialEq, Eq, Hash)]
pub enum Call {
    Convert,
    Read {
        matches: Vec<usize>,
    },
    Rows {
        width: usize,
        mode: usize,
    },
    Height {
        width: usize,
        mode: usize,
    },
    DrawWindow {
        matches: Vec<usize>,
        current: usize,
        start: usize,
        end: usize,
    },
    DrawRow {
        matches: Vec<usize>,
        current: usize,
        first: usize,
        count: usize,
        width: usize,
        mode: usize,
    },
}

/// What is lent: bytes of the conversion buffer, places of the span list, numbers of
/// the row list, two for each row, bytes of the change list.
pub type Sizes = [usize; 4];

/// More than any call on the line needs, but for the conversion buffer, which is just
/// enough.
pub fn ample(line: &[u8]) -> Sizes {
    [8 * line.len(), usize::MAX, usize::MAX, usize::MAX]
}

impl Call {
    pub const NAMES: [&'static str; 6] = [
        "convert",
        "read",
        "rows",
        "height",
        "draw_window",
        "draw_row",
    ];

    pub fn name(&self) -> &'static str {
        match self {
            Call::Convert => "convert",
            Call::Read { .. } => "read",
            Call::Rows { .. } => "rows",
            Call::Height { .. } => "height",
            Call::DrawWindow { .. } => "draw_window",
            Call::DrawRow { .. } => "draw_row",
        }
    }

    /// Whether the call is lent each of the four.
    pub fn is_lent(&self) -> [bool; 4] {
        let spans = !matches!(self, Call::Convert);
        let rows = matches!(self, Call::Rows { .. });
        [true, spans, rows, self.is_drawing()]
    }

    pub fn is_drawing(&self) -> bool {
        matches!(self, Call::DrawWindow { .. } | Call::DrawRow { .. })
    }

    pub fn matches(&self) -> &[usize] {
        match self {
            Call::Read { matches }
            | Call::DrawWindow { matches, .. }
            | Call::DrawRow { matches, .. } => matches,
            _ => &[],
        }
    }

    pub fn answer(&self, line: &[u8], [conv, spans, rows, list]: Sizes) -> Answer {
        match *self {
            Call::Convert => answer::convert(line, conv),
            Call::Read { ref matches } => answer::read(line, matches, conv, spans),
            Call::Rows { width, mode } => answer::rows(line, width, mode, conv, spans, rows),
            Call::Height { width, mode } => answer::height(line, width, mode, conv, spans),
            Call::DrawWindow {
                ref matches,
                current,
                start,
                end,
            } => answer::draw_window(line, matches, current, start, end, conv, spans, list),
            Call::DrawRow {
                ref matches,
                current,
                first,
                count,
                width,
                mode,
            } => answer::draw_row(
                line, matches, current, first, count, width, mode, conv, spans, list,
            ),
        }
    }

    /// The answer where everything lent is enough.
    pub fn ample_answer(&self, line: &[u8]) -> Answer {
        self.answer(line, ample(line))
    }
}

/// A call on a line.
#[derive(Clone, Debug, PartialEq, Eq, Hash)]
pub struct Case {
    pub line: Vec<u8>,
    pub call: Call,
    /// 0 for what the call is not lent.
    sizes: Sizes,
}

impl Case {
    pub fn new(line: &[u8], call: Call, sizes: Sizes) -> Case {
        let line = line.to_vec();
        let lent = call.is_lent();
        let sizes = std::array::from_fn(|i| if lent[i] { sizes[i] } else { 0 });
        Case { line, call, sizes }
    }

    pub fn sizes(&self) -> Sizes {
        self.sizes
    }

    /// The same call with other sizes lent.
    pub fn lent(&self, sizes: Sizes) -> Case {
        Case::new(&self.line, self.call.clone(), sizes)
    }

    /// The call on another line, alike in all else.
    pub fn on(&self, line: &[u8]) -> Case {
        Case::new(line, self.call.clone(), self.sizes)
    }

    pub fn answer(&self) -> Answer {
        self.call.answer(&self.line, self.sizes)
    }
}
