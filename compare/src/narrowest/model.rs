//! A model of the narrowest screen, by document 02's words. The line is wrapped by the
//! source at every width up to its last column, from there down; what is kept for each
//! number of rows is the least width that takes so many.

use super::Case;
use crate::units::{last_column, units};
use oracle::format::answer_text;
use oracle::source::SourceLine;
use oracle::{Answer, Call};
use std::fmt;
use std::ops::RangeInclusive;

const LONGEST_LINE: usize = 4_096;
const MODES: RangeInclusive<usize> = 1..=2;
/// Of the wanted row count and of the greatest width.
const ADMITTED: RangeInclusive<usize> = 1..=65_535;

/// What the call returns and leaves: the line and its spans as height leaves them.
#[derive(Clone, Debug, PartialEq, Eq)]
pub struct Expected {
    pub answer: Answer,
    pub tried: usize,
}

/// The text behind ` = `: that of height, and the number tried.
impl fmt::Display for Expected {
    fn fmt(&self, f: &mut fmt::Formatter<'_>) -> fmt::Result {
        let height = Call::Height { width: 0, mode: 1 };
        let Expected { answer, tried } = self;
        write!(f, "{} {tried}", answer_text(&height, answer))
    }
}

/// A line, and what is known of its rows.
pub struct Model {
    line: Vec<u8>,
    reading: Answer,
    last_column: usize,
    /// In each mode, once it is asked for: for each number of rows the least width that
    /// takes so many, if one does.
    least: [Option<Vec<Option<usize>>>; 2],
}

impl Model {
    pub fn new(line: &[u8]) -> Model {
        let matches = Vec::new();
        let reading = Call::Read { matches }.ample_answer(line);
        let last_column = last_column(&units(&reading));
        Model {
            line: line.to_vec(),
            reading,
            last_column,
            least: [None, None],
        }
    }

    /// The number of widths tried is never above this.
    pub fn most_tried(&self) -> usize {
        self.last_column.max(1)
    }

    pub fn answer(&mut self, case: &Case) -> Expected {
        if self.line != case.line {
            *self = Model::new(&case.line);
        }
        match self.width(case) {
            Ok(width) => Expected {
                answer: Answer {
                    count: width.unwrap_or(0),
                    ..self.reading.clone()
                },
                tried: width.unwrap_or(case.greatest),
            },
            Err(number) => Expected {
                answer: Answer {
                    number,
                    ..Answer::default()
                },
                tried: 0,
            },
        }
    }

    /// The questions in their order; then the least width, if it is not too great.
    fn width(&mut self, case: &Case) -> Result<Option<usize>, usize> {
        let [conv, spans] = case.lent;
        let numbers = MODES.contains(&case.mode)
            && ADMITTED.contains(&case.wanted)
            && ADMITTED.contains(&case.greatest);
        let questions = [
            (1, self.line.len() <= LONGEST_LINE),
            (2, conv >= 8 * self.line.len()),
            (4, spans >= self.reading.count),
            (5, numbers),
        ];
        match questions.iter().find(|(_, yes)| !yes) {
            Some((number, _)) => Err(*number),
            None => {
                let least = self.least(case.mode, case.wanted);
                Ok(Some(least).filter(|width| *width <= case.greatest))
            }
        }
    }

    /// The least width at which the line takes so many rows at most.
    fn least(&mut self, mode: usize, wanted: usize) -> usize {
        let most = self.most_tried();
        let line = &self.line;
        let swept = self.least[mode - 1].get_or_insert_with(|| least_widths(line, mode, most));
        let widths = swept.iter().take(wanted + 1).flatten();
        *widths.min().expect("a width of one row")
    }
}

/// For each number of rows the least width that takes so many. At the line's last column,
/// and at 1 at least, it takes one, so that no greater width is the least of any number.
fn least_widths(line: &[u8], mode: usize, most: usize) -> Vec<Option<usize>> {
    let line = SourceLine::read(line);
    let mut least = Vec::new();
    for width in (1..=most).rev() {
        let rows = line.rows(width, mode).len();
        if least.len() <= rows {
            least.resize(rows + 1, None);
        }
        least[rows] = Some(width);
        assert!(width < most || rows == 1, "{rows} rows at the last column");
    }
    least
}
