//! Rows of a wrapped line.

use crate::raw::WRAPS;
use std::fmt;
use std::iter::FusedIterator;
use std::ops::{Bound, RangeBounds};

/// How a line is wrapped.
#[derive(Clone, Copy, Debug, Default, PartialEq, Eq, Hash)]
pub enum WrappingMode {
    /// Not: the line is one row.
    #[default]
    Unwrapped = 0,
    /// Between clusters; an Unprintable span counts 8 columns, as in the Rust.
    GraphemeBoundary = 1,
    /// Between words, a word wider than the row between clusters; an Unprintable span counts
    /// 8 columns, as in the Rust.
    WordBoundary = 2,
    /// Between clusters; an Unprintable span counts the columns that are drawn. The rows of a
    /// line, drawn one after the other, then show all of it.
    GraphemeBoundaryAsDrawn = 3,
    /// Between words; an Unprintable span counts the columns that are drawn. The rows of a
    /// line, drawn one after the other, then show all of it.
    WordBoundaryAsDrawn = 4,
}

impl WrappingMode {
    /// The mode's number.
    ///
    /// ```
    /// assert_eq!(console_lines::WrappingMode::WordBoundary.number(), 2);
    /// ```
    pub const fn number(self) -> usize {
        self as usize
    }

    /// The mode of a number, 0 to 4.
    ///
    /// ```
    /// use console_lines::WrappingMode;
    ///
    /// assert_eq!(WrappingMode::from_number(1), Some(WrappingMode::GraphemeBoundary));
    /// assert_eq!(WrappingMode::from_number(5), None);
    /// ```
    pub const fn from_number(number: usize) -> Option<WrappingMode> {
        Some(match number {
            0 => WrappingMode::Unwrapped,
            1 => WrappingMode::GraphemeBoundary,
            2 => WrappingMode::WordBoundary,
            3 => WrappingMode::GraphemeBoundaryAsDrawn,
            4 => WrappingMode::WordBoundaryAsDrawn,
            _ => return None,
        })
    }
}

/// A width in columns, at most 65,535, and how lines are wrapped at it.
#[derive(Clone, Copy, Debug, PartialEq, Eq, Hash)]
pub struct Wrapping {
    /// The columns of a row.
    pub width: usize,
    /// Where rows may end.
    pub mode: WrappingMode,
}

impl Wrapping {
    /// A width and a mode.
    ///
    /// ```
    /// use console_lines::{height, Wrapping, WrappingMode};
    ///
    /// let wrapping = Wrapping::new(4, WrappingMode::WordBoundary);
    /// assert_eq!(height(b"ab cd", wrapping), Ok(2));
    /// ```
    pub const fn new(width: usize, mode: WrappingMode) -> Wrapping {
        Wrapping { width, mode }
    }
}

/// The columns of a line that one row takes.
///
/// As [`RangeBounds`] it is the range from `start` up to `end`, or without an end.
#[derive(Clone, Copy, Debug, PartialEq, Eq, Hash)]
pub struct Row {
    /// The first column.
    pub start: usize,
    /// The column behind the last; none for the row of an unwrapped line, which goes on as far
    /// as the line does. (The library gives the largest number there.)
    pub end: Option<usize>,
}

impl Row {
    /// The row of a pair in a row list.
    ///
    /// ```
    /// use console_lines::Row;
    ///
    /// assert_eq!(Row::from_pair([4, 6]), Row { start: 4, end: Some(6) });
    /// assert_eq!(Row::from_pair([0, usize::MAX]), Row { start: 0, end: None });
    /// ```
    pub const fn from_pair([start, end]: [usize; 2]) -> Row {
        let end = match end {
            usize::MAX => None,
            _ => Some(end),
        };
        Row { start, end }
    }

    /// How many columns it has; none where it has no end.
    ///
    /// ```
    /// use console_lines::Row;
    ///
    /// assert_eq!(Row { start: 4, end: Some(6) }.width(), Some(2));
    /// assert_eq!(Row { start: 0, end: None }.width(), None);
    /// ```
    pub fn width(&self) -> Option<usize> {
        self.end.map(|end| end.saturating_sub(self.start))
    }
}

impl RangeBounds<usize> for Row {
    fn start_bound(&self) -> Bound<&usize> {
        Bound::Included(&self.start)
    }

    fn end_bound(&self) -> Bound<&usize> {
        match &self.end {
            Some(end) => Bound::Excluded(end),
            None => Bound::Unbounded,
        }
    }
}

/// As a range of Rust: `4..6`, or `0..` without an end.
impl fmt::Display for Row {
    fn fmt(&self, f: &mut fmt::Formatter<'_>) -> fmt::Result {
        write!(f, "{}..", self.start)?;
        match self.end {
            Some(end) => write!(f, "{end}"),
            None => Ok(()),
        }
    }
}

/// The rows in a row list.
#[derive(Clone, Debug)]
pub struct Rows<'m> {
    pairs: std::slice::ChunksExact<'m, usize>,
}

impl<'m> Rows<'m> {
    /// The first so many pairs of a list.
    pub(crate) fn written(list: &'m [usize], count: usize) -> Rows<'m> {
        Rows {
            pairs: list[..2 * count].chunks_exact(2),
        }
    }
}

impl Iterator for Rows<'_> {
    type Item = Row;

    fn next(&mut self) -> Option<Row> {
        self.pairs
            .next()
            .map(|pair| Row::from_pair([pair[0], pair[1]]))
    }

    fn size_hint(&self) -> (usize, Option<usize>) {
        self.pairs.size_hint()
    }
}

impl ExactSizeIterator for Rows<'_> {}
impl FusedIterator for Rows<'_> {}

/// Up to four wraps of one line that are kept from call to call, found by width and mode;
/// the least recently used gives way. One of more than 1,024 rows is not kept.
///
/// What is kept is not compared with the line: [`clear`](Wraps::clear) it for another one.
#[derive(Clone, PartialEq, Eq)]
pub struct Wraps {
    numbers: Box<[usize; WRAPS]>,
}

impl Wraps {
    /// None kept; takes 65,696 bytes of the heap.
    ///
    /// ```
    /// use console_lines::{cached_height, Wrapping, WrappingMode, Wraps};
    ///
    /// let mut wraps = Wraps::new();
    /// let wrapping = Wrapping::new(2, WrappingMode::GraphemeBoundary);
    /// assert_eq!(cached_height(b"abc", wrapping, &mut wraps), Ok(2));
    /// wraps.clear();
    /// assert!(wraps == Wraps::new());
    /// ```
    pub fn new() -> Wraps {
        let numbers = vec![0; WRAPS].into_boxed_slice();
        Wraps {
            numbers: numbers.try_into().expect("as many numbers"),
        }
    }

    /// Forgets all wraps.
    ///
    /// ```
    /// use console_lines::{cached_height, Wrapping, WrappingMode, Wraps};
    ///
    /// let mut wraps = Wraps::new();
    /// let wrapping = Wrapping::new(2, WrappingMode::GraphemeBoundary);
    /// assert_eq!(cached_height(b"abc", wrapping, &mut wraps), Ok(2));
    /// wraps.clear();
    /// assert_eq!(cached_height(b"a", wrapping, &mut wraps), Ok(1));
    /// ```
    pub fn clear(&mut self) {
        self.numbers.fill(0);
    }

    pub(crate) fn numbers(&mut self) -> &mut [usize; WRAPS] {
        &mut self.numbers
    }
}

impl Default for Wraps {
    fn default() -> Wraps {
        Wraps::new()
    }
}

impl fmt::Debug for Wraps {
    fn fmt(&self, f: &mut fmt::Formatter<'_>) -> fmt::Result {
        f.debug_struct("Wraps").finish_non_exhaustive()
    }
}

#[cfg(test)]
mod tests {
    use super::*;

    #[test]
    fn modes_have_their_numbers() {
        for number in 0..5 {
            let mode = WrappingMode::from_number(number).expect("a mode");
            assert_eq!(mode.number(), number);
        }
        assert_eq!(WrappingMode::from_number(usize::MAX), None);
    }

    #[test]
    fn rows_are_ranges() {
        let list = [0, 4, 4, 6, 0, 0];
        let rows: Vec<Row> = Rows::written(&list, 2).collect();
        assert_eq!(
            rows.iter().map(Row::to_string).collect::<Vec<_>>(),
            ["0..4", "4..6"]
        );
        assert!(rows[1].contains(&5) && !rows[1].contains(&6));
        let unwrapped = Row::from_pair([0, usize::MAX]);
        assert_eq!(unwrapped.to_string(), "0..");
        assert!(unwrapped.contains(&usize::MAX));
    }
}
