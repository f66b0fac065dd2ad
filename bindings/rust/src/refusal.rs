//! Why a call is refused.

use crate::raw::Answer;
use std::error::Error;
use std::fmt;

/// The question that a call answers no, named as in include/console_lines.h: docs/SCOPE.md has
/// them in full.
///
/// A refused call has written zeros to all memory that it was lent for writing.
///
/// ```
/// use console_lines::{convert, Refusal};
///
/// let refusal = convert(&[b'a'; 4097]).unwrap_err();
/// assert_eq!(refusal, Refusal::LineTooLong);
/// assert_eq!(refusal.number(), 1);
/// assert_eq!(refusal.to_string(), "the line has more than 4,096 bytes");
/// ```
#[derive(Clone, Copy, Debug, PartialEq, Eq, Hash, PartialOrd, Ord)]
#[non_exhaustive]
pub enum Refusal {
    /// 1: a line, or one that would be written, has more than 4,096 bytes.
    LineTooLong = 1,
    /// 2: the conversion buffer has fewer bytes than 8 times the line's.
    ConvTooShort = 2,
    /// 3: the matches are not pairs, in order, each start at most its end, all inside the
    /// text searched.
    MatchesNotInOrder = 3,
    /// 4: the span list has fewer places than the line has spans.
    SpansTooFew = 4,
    /// 5: a mode, width, row or window number is out of range.
    OutOfRange = 5,
    /// 6: the row list has fewer pairs than the line has rows.
    RowsTooFew = 6,
    /// 7: a window that starts above 0 does not end behind its start.
    WindowEmpty = 7,
    /// 8: a cluster begins left of the window and ends right of it.
    ClusterWiderThanWindow = 8,
    /// 9: the change list, the cells or the stored form do not fit.
    OutputTooShort = 9,
    /// 10: a change list or a stored form is malformed.
    ListMalformed = 10,
    /// 11: a text passes the last column of the screen row.
    TextPassesLastColumn = 11,
    /// 12: the body of a change has more than 65,535 bytes.
    BodyTooLong = 12,
    /// 16: what is to be written is not whole cells of a byte and a style.
    CellsMalformed = 16,
    /// 17: the written line does not fit.
    ReportTooShort = 17,
    /// 18: the reader is neither the bench nor the crew.
    NoSuchReader = 18,
}

impl Refusal {
    /// Every refusal, by number.
    pub const ALL: [Refusal; 15] = [
        Refusal::LineTooLong,
        Refusal::ConvTooShort,
        Refusal::MatchesNotInOrder,
        Refusal::SpansTooFew,
        Refusal::OutOfRange,
        Refusal::RowsTooFew,
        Refusal::WindowEmpty,
        Refusal::ClusterWiderThanWindow,
        Refusal::OutputTooShort,
        Refusal::ListMalformed,
        Refusal::TextPassesLastColumn,
        Refusal::BodyTooLong,
        Refusal::CellsMalformed,
        Refusal::ReportTooShort,
        Refusal::NoSuchReader,
    ];

    /// The question's number.
    ///
    /// ```
    /// assert_eq!(console_lines::Refusal::ListMalformed.number(), 10);
    /// ```
    pub const fn number(self) -> usize {
        self as usize
    }

    /// The refusal of a number, if there is such a question.
    ///
    /// ```
    /// use console_lines::Refusal;
    ///
    /// assert_eq!(Refusal::from_number(7), Some(Refusal::WindowEmpty));
    /// assert_eq!(Refusal::from_number(13), None);
    /// ```
    pub fn from_number(number: usize) -> Option<Refusal> {
        let mut all = Refusal::ALL.into_iter();
        all.find(|refusal| refusal.number() == number)
    }

    /// Whether more lent memory would have changed the answer.
    ///
    /// ```
    /// use console_lines::{convert_into, Refusal};
    ///
    /// let refusal = convert_into(b"abc", &mut [0; 23]).unwrap_err();
    /// assert!(refusal.is_for_memory());
    /// assert!(!Refusal::LineTooLong.is_for_memory());
    /// ```
    pub const fn is_for_memory(self) -> bool {
        matches!(
            self,
            Refusal::ConvTooShort
                | Refusal::SpansTooFew
                | Refusal::RowsTooFew
                | Refusal::OutputTooShort
                | Refusal::ReportTooShort
        )
    }
}

/// The refusal in words.
impl fmt::Display for Refusal {
    fn fmt(&self, f: &mut fmt::Formatter<'_>) -> fmt::Result {
        f.write_str(match self {
            Refusal::LineTooLong => "the line has more than 4,096 bytes",
            Refusal::ConvTooShort => {
                "the conversion buffer has fewer than 8 times the line's bytes"
            }
            Refusal::MatchesNotInOrder => {
                "the matches are not pairs in order inside the text searched"
            }
            Refusal::SpansTooFew => "more spans than the list has places",
            Refusal::OutOfRange => "a mode, width, row or window number beyond its limit",
            Refusal::RowsTooFew => "more rows than the list has places",
            Refusal::WindowEmpty => "the window's start + 1 is above its end",
            Refusal::ClusterWiderThanWindow => "a cluster wider than the window",
            Refusal::OutputTooShort => "the output does not fit",
            Refusal::ListMalformed => "the change list is malformed",
            Refusal::TextPassesLastColumn => "a text passes the last column",
            Refusal::BodyTooLong => "a body has more than 65,535 bytes",
            Refusal::CellsMalformed => {
                "these are not whole cells of a byte 20 to 7E except 5F and a style 0 to 3"
            }
            Refusal::ReportTooShort => "the output buffer is too short",
            Refusal::NoSuchReader => "the reader is neither bench nor crew",
        })
    }
}

impl Error for Refusal {}

/// The count, or the refusal of a number.
///
/// # Panics
///
/// Where the number is no question's: the library has no such answer.
pub(crate) fn accepted(answer: Answer) -> Result<usize, Refusal> {
    match answer.number {
        0 => Ok(answer.count),
        number => Err(Refusal::from_number(number).expect("the number of a question")),
    }
}

#[cfg(test)]
mod tests {
    use super::*;

    #[test]
    fn numbers_are_the_questions() {
        let numbers: Vec<usize> = (0..=20)
            .filter(|&number| Refusal::from_number(number).is_some())
            .collect();
        assert_eq!(numbers, [1, 2, 3, 4, 5, 6, 7, 8, 9, 10, 11, 12, 16, 17, 18]);
        for refusal in Refusal::ALL {
            assert_eq!(Refusal::from_number(refusal.number()), Some(refusal));
        }
    }

    #[test]
    fn words_differ() {
        let mut words: Vec<String> = Refusal::ALL.map(|refusal| refusal.to_string()).to_vec();
        words.sort();
        words.dedup();
        assert_eq!(words.len(), Refusal::ALL.len());
    }
}
