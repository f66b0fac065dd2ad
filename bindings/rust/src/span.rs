//! Spans of the converted line.

use crate::raw::SpanRecord;
use std::iter::FusedIterator;
use std::ops::Range;

/// A match of a search: its start and end in the text searched, which is the converted line
/// without its last newline and without each style order; other sequences at ESC stay in it.
pub type Match = [usize; 2];

/// What a span is.
#[derive(Clone, Copy, Debug, PartialEq, Eq, Hash)]
pub enum SpanKind {
    /// Text.
    Text,
    /// Text of the match that has this number, counted from 0.
    Match(usize),
    /// A control byte, drawn as `<1B>`.
    Control,
    /// A damaged byte, drawn as `<FF>`.
    Invalid,
    /// A cluster without width, drawn as `<U+0301>`.
    Unprintable,
    /// A style order, `ESC [ .. m`.
    SgrSequence,
    /// A hyperlink, `ESC ] 8 ; .. ; URI`.
    Hyperlink,
    /// Line drawing on or off, `ESC ( 0`, `ESC ( B`.
    LineDrawing,
    /// An ignored sequence.
    Ignore,
    /// A tab.
    Tab,
    /// CR LF.
    CrLf,
    /// LF.
    Lf,
    /// Erase to the line's end, `ESC [ K`.
    EraseToEndOfLine,
}

impl SpanKind {
    /// The kind's number in a record, 1 to 13.
    ///
    /// ```
    /// use console_lines::SpanKind;
    ///
    /// assert_eq!(SpanKind::Match(7).number(), 2);
    /// ```
    pub const fn number(self) -> usize {
        match self {
            SpanKind::Text => 1,
            SpanKind::Match(_) => 2,
            SpanKind::Control => 3,
            SpanKind::Invalid => 4,
            SpanKind::Unprintable => 5,
            SpanKind::SgrSequence => 6,
            SpanKind::Hyperlink => 7,
            SpanKind::LineDrawing => 8,
            SpanKind::Ignore => 9,
            SpanKind::Tab => 10,
            SpanKind::CrLf => 11,
            SpanKind::Lf => 12,
            SpanKind::EraseToEndOfLine => 13,
        }
    }

    const fn from_record(record: &SpanRecord) -> Option<SpanKind> {
        Some(match record.kind {
            1 => SpanKind::Text,
            2 => SpanKind::Match(record.matched),
            3 => SpanKind::Control,
            4 => SpanKind::Invalid,
            5 => SpanKind::Unprintable,
            6 => SpanKind::SgrSequence,
            7 => SpanKind::Hyperlink,
            8 => SpanKind::LineDrawing,
            9 => SpanKind::Ignore,
            10 => SpanKind::Tab,
            11 => SpanKind::CrLf,
            12 => SpanKind::Lf,
            13 => SpanKind::EraseToEndOfLine,
            _ => return None,
        })
    }
}

/// A part of the converted line of one kind.
#[derive(Clone, Copy, Debug, PartialEq, Eq, Hash)]
pub struct Span {
    /// What it is.
    pub kind: SpanKind,
    /// The place, in the converted line, of the bytes that it was read from.
    pub place: usize,
    /// How many bytes these are, at least 1.
    pub len: usize,
}

impl Span {
    /// The places of its bytes in the converted line.
    ///
    /// ```
    /// use console_lines::{read, SpanKind};
    ///
    /// let line = read(b"gain\t42", &[])?;
    /// let tab = line.spans.iter().find(|span| span.kind == SpanKind::Tab).unwrap();
    /// assert_eq!(&line.converted[tab.range()], b"\t");
    /// # Ok::<(), console_lines::Refusal>(())
    /// ```
    pub fn range(&self) -> Range<usize> {
        self.place..self.place + self.len
    }

    /// The span of a record; none where its kind is not 1 to 13.
    ///
    /// ```
    /// use console_lines::{Span, SpanKind, SpanRecord};
    ///
    /// let record = SpanRecord { kind: 10, place: 4, len: 1, matched: 0 };
    /// let span = Span { kind: SpanKind::Tab, place: 4, len: 1 };
    /// assert_eq!(Span::from_record(&record), Some(span));
    /// assert_eq!(Span::from_record(&SpanRecord::default()), None);
    /// ```
    pub const fn from_record(record: &SpanRecord) -> Option<Span> {
        let &SpanRecord { place, len, .. } = record;
        match SpanKind::from_record(record) {
            Some(kind) => Some(Span { kind, place, len }),
            None => None,
        }
    }
}

/// The spans in a span list, up to the first record that is none.
#[derive(Clone, Debug)]
pub struct Spans<'m> {
    records: std::slice::Iter<'m, SpanRecord>,
}

impl<'m> Spans<'m> {
    /// The spans of a list that a call has written: what is behind them is zero.
    pub(crate) fn written(list: &'m [SpanRecord]) -> Spans<'m> {
        let count = list.partition_point(|record| record.kind != 0);
        Spans {
            records: list[..count].iter(),
        }
    }
}

impl Iterator for Spans<'_> {
    type Item = Span;

    fn next(&mut self) -> Option<Span> {
        self.records.next().and_then(Span::from_record)
    }

    fn size_hint(&self) -> (usize, Option<usize>) {
        self.records.size_hint()
    }
}

impl ExactSizeIterator for Spans<'_> {}
impl FusedIterator for Spans<'_> {}

#[cfg(test)]
mod tests {
    use super::*;

    #[test]
    fn kinds_have_their_numbers() {
        for kind in 1..=13 {
            let record = SpanRecord {
                kind,
                place: 3,
                len: 2,
                matched: 5,
            };
            let span = Span::from_record(&record).expect("a span");
            assert_eq!(span.kind.number(), kind);
            assert_eq!(span.range(), 3..5);
        }
        for kind in [0, 14, usize::MAX] {
            let record = SpanRecord {
                kind,
                ..SpanRecord::default()
            };
            assert_eq!(Span::from_record(&record), None);
        }
    }

    #[test]
    fn spans_end_at_the_zeros() {
        let text = SpanRecord {
            kind: 1,
            place: 0,
            len: 1,
            matched: 0,
        };
        let zero = SpanRecord::default();
        for (list, count) in [
            (&[][..], 0),
            (&[zero], 0),
            (&[text], 1),
            (&[text, text, zero], 2),
        ] {
            let spans = Spans::written(list);
            assert_eq!(spans.len(), count);
            assert_eq!(spans.count(), count);
        }
    }
}
