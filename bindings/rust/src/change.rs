//! Change lists, taken apart.

use crate::attributes::{CellAttributes, ColorAttribute};
use std::error::Error;
use std::fmt;
use std::iter::FusedIterator;

/// The bytes in front of a body: its length and the kind.
const HEAD: usize = 6;

/// A change of what is drawn.
#[derive(Clone, Copy, Debug, PartialEq, Eq)]
pub enum Change<'l> {
    /// Text is written.
    Text(&'l str),
    /// Text behind it is written so.
    AllAttributes(CellAttributes),
    /// The row is cleared from the cursor to its end, in a colour.
    ClearToEndOfLine(ColorAttribute),
    /// The cursor moves right by one column.
    CursorRight,
}

impl<'l> Change<'l> {
    fn from_body(kind: u16, body: &'l [u8]) -> Option<Change<'l>> {
        match (kind, body) {
            (1, text) => std::str::from_utf8(text).ok().map(Change::Text),
            (2, body) => CellAttributes::from_body(body).map(Change::AllAttributes),
            (3, &[a, b, c, d]) => {
                ColorAttribute::from_bytes([a, b, c, d]).map(Change::ClearToEndOfLine)
            }
            (4, []) => Some(Change::CursorRight),
            _ => None,
        }
    }
}

/// A change list is malformed: [`store`](crate::store) would refuse it by question 10.
#[derive(Clone, Copy, Debug, PartialEq, Eq)]
pub struct Malformed {
    /// The place of the change that is none.
    pub place: usize,
}

impl fmt::Display for Malformed {
    fn fmt(&self, f: &mut fmt::Formatter<'_>) -> fmt::Result {
        write!(f, "the change list is malformed at byte {}", self.place)
    }
}

impl Error for Malformed {}

/// The changes of a list.
///
/// The list may be any bytes. Where a change is malformed the iterator yields an error with
/// its place, and ends; it never panics. What it takes is what [`store`](crate::store) takes,
/// bodies longer than 65,535 bytes besides: attribute bodies may be old ones of 24 bytes.
#[derive(Clone, Debug)]
pub struct Changes<'l> {
    list: &'l [u8],
    place: usize,
}

impl<'l> Changes<'l> {
    /// The changes of any bytes.
    ///
    /// ```
    /// use console_lines::{Change, Changes, Malformed};
    ///
    /// let list = b"\x01\0\0\0\x01\0a\x01\0\0\0\x09\0b";
    /// let mut changes = Changes::new(list);
    /// assert_eq!(changes.next(), Some(Ok(Change::Text("a"))));
    /// assert_eq!(changes.next(), Some(Err(Malformed { place: 7 })));
    /// assert_eq!(changes.next(), None);
    /// ```
    pub fn new(list: &'l [u8]) -> Changes<'l> {
        Changes { list, place: 0 }
    }

    /// The change at the place, and the place behind it.
    fn change(&self) -> Option<(Change<'l>, usize)> {
        let (head, rest) = self.list[self.place..].split_at_checked(HEAD)?;
        let len = u32::from_le_bytes([head[0], head[1], head[2], head[3]]);
        let len = usize::try_from(len).ok()?;
        let body = rest.get(..len)?;
        let change = Change::from_body(u16::from_le_bytes([head[4], head[5]]), body)?;
        Some((change, self.place + HEAD + len))
    }
}

impl<'l> Iterator for Changes<'l> {
    type Item = Result<Change<'l>, Malformed>;

    fn next(&mut self) -> Option<Self::Item> {
        let place = self.place;
        if place == self.list.len() {
            return None;
        }
        let found = self.change();
        self.place = found.map_or(self.list.len(), |(_, behind)| behind);
        Some(found.map(|(change, _)| change).ok_or(Malformed { place }))
    }
}

impl FusedIterator for Changes<'_> {}

/// The changes of a list that a drawing left, none of which is malformed.
pub(crate) fn drawn(list: &[u8]) -> impl FusedIterator<Item = Change<'_>> + Clone {
    Changes::new(list).flatten()
}

#[cfg(test)]
mod tests {
    use super::*;

    fn change(kind: u16, body: &[u8]) -> Vec<u8> {
        let len = u32::try_from(body.len()).expect("a short body");
        [&len.to_le_bytes(), &kind.to_le_bytes()[..], body].concat()
    }

    #[test]
    fn each_kind_is_decoded() {
        let list = [
            change(1, "né".as_bytes()),
            change(2, &[0; 25]),
            change(2, &[0; 24]),
            change(3, &[1, 9, 0, 0]),
            change(4, &[]),
            change(1, b""),
        ]
        .concat();
        let changes: Result<Vec<Change>, Malformed> = Changes::new(&list).collect();
        let plain = Change::AllAttributes(CellAttributes::default());
        let expected = vec![
            Change::Text("né"),
            plain,
            plain,
            Change::ClearToEndOfLine(ColorAttribute::PaletteIndex(9)),
            Change::CursorRight,
            Change::Text(""),
        ];
        assert_eq!(changes, Ok(expected));
    }

    /// Behind a change that is well formed, the bytes are an error, and nothing follows it.
    fn assert_malformed(bytes: &[u8]) {
        let list = [&change(4, &[]), bytes].concat();
        let mut changes = Changes::new(&list);
        assert_eq!(changes.next(), Some(Ok(Change::CursorRight)));
        assert_eq!(changes.next(), Some(Err(Malformed { place: HEAD })));
        assert_eq!(changes.next(), None);
        assert_eq!(changes.next(), None);
    }

    #[test]
    fn malformed_changes_end_the_list() {
        let malformed = [
            change(0, &[]),
            change(5, &[]),
            change(0x0101, b"a"),
            change(1, &[0xFF]),
            change(1, &[0xED, 0xA0, 0x80]),
            change(2, &[0; 23]),
            change(2, &[0; 26]),
            change(2, &[3; 25]),
            change(3, &[0; 3]),
            change(3, &[0; 5]),
            change(3, &[0, 1, 0, 0]),
            change(4, &[0]),
        ];
        for bytes in malformed {
            assert_malformed(&bytes);
            assert_malformed(&[bytes, change(4, &[])].concat());
        }
    }

    #[test]
    fn a_cut_change_ends_the_list() {
        for whole in [change(1, b"ab"), change(2, &[0; 25]), change(4, &[])] {
            for cut in 1..whole.len() {
                assert_malformed(&whole[..cut]);
            }
        }
        assert_malformed(&[0xFF; HEAD]);
    }

    #[test]
    fn no_bytes_have_no_changes() {
        assert_eq!(Changes::new(&[]).next(), None);
    }
}
