//! Cells: of a screen row, and of a report for printers.

use crate::attributes::{CellAttributes, BODY};
use std::iter::FusedIterator;

/// A cell of a screen row.
#[derive(Clone, Copy, Debug, PartialEq, Eq)]
pub struct Cell<'m> {
    /// The cluster that begins in it, a space for a blank; empty in the later cells of a wide
    /// one.
    pub text: &'m str,
    /// How it is drawn.
    pub attributes: CellAttributes,
}

/// The cells of a screen row.
#[derive(Clone, Debug)]
pub struct Cells<'m> {
    bytes: &'m [u8],
}

impl<'m> Cells<'m> {
    /// The cells that a call has written.
    pub(crate) fn written(bytes: &'m [u8]) -> Cells<'m> {
        Cells { bytes }
    }

    /// The bytes of the cells that are left.
    ///
    /// ```
    /// use console_lines::screen_row_into;
    ///
    /// let mut out = [0; 60];
    /// let mut cells = screen_row_into(b"", 2, &mut out)?;
    /// cells.next();
    /// assert_eq!(cells.as_bytes().len(), 30);
    /// # Ok::<(), console_lines::Refusal>(())
    /// ```
    pub fn as_bytes(&self) -> &'m [u8] {
        self.bytes
    }

    /// The first cell, and the bytes behind it.
    fn cell(&self) -> Option<(Cell<'m>, &'m [u8])> {
        let (len, rest) = self.bytes.split_first_chunk()?;
        let len = usize::try_from(u32::from_le_bytes(*len)).ok()?;
        let (text, rest) = rest.split_at_checked(len)?;
        let (body, rest) = rest.split_at_checked(BODY)?;
        let cell = Cell {
            text: std::str::from_utf8(text).ok()?,
            attributes: CellAttributes::from_body(body)?,
        };
        Some((cell, rest))
    }
}

/// Ends behind the last cell; a call leaves no other bytes.
impl<'m> Iterator for Cells<'m> {
    type Item = Cell<'m>;

    fn next(&mut self) -> Option<Cell<'m>> {
        let found = self.cell();
        self.bytes = found.map_or(&[], |(_, rest)| rest);
        found.map(|(cell, _)| cell)
    }
}

impl FusedIterator for Cells<'_> {}

/// How a printer writes a byte: struck over itself, over an underscore, or both.
#[derive(Clone, Copy, Debug, Default, PartialEq, Eq, Hash)]
pub enum Overstrike {
    /// Once.
    #[default]
    Normal = 0,
    /// Over itself.
    Bold = 1,
    /// Over an underscore.
    Underline = 2,
    /// Over an underscore and itself.
    BoldUnderline = 3,
}

/// A cell of a report for printers: a byte 20 to 7E except 5F, and its style's number.
pub type PrinterCell = [u8; 2];

impl Overstrike {
    /// A cell in this style. Which bytes may stand there is asked by
    /// [`write_cells`](crate::write_cells).
    ///
    /// ```
    /// use console_lines::Overstrike;
    ///
    /// assert_eq!(Overstrike::Bold.cell(b'a'), [b'a', 1]);
    /// ```
    pub const fn cell(self, byte: u8) -> PrinterCell {
        [byte, self as u8]
    }
}

#[cfg(test)]
mod tests {
    use super::*;

    fn cell(text: &str, body: &[u8; BODY]) -> Vec<u8> {
        let len = u32::try_from(text.len()).expect("a short text");
        [&len.to_le_bytes(), text.as_bytes(), body].concat()
    }

    #[test]
    fn cells_are_decoded() {
        let bytes = [cell("漢", &[0; BODY]), cell("", &[0; BODY])].concat();
        let texts: Vec<&str> = Cells::written(&bytes).map(|cell| cell.text).collect();
        assert_eq!(texts, ["漢", ""]);
    }

    #[test]
    fn other_bytes_end_the_row() {
        let good = cell("a", &[0; BODY]);
        for cut in 0..good.len() {
            let bytes = [&good[..], &good[..cut]].concat();
            assert_eq!(Cells::written(&bytes).count(), 1);
        }
        let mut wrong = good.clone();
        wrong[4] = 0xFF;
        assert_eq!(Cells::written(&wrong).count(), 0);
        assert_eq!(Cells::written(&cell("a", &[9; BODY])).count(), 0);
    }
}
