//! The calls with memory of their own. None is refused for want of it: a call is lent little at
//! first, since it writes all that it is lent, and what [`enough`](crate::enough) says where that
//! is refused.

use crate::cell::{Cells, PrinterCell};
use crate::change::{self, Change};
use crate::enough;
use crate::lending::{
    cached_height_into, cached_rows_into, convert_into, draw_row_into, draw_window_into,
    height_into, narrowest_into, read_into, restore_into, rows_into, screen_row_into, store_into,
    write_cells_into, Drawing, Narrowest, Wrapped,
};
use crate::raw::SpanRecord;
use crate::refusal::Refusal;
use crate::row::{Row, Wrapping, WrappingMode, Wraps};
use crate::span::{Match, Span};
use crate::view::View;
use std::iter::FusedIterator;
use std::ops::Range;

/// A line that was read.
#[derive(Clone, Debug, Default, PartialEq, Eq)]
pub struct Line {
    /// The converted line.
    pub converted: Vec<u8>,
    /// Its spans.
    pub spans: Vec<Span>,
}

/// A line that was wrapped.
#[derive(Clone, Debug, Default, PartialEq, Eq)]
pub struct WrappedLine {
    /// The line as it was read.
    pub line: Line,
    /// Its rows.
    pub rows: Vec<Row>,
}

/// A line that was drawn.
#[derive(Clone, Debug, Default, PartialEq, Eq)]
pub struct DrawnLine {
    /// The line as it was read. It is not for the crew: it tells of links.
    pub line: Line,
    /// The change list.
    pub list: Vec<u8>,
}

impl DrawnLine {
    /// The changes of the list, up to one that is malformed if the list was altered.
    ///
    /// ```
    /// use console_lines::{draw_window, CellAttributes, Change, View};
    ///
    /// let drawn = draw_window(b"a", &View::default(), 0..1)?;
    /// let plain = Change::AllAttributes(CellAttributes::default());
    /// assert!(drawn.changes().eq([Change::Text("a"), plain]));
    /// # Ok::<(), console_lines::Refusal>(())
    /// ```
    pub fn changes(&self) -> impl FusedIterator<Item = Change<'_>> + Clone {
        change::drawn(&self.list)
    }
}

/// A screen row.
#[derive(Clone, Debug, PartialEq, Eq)]
pub struct ScreenRow {
    bytes: Vec<u8>,
}

impl ScreenRow {
    /// Its cells, one for each column.
    ///
    /// ```
    /// use console_lines::screen_row;
    ///
    /// let row = screen_row(b"\x03\0\0\0\x01\0\xE6\xBC\xA2", 3)?;
    /// assert!(row.cells().map(|cell| cell.text).eq(["漢", "", " "]));
    /// # Ok::<(), console_lines::Refusal>(())
    /// ```
    pub fn cells(&self) -> Cells<'_> {
        Cells::written(&self.bytes)
    }

    /// The cells' bytes, as the header tells them.
    ///
    /// ```
    /// assert_eq!(console_lines::screen_row(b"", 1)?.as_bytes()[..5], *b"\x01\0\0\0 ");
    /// # Ok::<(), console_lines::Refusal>(())
    /// ```
    pub fn as_bytes(&self) -> &[u8] {
        &self.bytes
    }
}

/// The most rows of a kept wrap, which may be another line's.
const KEPT_ROWS: usize = 1_024;

/// The memory that a call on a line is lent.
struct Memory {
    conv: Vec<u8>,
    spans: Vec<SpanRecord>,
    rows: Vec<usize>,
    list: Vec<u8>,
}

/// How many numbers of a row list and bytes of a change list are enough for a call.
#[derive(Clone, Copy, Default)]
struct Lists {
    rows: usize,
    list: usize,
}

impl Memory {
    fn new(line: usize, spans: usize, lists: Lists) -> Memory {
        Memory {
            conv: vec![0; enough::conv(line)],
            spans: vec![SpanRecord::default(); spans],
            rows: vec![0; lists.rows],
            list: vec![0; lists.list],
        }
    }
}

/// Makes a call, lent as much as most lines need and, where that is refused, enough.
fn lent<T>(
    line: &[u8],
    lists: Lists,
    mut call: impl FnMut(&mut Memory) -> Result<T, Refusal>,
) -> Result<T, Refusal> {
    let line = line.len();
    let spans = enough::spans(line);
    let few = spans / 8 + 64;
    let little = Lists {
        rows: few.min(lists.rows),
        list: lists.list.min(2 * spans + 1_024),
    };
    match call(&mut Memory::new(line, few.min(spans), little)) {
        Err(refusal) if refusal.is_for_memory() => call(&mut Memory::new(line, spans, lists)),
        answer => answer,
    }
}

impl Line {
    /// A line that was read: how long the converted line is, conversion alone tells.
    fn new(line: &[u8], spans: Vec<Span>) -> Result<Line, Refusal> {
        let converted = convert(line)?;
        Ok(Line { converted, spans })
    }
}

/// Converts overstrikes into style orders.
///
/// ```
/// use console_lines::convert;
///
/// assert_eq!(convert(b"a\x08a")?, b"\x1B[1ma\x1B[22m");
/// # Ok::<(), console_lines::Refusal>(())
/// ```
///
/// # Errors
///
/// Question 1.
pub fn convert(line: &[u8]) -> Result<Vec<u8>, Refusal> {
    let mut conv = vec![0; enough::conv(line.len())];
    let count = convert_into(line, &mut conv)?.len();
    conv.truncate(count);
    Ok(conv)
}

/// Reads a line into spans.
///
/// ```
/// use console_lines::{read, Span, SpanKind};
///
/// let line = read(b"a\xFF", &[])?;
/// let text = Span { kind: SpanKind::Text, place: 0, len: 1 };
/// let invalid = Span { kind: SpanKind::Invalid, place: 1, len: 1 };
/// assert_eq!(line.spans, [text, invalid]);
/// # Ok::<(), console_lines::Refusal>(())
/// ```
///
/// # Errors
///
/// Questions 1 and 3.
pub fn read(line: &[u8], matches: &[Match]) -> Result<Line, Refusal> {
    lent(line, Lists::default(), |memory| {
        let reading = read_into(line, matches, &mut memory.conv, &mut memory.spans)?;
        Line::new(line, reading.spans().collect())
    })
}

/// Wraps a line into rows.
///
/// ```
/// use console_lines::{rows, Row, Wrapping, WrappingMode};
///
/// let wrapped = rows(b"ab cd", Wrapping::new(4, WrappingMode::WordBoundary))?;
/// assert_eq!(wrapped.rows, [Row::from_pair([0, 3]), Row::from_pair([3, 5])]);
/// # Ok::<(), console_lines::Refusal>(())
/// ```
///
/// # Errors
///
/// Questions 1 and 5.
pub fn rows(line: &[u8], wrapping: Wrapping) -> Result<WrappedLine, Refusal> {
    let rows = enough::rows(line.len());
    lent(line, Lists { rows, list: 0 }, |memory| {
        let Memory {
            conv, spans, rows, ..
        } = memory;
        owned(line, rows_into(line, wrapping, conv, spans, rows)?)
    })
}

fn owned(line: &[u8], wrapped: Wrapped) -> Result<WrappedLine, Refusal> {
    let rows = wrapped.rows().collect();
    let line = Line::new(line, wrapped.reading().spans().collect())?;
    Ok(WrappedLine { line, rows })
}

/// Counts the rows of a line.
///
/// ```
/// use console_lines::{height, Wrapping, WrappingMode};
///
/// assert_eq!(height(b"abcdef", Wrapping::new(4, WrappingMode::GraphemeBoundary)), Ok(2));
/// ```
///
/// # Errors
///
/// Questions 1 and 5.
pub fn height(line: &[u8], wrapping: Wrapping) -> Result<usize, Refusal> {
    lent(line, Lists::default(), |memory| {
        let (conv, spans) = (&mut memory.conv, &mut memory.spans);
        height_into(line, wrapping, conv, spans).map(|(height, _)| height)
    })
}

/// Finds the narrowest width, from 1 up to `greatest`, at which the line takes at most `wanted`
/// rows, trying one after the other.
///
/// ```
/// use console_lines::{narrowest, Narrowest, WrappingMode};
///
/// let found = narrowest(b"abcdef", WrappingMode::GraphemeBoundary, 1, 4)?;
/// assert_eq!(found, Narrowest { width: None, tried: 4 });
/// # Ok::<(), console_lines::Refusal>(())
/// ```
///
/// # Errors
///
/// Questions 1 and 5: the mode is GraphemeBoundary or WordBoundary, `wanted` and `greatest` are
/// 1 to 65,535.
pub fn narrowest(
    line: &[u8],
    mode: WrappingMode,
    wanted: usize,
    greatest: usize,
) -> Result<Narrowest, Refusal> {
    lent(line, Lists::default(), |memory| {
        let (conv, spans) = (&mut memory.conv, &mut memory.spans);
        narrowest_into(line, mode, wanted, greatest, conv, spans).map(|(found, _)| found)
    })
}

/// [`rows`] for a line that is asked again and again: a wrap that is kept is not made again.
///
/// ```
/// use console_lines::{cached_rows, rows, Wrapping, WrappingMode, Wraps};
///
/// let wrapping = Wrapping::new(4, WrappingMode::WordBoundary);
/// let mut wraps = Wraps::new();
/// for _ in 0..2 {
///     assert_eq!(cached_rows(b"ab cd", wrapping, &mut wraps)?, rows(b"ab cd", wrapping)?);
/// }
/// # Ok::<(), console_lines::Refusal>(())
/// ```
///
/// # Errors
///
/// Questions 1 and 5. `wraps` stay as they were.
pub fn cached_rows(
    line: &[u8],
    wrapping: Wrapping,
    wraps: &mut Wraps,
) -> Result<WrappedLine, Refusal> {
    let rows = enough::rows(line.len()).max(2 * KEPT_ROWS);
    lent(line, Lists { rows, list: 0 }, |memory| {
        let Memory {
            conv, spans, rows, ..
        } = memory;
        owned(
            line,
            cached_rows_into(line, wrapping, wraps, conv, spans, rows)?,
        )
    })
}

/// [`height`] with kept wraps.
///
/// ```
/// use console_lines::{cached_height, Wrapping, WrappingMode, Wraps};
///
/// let wrapping = Wrapping::new(4, WrappingMode::WordBoundary);
/// assert_eq!(cached_height(b"ab cd", wrapping, &mut Wraps::new()), Ok(2));
/// ```
///
/// # Errors
///
/// Questions 1 and 5. `wraps` stay as they were.
pub fn cached_height(line: &[u8], wrapping: Wrapping, wraps: &mut Wraps) -> Result<usize, Refusal> {
    lent(line, Lists::default(), |memory| {
        let (conv, spans) = (&mut memory.conv, &mut memory.spans);
        cached_height_into(line, wrapping, wraps, conv, spans).map(|(height, _)| height)
    })
}

/// Draws a window: the columns from its start up to its end, at most 1,048,576. Where the start
/// is above 0, its column has an arrow and the window begins behind it.
///
/// ```
/// use console_lines::{draw_window, Change, View};
///
/// let drawn = draw_window(b"range\t3.21 nm", &View::default(), 0..80)?;
/// let texts = drawn.changes().filter_map(|change| match change {
///     Change::Text(text) => Some(text),
///     _ => None,
/// });
/// assert_eq!(texts.collect::<String>(), "range   3.21 nm");
/// # Ok::<(), console_lines::Refusal>(())
/// ```
///
/// # Errors
///
/// Questions 1, 3, 5, 7 and 8.
pub fn draw_window(line: &[u8], view: &View, window: Range<usize>) -> Result<DrawnLine, Refusal> {
    let columns = window.end.saturating_sub(window.start);
    let list = enough::window(line.len(), columns);
    lent(line, Lists { rows: 0, list }, |memory| {
        let Memory {
            conv, spans, list, ..
        } = memory;
        let window = window.clone();
        drawn(
            line,
            draw_window_into(line, view, window, conv, spans, list)?,
        )
    })
}

fn drawn(line: &[u8], drawing: Drawing) -> Result<DrawnLine, Refusal> {
    let list = drawing.list().to_vec();
    let line = Line::new(line, drawing.reading().spans().collect())?;
    Ok(DrawnLine { line, list })
}

/// Draws some rows of a line, wrapped as by [`rows`] but with the view's matches. The range is of
/// row numbers, counted from 0; behind the last row there is nothing to draw.
///
/// ```
/// use console_lines::{draw_row, Change, View, Wrapping, WrappingMode};
///
/// let wrapping = Wrapping::new(4, WrappingMode::WordBoundary);
/// let drawn = draw_row(b"ab cd", &View::default(), 1..2, wrapping)?;
/// assert_eq!(drawn.changes().next(), Some(Change::Text("cd")));
/// # Ok::<(), console_lines::Refusal>(())
/// ```
///
/// # Errors
///
/// Questions 1, 3, 5 and 8: an empty range is refused by 5.
pub fn draw_row(
    line: &[u8],
    view: &View,
    rows: Range<usize>,
    wrapping: Wrapping,
) -> Result<DrawnLine, Refusal> {
    let list = enough::list(line.len());
    lent(line, Lists { rows: 0, list }, |memory| {
        let Memory {
            conv, spans, list, ..
        } = memory;
        let rows = rows.clone();
        drawn(
            line,
            draw_row_into(line, view, rows, wrapping, conv, spans, list)?,
        )
    })
}

/// Prints the changes of a list into a blank screen row of 1 to 4,096 columns. The list may be
/// any bytes. A window is shown whole in as many columns as it has, drawn rows in the larger of
/// their columns and the width times their number (where that is above 4,096, in any width above
/// their columns): in fewer, a clear may blank the last column.
///
/// ```
/// use console_lines::{draw_window, screen_row, View};
///
/// let drawn = draw_window(b"abc", &View::default(), 0..2)?;
/// let row = screen_row(&drawn.list, 2)?;
/// assert!(row.cells().map(|cell| cell.text).eq(["a", ">"]));
/// # Ok::<(), console_lines::Refusal>(())
/// ```
///
/// # Errors
///
/// Questions 5, 10 and 11. A drawing's list is never refused by 10, and never by 11 in as many
/// columns as were drawn, up to 4,096.
pub fn screen_row(list: &[u8], width: usize) -> Result<ScreenRow, Refusal> {
    let mut bytes = vec![0; enough::cells(list.len(), width)];
    let count = screen_row_into(list, width, &mut bytes)?.as_bytes().len();
    bytes.truncate(count);
    Ok(ScreenRow { bytes })
}

/// The stored form of a change list. The list may be any bytes.
///
/// ```
/// use console_lines::{store, Refusal};
///
/// assert_eq!(store(b"\x01\0\0\0\x01\0a")?, b"\x01\0\x01\0a");
/// assert_eq!(store(b"anything"), Err(Refusal::ListMalformed));
/// # Ok::<(), console_lines::Refusal>(())
/// ```
///
/// # Errors
///
/// Questions 10 and 12.
pub fn store(list: &[u8]) -> Result<Vec<u8>, Refusal> {
    let mut out = vec![0; enough::stored(list.len())];
    let count = store_into(list, &mut out)?.len();
    out.truncate(count);
    Ok(out)
}

/// The change list of a stored form, which may be any bytes.
///
/// ```
/// use console_lines::{draw_window, restore, store, View};
///
/// let list = draw_window(b"set 7", &View::default(), 0..80)?.list;
/// assert_eq!(restore(&store(&list)?)?, list);
/// # Ok::<(), console_lines::Refusal>(())
/// ```
///
/// # Errors
///
/// Question 10.
pub fn restore(stored: &[u8]) -> Result<Vec<u8>, Refusal> {
    let mut out = vec![0; enough::restored(stored.len())];
    let count = restore_into(stored, &mut out)?.len();
    out.truncate(count);
    Ok(out)
}

/// Writes cells as a line with overstrikes, for printers; [`convert`] reads it back.
///
/// ```
/// use console_lines::{convert, write_cells, Overstrike};
///
/// let line = write_cells(&[Overstrike::Bold.cell(b'a')])?;
/// assert_eq!(line, b"a\x08a");
/// assert_eq!(convert(&line)?, b"\x1B[1ma\x1B[22m");
/// # Ok::<(), console_lines::Refusal>(())
/// ```
///
/// # Errors
///
/// Questions 1 and 16.
pub fn write_cells(cells: &[PrinterCell]) -> Result<Vec<u8>, Refusal> {
    let mut out = vec![0; enough::written(cells.len())];
    let count = write_cells_into(cells, &mut out)?.len();
    out.truncate(count);
    Ok(out)
}
