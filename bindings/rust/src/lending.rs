//! The calls with memory that the caller lends. Each function borrows what it was lent until
//! its result is dropped.

use crate::cell::{Cells, PrinterCell};
use crate::change::{self, Change};
use crate::raw::{self, Answer, SpanRecord};
use crate::refusal::{accepted, Refusal};
use crate::row::{Rows, Wrapping, WrappingMode, Wraps};
use crate::span::{Match, Spans};
use crate::view::View;
use std::iter::FusedIterator;
use std::ops::Range;

/// A line that was read, in lent memory.
#[derive(Clone, Copy, Debug)]
pub struct Reading<'m> {
    conv: &'m [u8],
    spans: &'m [SpanRecord],
}

impl<'m> Reading<'m> {
    /// The conversion buffer: the converted line, and zeros behind it. How long the converted
    /// line is [`convert_into`] tells.
    ///
    /// ```
    /// use console_lines::{read_into, SpanRecord};
    ///
    /// let (mut conv, mut spans) = ([0xA7; 8], [SpanRecord::default(); 1]);
    /// let reading = read_into(b"a", &[], &mut conv, &mut spans)?;
    /// assert_eq!(reading.conv(), b"a\0\0\0\0\0\0\0");
    /// # Ok::<(), console_lines::Refusal>(())
    /// ```
    pub fn conv(&self) -> &'m [u8] {
        self.conv
    }

    /// The spans; their bytes stand in [`conv`](Reading::conv).
    ///
    /// ```
    /// use console_lines::{read_into, SpanKind, SpanRecord};
    ///
    /// let (mut conv, mut spans) = ([0; 16], [SpanRecord::default(); 9]);
    /// let reading = read_into(b"a\xFF", &[], &mut conv, &mut spans)?;
    /// let invalid = reading.spans().nth(1).unwrap();
    /// assert_eq!(invalid.kind, SpanKind::Invalid);
    /// assert_eq!(&reading.conv()[invalid.range()], b"\xFF");
    /// # Ok::<(), console_lines::Refusal>(())
    /// ```
    pub fn spans(&self) -> Spans<'m> {
        Spans::written(self.spans)
    }
}

/// A line that was wrapped, in lent memory.
#[derive(Clone, Debug)]
pub struct Wrapped<'m> {
    reading: Reading<'m>,
    rows: Rows<'m>,
}

impl<'m> Wrapped<'m> {
    /// The line as it was read.
    ///
    /// ```
    /// use console_lines::{rows_into, SpanRecord, Wrapping, WrappingMode};
    ///
    /// let (mut conv, mut spans, mut rows) = ([0; 8], [SpanRecord::default(); 1], [0; 2]);
    /// let wrapping = Wrapping::new(80, WrappingMode::WordBoundary);
    /// let wrapped = rows_into(b"a", wrapping, &mut conv, &mut spans, &mut rows)?;
    /// assert_eq!(wrapped.reading().spans().len(), 1);
    /// # Ok::<(), console_lines::Refusal>(())
    /// ```
    pub fn reading(&self) -> Reading<'m> {
        self.reading
    }

    /// The rows.
    ///
    /// ```
    /// use console_lines::{rows_into, Row, SpanRecord, Wrapping, WrappingMode};
    ///
    /// let (mut conv, mut spans, mut rows) = ([0; 8], [SpanRecord::default(); 1], [0; 2]);
    /// let wrapping = Wrapping::new(80, WrappingMode::Unwrapped);
    /// let wrapped = rows_into(b"a", wrapping, &mut conv, &mut spans, &mut rows)?;
    /// assert!(wrapped.rows().eq([Row { start: 0, end: None }]));
    /// # Ok::<(), console_lines::Refusal>(())
    /// ```
    pub fn rows(&self) -> Rows<'m> {
        self.rows.clone()
    }
}

/// A line that was drawn, in lent memory.
#[derive(Clone, Copy, Debug)]
pub struct Drawing<'m> {
    reading: Reading<'m>,
    list: &'m [u8],
}

impl<'m> Drawing<'m> {
    /// The line as it was read. It is not for the crew: it tells of links.
    ///
    /// ```
    /// use console_lines::{draw_window_into, SpanRecord, View};
    ///
    /// let (mut conv, mut spans, mut list) = ([0; 8], [SpanRecord::default(); 1], [0; 99]);
    /// let view = View::default();
    /// let drawing = draw_window_into(b"a", &view, 0..1, &mut conv, &mut spans, &mut list)?;
    /// assert_eq!(drawing.reading().spans().len(), 1);
    /// # Ok::<(), console_lines::Refusal>(())
    /// ```
    pub fn reading(&self) -> Reading<'m> {
        self.reading
    }

    /// The change list.
    ///
    /// ```
    /// use console_lines::{draw_window_into, SpanRecord, View};
    ///
    /// let (mut conv, mut spans, mut list) = ([0; 8], [SpanRecord::default(); 1], [0; 99]);
    /// let view = View::default();
    /// let drawing = draw_window_into(b"a", &view, 0..1, &mut conv, &mut spans, &mut list)?;
    /// assert_eq!(&drawing.list()[..7], b"\x01\0\0\0\x01\0a");
    /// # Ok::<(), console_lines::Refusal>(())
    /// ```
    pub fn list(&self) -> &'m [u8] {
        self.list
    }

    /// The changes of the list.
    ///
    /// ```
    /// use console_lines::{draw_window_into, CellAttributes, Change, SpanRecord, View};
    ///
    /// let (mut conv, mut spans, mut list) = ([0; 8], [SpanRecord::default(); 1], [0; 99]);
    /// let view = View::default();
    /// let drawing = draw_window_into(b"a", &view, 0..1, &mut conv, &mut spans, &mut list)?;
    /// let plain = Change::AllAttributes(CellAttributes::default());
    /// assert!(drawing.changes().eq([Change::Text("a"), plain]));
    /// # Ok::<(), console_lines::Refusal>(())
    /// ```
    pub fn changes(&self) -> impl FusedIterator<Item = Change<'m>> + Clone {
        change::drawn(self.list)
    }
}

/// The narrowest width that was found.
#[derive(Clone, Copy, Debug, PartialEq, Eq)]
pub struct Narrowest {
    /// The width, if one was found.
    pub width: Option<usize>,
    /// How many widths were tried: the one found, or the greatest.
    pub tried: usize,
}

/// Converts overstrikes into style orders.
///
/// `conv` has 8 times the line's bytes at least, or the call is refused.
///
/// ```
/// use console_lines::convert_into;
///
/// let mut conv = [0; 24];
/// assert_eq!(convert_into(b"a\x08a", &mut conv)?, b"\x1B[1ma\x1B[22m");
/// # Ok::<(), console_lines::Refusal>(())
/// ```
///
/// # Errors
///
/// Questions 1 and 2.
pub fn convert_into<'m>(line: &[u8], conv: &'m mut [u8]) -> Result<&'m [u8], Refusal> {
    let count = accepted(raw::convert(line, conv))?;
    Ok(&conv[..count])
}

/// Reads a line into spans.
///
/// ```
/// use console_lines::{read_into, Span, SpanKind, SpanRecord};
///
/// let (mut conv, mut spans) = ([0; 32], [SpanRecord::default(); 2]);
/// let reading = read_into(b"abcd", &[[1, 4]], &mut conv, &mut spans)?;
/// assert!(reading.spans().eq([
///     Span { kind: SpanKind::Text, place: 0, len: 1 },
///     Span { kind: SpanKind::Match(0), place: 1, len: 3 },
/// ]));
/// # Ok::<(), console_lines::Refusal>(())
/// ```
///
/// # Errors
///
/// Questions 1 to 4.
pub fn read_into<'m>(
    line: &[u8],
    matches: &[Match],
    conv: &'m mut [u8],
    spans: &'m mut [SpanRecord],
) -> Result<Reading<'m>, Refusal> {
    accepted(raw::read(line, matches.as_flattened(), conv, spans))?;
    Ok(Reading { conv, spans })
}

/// Wraps a line into rows. `rows` has two numbers for each row.
///
/// ```
/// use console_lines::{rows_into, Row, SpanRecord, Wrapping, WrappingMode};
///
/// let (mut conv, mut spans, mut rows) = ([0; 48], [SpanRecord::default(); 1], [0; 4]);
/// let wrapping = Wrapping::new(4, WrappingMode::GraphemeBoundary);
/// let wrapped = rows_into(b"abcdef", wrapping, &mut conv, &mut spans, &mut rows)?;
/// assert!(wrapped.rows().eq([Row::from_pair([0, 4]), Row::from_pair([4, 6])]));
/// # Ok::<(), console_lines::Refusal>(())
/// ```
///
/// # Errors
///
/// Questions 1, 2, 4, 5 and 6.
pub fn rows_into<'m>(
    line: &[u8],
    wrapping: Wrapping,
    conv: &'m mut [u8],
    spans: &'m mut [SpanRecord],
    rows: &'m mut [usize],
) -> Result<Wrapped<'m>, Refusal> {
    let Wrapping { width, mode } = wrapping;
    let answer = raw::rows(line, width, mode.number(), conv, spans, rows);
    wrapped(answer, conv, spans, rows)
}

fn wrapped<'m>(
    answer: Answer,
    conv: &'m [u8],
    spans: &'m [SpanRecord],
    rows: &'m [usize],
) -> Result<Wrapped<'m>, Refusal> {
    let rows = Rows::written(rows, accepted(answer)?);
    let reading = Reading { conv, spans };
    Ok(Wrapped { reading, rows })
}

/// Counts the rows of a line.
///
/// ```
/// use console_lines::{height_into, SpanRecord, Wrapping, WrappingMode};
///
/// let (mut conv, mut spans) = ([0; 48], [SpanRecord::default(); 1]);
/// let wrapping = Wrapping::new(4, WrappingMode::GraphemeBoundary);
/// let (height, reading) = height_into(b"abcdef", wrapping, &mut conv, &mut spans)?;
/// assert_eq!((height, reading.spans().len()), (2, 1));
/// # Ok::<(), console_lines::Refusal>(())
/// ```
///
/// # Errors
///
/// Questions 1, 2, 4 and 5.
pub fn height_into<'m>(
    line: &[u8],
    wrapping: Wrapping,
    conv: &'m mut [u8],
    spans: &'m mut [SpanRecord],
) -> Result<(usize, Reading<'m>), Refusal> {
    let Wrapping { width, mode } = wrapping;
    let count = accepted(raw::height(line, width, mode.number(), conv, spans))?;
    Ok((count, Reading { conv, spans }))
}

/// Finds the narrowest width, from 1 up to `greatest`, at which the line takes at most `wanted`
/// rows.
///
/// ```
/// use console_lines::{narrowest_into, Narrowest, SpanRecord, WrappingMode};
///
/// let (mut conv, mut spans) = ([0; 48], [SpanRecord::default(); 1]);
/// let mode = WrappingMode::GraphemeBoundary;
/// let (found, _) = narrowest_into(b"abcdef", mode, 2, 80, &mut conv, &mut spans)?;
/// assert_eq!(found, Narrowest { width: Some(3), tried: 3 });
/// # Ok::<(), console_lines::Refusal>(())
/// ```
///
/// # Errors
///
/// Questions 1, 2, 4 and 5: the mode is GraphemeBoundary or WordBoundary, `wanted` and
/// `greatest` are 1 to 65,535.
pub fn narrowest_into<'m>(
    line: &[u8],
    mode: WrappingMode,
    wanted: usize,
    greatest: usize,
    conv: &'m mut [u8],
    spans: &'m mut [SpanRecord],
) -> Result<(Narrowest, Reading<'m>), Refusal> {
    let answer = raw::narrowest(line, mode.number(), wanted, greatest, conv, spans);
    let raw::WidthAnswer {
        number,
        count,
        tried,
    } = answer;
    let width = Some(accepted(Answer { number, count })?).filter(|width| *width > 0);
    Ok((Narrowest { width, tried }, Reading { conv, spans }))
}

/// [`rows_into`] for a line that is asked again and again: a wrap that is kept is not made
/// again.
///
/// ```
/// use console_lines::{cached_rows_into, SpanRecord, Wrapping, WrappingMode, Wraps};
///
/// let (mut conv, mut spans, mut rows) = ([0; 48], [SpanRecord::default(); 1], [0; 4]);
/// let wrapping = Wrapping::new(4, WrappingMode::GraphemeBoundary);
/// let mut wraps = Wraps::new();
/// for _ in 0..2 {
///     let (conv, spans, rows) = (&mut conv, &mut spans, &mut rows);
///     let wrapped = cached_rows_into(b"abcdef", wrapping, &mut wraps, conv, spans, rows)?;
///     assert_eq!(wrapped.rows().len(), 2);
/// }
/// # Ok::<(), console_lines::Refusal>(())
/// ```
///
/// # Errors
///
/// Questions 1, 2, 4, 5 and 6. `wraps` stay as they were.
pub fn cached_rows_into<'m>(
    line: &[u8],
    wrapping: Wrapping,
    wraps: &mut Wraps,
    conv: &'m mut [u8],
    spans: &'m mut [SpanRecord],
    rows: &'m mut [usize],
) -> Result<Wrapped<'m>, Refusal> {
    let Wrapping { width, mode } = wrapping;
    let wraps = wraps.numbers();
    let answer = raw::cached_rows(line, width, mode.number(), wraps, conv, spans, rows);
    wrapped(answer, conv, spans, rows)
}

/// [`height_into`] with kept wraps.
///
/// ```
/// use console_lines::{cached_height_into, SpanRecord, Wrapping, WrappingMode, Wraps};
///
/// let (mut conv, mut spans) = ([0; 48], [SpanRecord::default(); 1]);
/// let wrapping = Wrapping::new(4, WrappingMode::GraphemeBoundary);
/// let mut wraps = Wraps::new();
/// let (height, _) = cached_height_into(b"abcdef", wrapping, &mut wraps, &mut conv, &mut spans)?;
/// assert_eq!(height, 2);
/// # Ok::<(), console_lines::Refusal>(())
/// ```
///
/// # Errors
///
/// Questions 1, 2, 4 and 5. `wraps` stay as they were.
pub fn cached_height_into<'m>(
    line: &[u8],
    wrapping: Wrapping,
    wraps: &mut Wraps,
    conv: &'m mut [u8],
    spans: &'m mut [SpanRecord],
) -> Result<(usize, Reading<'m>), Refusal> {
    let Wrapping { width, mode } = wrapping;
    let wraps = wraps.numbers();
    let answer = raw::cached_height(line, width, mode.number(), wraps, conv, spans);
    Ok((accepted(answer)?, Reading { conv, spans }))
}

/// Draws a window: the columns from its start up to its end, at most 1,048,576. Where the start
/// is above 0, its column has an arrow and the window begins behind it.
///
/// ```
/// use console_lines::{draw_window_into, Change, SpanRecord, View};
///
/// let (mut conv, mut spans, mut list) = ([0; 24], [SpanRecord::default(); 1], [0; 256]);
/// let view = View::default();
/// let drawing = draw_window_into(b"abc", &view, 0..2, &mut conv, &mut spans, &mut list)?;
/// assert_eq!(drawing.changes().next(), Some(Change::Text("ab")));
/// assert!(drawing.changes().any(|change| change == Change::Text(">")));
/// # Ok::<(), console_lines::Refusal>(())
/// ```
///
/// # Errors
///
/// Questions 1 to 5 and 7 to 9.
pub fn draw_window_into<'m>(
    line: &[u8],
    view: &View,
    window: Range<usize>,
    conv: &'m mut [u8],
    spans: &'m mut [SpanRecord],
    list: &'m mut [u8],
) -> Result<Drawing<'m>, Refusal> {
    let answer = raw::draw_window(
        view.reader.number(),
        line,
        view.matches.as_flattened(),
        view.current_number(),
        window.start,
        window.end,
        conv,
        spans,
        list,
    );
    drawing(answer, conv, spans, list)
}

fn drawing<'m>(
    answer: Answer,
    conv: &'m [u8],
    spans: &'m [SpanRecord],
    list: &'m [u8],
) -> Result<Drawing<'m>, Refusal> {
    let count = accepted(answer)?;
    let reading = Reading { conv, spans };
    let list = &list[..count];
    Ok(Drawing { reading, list })
}

/// Draws some rows of a line, wrapped as by [`rows_into`] but with the view's matches. The range
/// is of row numbers, counted from 0; behind the last row there is nothing to draw.
///
/// ```
/// use console_lines::{draw_row_into, Change, SpanRecord, View, Wrapping, WrappingMode};
///
/// let (mut conv, mut spans, mut list) = ([0; 48], [SpanRecord::default(); 1], [0; 256]);
/// let wrapping = Wrapping::new(4, WrappingMode::GraphemeBoundary);
/// let (line, view) = (b"abcdef", View::default());
/// let drawing = draw_row_into(line, &view, 1..2, wrapping, &mut conv, &mut spans, &mut list)?;
/// assert_eq!(drawing.changes().next(), Some(Change::Text("ef")));
/// # Ok::<(), console_lines::Refusal>(())
/// ```
///
/// # Errors
///
/// Questions 1 to 5, 8 and 9: an empty range is refused by 5.
pub fn draw_row_into<'m>(
    line: &[u8],
    view: &View,
    rows: Range<usize>,
    wrapping: Wrapping,
    conv: &'m mut [u8],
    spans: &'m mut [SpanRecord],
    list: &'m mut [u8],
) -> Result<Drawing<'m>, Refusal> {
    let answer = raw::draw_row(
        view.reader.number(),
        line,
        view.matches.as_flattened(),
        view.current_number(),
        rows.start,
        rows.end.saturating_sub(rows.start),
        wrapping.width,
        wrapping.mode.number(),
        conv,
        spans,
        list,
    );
    drawing(answer, conv, spans, list)
}

/// Prints the changes of a list into a blank screen row of 1 to 4,096 columns. The list may be
/// any bytes.
///
/// ```
/// use console_lines::screen_row_into;
///
/// let mut out = [0; 60];
/// let cells = screen_row_into(b"\x01\0\0\0\x01\0a", 2, &mut out)?;
/// assert!(cells.map(|cell| cell.text).eq(["a", " "]));
/// # Ok::<(), console_lines::Refusal>(())
/// ```
///
/// # Errors
///
/// Questions 5 and 9 to 11. A drawing's list is never refused by 10, and never by 11 in the
/// columns that it was drawn into.
pub fn screen_row_into<'m>(
    list: &[u8],
    width: usize,
    out: &'m mut [u8],
) -> Result<Cells<'m>, Refusal> {
    let count = accepted(raw::screen_row(list, width, out))?;
    Ok(Cells::written(&out[..count]))
}

/// Writes the stored form of a change list. The list may be any bytes.
///
/// ```
/// use console_lines::store_into;
///
/// let mut out = [0; 5];
/// assert_eq!(store_into(b"\x01\0\0\0\x01\0a", &mut out)?, b"\x01\0\x01\0a");
/// # Ok::<(), console_lines::Refusal>(())
/// ```
///
/// # Errors
///
/// Questions 9, 10 and 12.
pub fn store_into<'m>(list: &[u8], out: &'m mut [u8]) -> Result<&'m [u8], Refusal> {
    let count = accepted(raw::store(list, out))?;
    Ok(&out[..count])
}

/// Writes the change list of a stored form, which may be any bytes.
///
/// ```
/// use console_lines::restore_into;
///
/// let mut out = [0; 7];
/// assert_eq!(restore_into(b"\x01\0\x01\0a", &mut out)?, b"\x01\0\0\0\x01\0a");
/// # Ok::<(), console_lines::Refusal>(())
/// ```
///
/// # Errors
///
/// Questions 9 and 10.
pub fn restore_into<'m>(stored: &[u8], out: &'m mut [u8]) -> Result<&'m [u8], Refusal> {
    let count = accepted(raw::restore(stored, out))?;
    Ok(&out[..count])
}

/// Writes cells as a line with overstrikes.
///
/// ```
/// use console_lines::{write_cells_into, Overstrike};
///
/// let cells = [Overstrike::Bold.cell(b'a'), Overstrike::Normal.cell(b'b')];
/// let mut out = [0; 4];
/// assert_eq!(write_cells_into(&cells, &mut out)?, b"a\x08ab");
/// # Ok::<(), console_lines::Refusal>(())
/// ```
///
/// # Errors
///
/// Questions 1, 16 and 17.
pub fn write_cells_into<'m>(cells: &[PrinterCell], out: &'m mut [u8]) -> Result<&'m [u8], Refusal> {
    let count = accepted(raw::write_cells(cells.as_flattened(), out))?;
    Ok(&out[..count])
}
