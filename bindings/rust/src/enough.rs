//! How much memory is always enough, as the header has it.
//!
//! The owning calls lend so much where less is refused; whoever lends memory may lend less, and is
//! refused where that is too little. A line of more than 4,096 bytes is refused whatever is lent,
//! so no number here grows beyond that.
//!
//! For each style order that conversion adds it gives up one byte of the line at least. So the
//! orders added, each counted as one, and all other bytes of the converted line are together at
//! most the line's bytes.
//!
//! ```
//! use console_lines::{draw_row_into, enough, SpanRecord, View, Wrapping, WrappingMode};
//!
//! // For any line.
//! let mut conv = vec![0; enough::conv(enough::LINE)];
//! let mut spans = vec![SpanRecord::default(); enough::spans(enough::LINE)];
//! let mut list = vec![0; enough::list(enough::LINE)];
//! assert_eq!((conv.len(), spans.len(), list.len()), (32_768, 4_096, 184_471));
//! let wrapping = Wrapping::new(80, WrappingMode::WordBoundary);
//! let (line, view) = (b"08:00:00 set 7 on the bench", View::default());
//! draw_row_into(line, &view, 0..1, wrapping, &mut conv, &mut spans, &mut list)?;
//! # Ok::<(), console_lines::Refusal>(())
//! ```

/// The most bytes that a line has.
pub const LINE: usize = 4_096;

/// The most columns of a screen row.
const COLUMNS: usize = 4_096;

const fn smaller(a: usize, b: usize) -> usize {
    if a < b {
        a
    } else {
        b
    }
}

/// Bytes of the conversion buffer for a line of so many bytes: 8 for each, which question 2
/// asks for.
///
/// ```
/// assert_eq!(console_lines::enough::conv(80), 640);
/// ```
pub const fn conv(line: usize) -> usize {
    8 * smaller(line, LINE)
}

/// Spans of a line of so many bytes, with matches or without: each is an added order, or has
/// one other byte of its own at least.
///
/// ```
/// assert_eq!(console_lines::enough::spans(80), 80);
/// ```
pub const fn spans(line: usize) -> usize {
    smaller(line, LINE)
}

/// Numbers of the row list for a line of so many bytes, two for each row. A cluster, tab or mark
/// has one byte at least, and ends one row at most, a word one more before its first cluster: 2
/// rows for each byte, and the last one.
///
/// ```
/// assert_eq!(console_lines::enough::rows(80), 322);
/// ```
pub const fn rows(line: usize) -> usize {
    4 * smaller(line, LINE) + 2
}

/// Bytes of the change list for a line of so many bytes. A byte is drawn by a change of
/// attributes at most, 31 bytes, the head of a text, 6, and 8 spaces, which a tab takes. The
/// arrow at the left takes 69, the one at the right 51, the last attributes 31.
///
/// ```
/// assert_eq!(console_lines::enough::list(80), 3_751);
/// ```
pub const fn list(line: usize) -> usize {
    45 * smaller(line, LINE) + 151
}

/// Bytes of the change list for a window of so many columns. Where these are fewer than the
/// line's bytes, each of them has attributes and a text's head at most, and a byte where it is a
/// space or part of a mark; other bytes are at most three for one of the line.
///
/// ```
/// assert_eq!(console_lines::enough::window(4_096, 80), 15_479);
/// assert_eq!(console_lines::enough::window(40, 80), console_lines::enough::list(40));
/// ```
pub const fn window(line: usize, columns: usize) -> usize {
    let line = smaller(line, LINE);
    if columns < line {
        return 38 * columns + 3 * line + 151;
    }
    list(line)
}

/// Bytes of a screen row of so many columns after the changes of a list of so many bytes: a
/// cell takes 29 beside its cluster, which is a space or stands in the list. A row of more than
/// 4,096 columns is refused whatever is lent.
///
/// ```
/// assert_eq!(console_lines::enough::cells(100, 80), 2_500);
/// ```
pub const fn cells(list: usize, width: usize) -> usize {
    30 * smaller(width, COLUMNS) + list
}

/// Bytes of the stored form of a change list of so many bytes: each change is 2 shorter, and an
/// old attribute body grows by 1.
///
/// ```
/// assert_eq!(console_lines::enough::stored(100), 100);
/// ```
pub const fn stored(list: usize) -> usize {
    list
}

/// Bytes of the change list of a stored form of so many bytes: each change is 2 longer, and
/// has 4 bytes at least.
///
/// ```
/// assert_eq!(console_lines::enough::restored(100), 150);
/// ```
pub const fn restored(stored: usize) -> usize {
    stored + stored / 2
}

/// Bytes of a line that so many cells are written as: 5 for each at most, and no more than a
/// line has.
///
/// ```
/// assert_eq!(console_lines::enough::written(80), 400);
/// assert_eq!(console_lines::enough::written(1_000), 4_096);
/// ```
pub const fn written(cells: usize) -> usize {
    smaller(5 * smaller(cells, LINE), LINE)
}
