//! Lines of a ship-radar bench console: received bytes become a converted line, its spans, its
//! wrapped rows, and the change list that draws them; anything else is a [`Refusal`].
//!
//! These are the calls of the static library libconsole.a, which is proved; docs/SCOPE.md of
//! its repository has what they mean. A line is any bytes, 00 included, up to 4,096.
//!
//! # Two styles
//!
//! [`convert`], [`read`], [`rows`], [`draw_window`] and the others own their memory and are never
//! refused for want of it: [`enough`] has the arithmetic. [`convert_into`], [`read_into`] and
//! the others are lent theirs, allocate nothing, and return views of it; every place that they
//! are lent is written, so lend no more than is needed. Below both, [`raw`] has the calls with
//! the numbers that C sees.
//!
//! ```
//! use console_lines::{draw_row, read, rows, Change, SpanKind, View, Wrapping, WrappingMode};
//!
//! let received = b"gain \x1B[1m42\x1B[22m dB, noise \xFF";
//! let line = read(received, &[])?;
//! assert_eq!(line.spans.last().unwrap().kind, SpanKind::Invalid);
//!
//! let wrapping = Wrapping::new(12, WrappingMode::WordBoundaryAsDrawn);
//! let wrapped = rows(received, wrapping)?;
//! assert_eq!(wrapped.rows.len(), 2);
//!
//! let drawn = draw_row(received, &View::default(), 1..2, wrapping)?;
//! let texts = drawn.changes().filter_map(|change| match change {
//!     Change::Text(text) => Some(text),
//!     _ => None,
//! });
//! assert_eq!(texts.collect::<String>(), "noise <FF>");
//! # Ok::<(), console_lines::Refusal>(())
//! ```
//!
//! # Threads
//!
//! The library keeps nothing between calls: any of them may run on any threads at once. All
//! types here are plain data, `Send` and `Sync`. A call takes at most 128 KiB of
//! stack, as the header says.
#![deny(missing_docs, unsafe_code)]

mod attributes;
mod cell;
mod change;
pub mod enough;
mod lending;
mod owning;
pub mod raw;
mod refusal;
mod row;
mod span;
mod view;

pub use attributes::{
    Blink, CellAttributes, ColorAttribute, Intensity, Link, Underline, VerticalAlign,
};
pub use cell::{Cell, Cells, Overstrike, PrinterCell};
pub use change::{Change, Changes, Malformed};
pub use lending::{
    cached_height_into, cached_rows_into, convert_into, draw_row_into, draw_window_into,
    height_into, narrowest_into, read_into, restore_into, rows_into, screen_row_into, store_into,
    write_cells_into, Drawing, Narrowest, Reading, Wrapped,
};
pub use owning::{
    cached_height, cached_rows, convert, draw_row, draw_window, height, narrowest, read, restore,
    rows, screen_row, store, write_cells, DrawnLine, Line, ScreenRow, WrappedLine,
};
pub use raw::SpanRecord;
pub use refusal::Refusal;
pub use row::{Row, Rows, Wrapping, WrappingMode, Wraps};
pub use span::{Match, Span, SpanKind, Spans};
pub use view::{Reader, View};

/// The example of README.md is run with those of the documentation.
#[cfg(doctest)]
#[doc = include_str!("../README.md")]
struct Readme;
