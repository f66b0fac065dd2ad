//! The calls as include/console_lines.h declares them, on slices and numbers: the lowest
//! layer, and the only one that is not safe Rust inside.
//!
//! A call writes every place of what it is lent for writing: what it has, and zeros behind
//! it; zeros throughout where it is refused. It returns 0 and a count, or the number of the
//! question that refuses it and 0. Any numbers may be given: those that are out of range are
//! refused.
//!
//! ```
//! use console_lines::raw::{self, Answer};
//!
//! let mut conv = [0xA7; 8];
//! assert_eq!(raw::convert(b"a", &mut conv), Answer { number: 0, count: 1 });
//! assert_eq!(conv, *b"a\0\0\0\0\0\0\0");
//! assert_eq!(raw::convert(b"a", &mut conv[..7]), Answer { number: 2, count: 0 });
//! ```
#![allow(unsafe_code)]

/// What a call returns.
#[repr(C)]
#[derive(Clone, Copy, Debug, PartialEq, Eq)]
pub struct Answer {
    /// 0, or the number of the question that refuses the call.
    pub number: usize,
    /// What the call counts; 0 where it is refused.
    pub count: usize,
}

/// What [`narrowest`] returns.
#[repr(C)]
#[derive(Clone, Copy, Debug, PartialEq, Eq)]
pub struct WidthAnswer {
    /// 0, or the number of the question that refuses the call.
    pub number: usize,
    /// The width found; 0 where there is none.
    pub count: usize,
    /// How many widths were tried.
    pub tried: usize,
}

/// A record of the span list: memory that is lent for a [`Span`](crate::Span).
#[repr(C)]
#[derive(Clone, Copy, Debug, Default, PartialEq, Eq)]
pub struct SpanRecord {
    /// 1 to 13; 0 behind the last span.
    pub kind: usize,
    /// The place, in the converted line, of the bytes that the span was read from.
    pub place: usize,
    /// How many bytes these are.
    pub len: usize,
    /// The match number; 0 where the kind is not Match.
    pub matched: usize,
}

/// The reader of a drawing that sees all of it.
pub const BENCH: usize = 0;

/// The reader of a drawing to whom no link is named.
pub const CREW: usize = 1;

/// The number of the current match where there is none.
pub const NO_MATCH: usize = usize::MAX;

/// How many numbers kept wraps have.
pub const WRAPS: usize = 8_212;

/// A call with a number that stands first if it has one, the slices that it reads, its
/// numbers, an array if it has one, and the slices that it writes; the C function takes each
/// slice as a pointer and a length, the array as a pointer. It returns an `Answer`, or what is
/// named.
macro_rules! declare {
    ($(#[$doc:meta])* $name:ident, $symbol:ident($($parameters:tt)*)) => {
        declare!($(#[$doc])* $name, $symbol($($parameters)*) -> Answer);
    };
    ($(#[$doc:meta])* $name:ident, $symbol:ident(
        $([$first:ident])?
        $($read:ident: $read_item:ty),*;
        $($number:ident),*;
        $([$array:ident: $array_type:ty])?
        $($written:ident: $written_item:ty),*
    ) -> $answer:ty) => {
        extern "C" {
            fn $symbol(
                $($first: usize,)?
                $(_: *const $read_item, _: usize,)*
                $($number: usize,)*
                $(_: *mut $array_type,)?
                $(_: *mut $written_item, _: usize),*
            ) -> $answer;
        }

        $(#[$doc])*
        #[allow(clippy::too_many_arguments)]
        pub fn $name(
            $($first: usize,)?
            $($read: &[$read_item],)*
            $($number: usize,)*
            $($array: &mut $array_type,)?
            $($written: &mut [$written_item]),*
        ) -> $answer {
            // SAFETY: each pointer comes from a slice with its length, or from an array of
            // the size that is declared; any bytes and numbers may stand there; no two that
            // are written overlap, nor one that is read; the library keeps none of them.
            unsafe {
                $symbol(
                    $($first,)?
                    $($read.as_ptr(), $read.len(),)*
                    $($number,)*
                    $($array,)?
                    $($written.as_mut_ptr(), $written.len()),*
                )
            }
        }
    };
}

declare!(
    /// The converted line; the count is its bytes.
    convert, console_convert(line: u8; ; conv: u8)
);
declare!(
    /// The converted line and its spans; the count is the spans. `matches` has the start and
    /// end of each match.
    read, console_read(line: u8, matches: usize; ; conv: u8, spans: SpanRecord)
);
declare!(
    /// The same without matches, and the start and end of each row; the count is the rows.
    rows, console_rows(line: u8; width, mode; conv: u8, spans: SpanRecord, rows: usize)
);
declare!(
    /// The same without a row list.
    height, console_height(line: u8; width, mode; conv: u8, spans: SpanRecord)
);
declare!(
    /// The least width from 1 up to `greatest` at which the line takes at most `wanted` rows.
    narrowest, console_narrowest(
        line: u8; mode, wanted, greatest; conv: u8, spans: SpanRecord
    ) -> WidthAnswer
);
declare!(
    /// [`rows`] with kept wraps.
    cached_rows, console_cached_rows(
        line: u8; width, mode; [wraps: [usize; WRAPS]] conv: u8, spans: SpanRecord, rows: usize
    )
);
declare!(
    /// [`height`] with kept wraps.
    cached_height, console_cached_height(
        line: u8; width, mode; [wraps: [usize; WRAPS]] conv: u8, spans: SpanRecord
    )
);
declare!(
    /// The change list of the columns from `start` up to `end`; the count is its bytes.
    draw_window, console_draw_window(
        [reader] line: u8, matches: usize; current, start, end;
        conv: u8, spans: SpanRecord, list: u8
    )
);
declare!(
    /// The change list of `count` rows from row `first` on; the count is its bytes.
    draw_row, console_draw_row(
        [reader] line: u8, matches: usize; current, first, count, width, mode;
        conv: u8, spans: SpanRecord, list: u8
    )
);
declare!(
    /// The cells of a screen row after the changes of a list; the count is their bytes.
    screen_row, console_screen_row(list: u8; width; out: u8)
);
declare!(
    /// The stored form of a change list; the count is its bytes.
    store, console_store(list: u8; ; out: u8)
);
declare!(
    /// The change list of a stored form; the count is its bytes.
    restore, console_restore(stored: u8; ; out: u8)
);
declare!(
    /// A line with overstrikes, from cells of a byte and a style; the count is its bytes.
    write_cells, console_write_cells(cells: u8; ; out: u8)
);
