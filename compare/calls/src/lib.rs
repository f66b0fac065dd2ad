//! The oracle's calls, made of the static library through the raw calls of bindings/rust.

use console_lines::raw::{self, Answer, SpanRecord, BENCH, WRAPS};
use oracle::Call;

/// Memory lent to a call; what it is not lent is not looked at.
pub struct Lent<'m> {
    pub conv: &'m mut [u8],
    pub spans: &'m mut [SpanRecord],
    pub rows: &'m mut [usize],
    pub list: &'m mut [u8],
}

/// Makes any of the six calls of document 01, with a copy of its matches; drawings are for
/// the bench.
pub fn make(call: &Call, line: &[u8], matches: &[usize], lent: Lent) -> Answer {
    make_for(BENCH, call, line, matches, lent)
}

/// The same with another reader of drawings.
pub fn make_for(reader: usize, call: &Call, line: &[u8], matches: &[usize], lent: Lent) -> Answer {
    let Lent {
        conv,
        spans,
        rows,
        list,
    } = lent;
    match *call {
        Call::Convert => raw::convert(line, conv),
        Call::Read { .. } => raw::read(line, matches, conv, spans),
        Call::Rows { width, mode } => raw::rows(line, width, mode, conv, spans, rows),
        Call::Height { width, mode } => raw::height(line, width, mode, conv, spans),
        Call::DrawWindow {
            current,
            start,
            end,
            ..
        } => raw::draw_window(
            reader, line, matches, current, start, end, conv, spans, list,
        ),
        Call::DrawRow {
            current,
            first,
            count,
            width,
            mode,
            ..
        } => raw::draw_row(
            reader, line, matches, current, first, count, width, mode, conv, spans, list,
        ),
    }
}

/// Makes a call for rows or height with kept wraps lent.
pub fn make_cached(call: &Call, line: &[u8], wraps: &mut [usize; WRAPS], lent: Lent) -> Answer {
    let Lent {
        conv, spans, rows, ..
    } = lent;
    match *call {
        Call::Rows { width, mode } => raw::cached_rows(line, width, mode, wraps, conv, spans, rows),
        Call::Height { width, mode } => raw::cached_height(line, width, mode, wraps, conv, spans),
        _ => panic!("{} keeps no wraps", call.name()),
    }
}
