//! The calls that are measured, without matches.

use oracle::source::{self, SourceLine};
use oracle::{Call, NONE};
use std::hint::black_box;

/// The calls of a name whose times are compared with the source's.
pub fn measured(name: &str) -> Vec<Call> {
    match name {
        "convert" => vec![Call::Convert],
        "read" => vec![reading()],
        "rows" => {
            let widths = [(1, 1), (40, 1), (80, 1), (1, 2), (40, 2), (80, 2)];
            widths.map(rows).to_vec()
        }
        "height" => vec![height((80, 2))],
        "draw_window" => vec![window(0, 80), window(40, 120)],
        _ => {
            let widths = [(40, 0), (40, 1), (40, 2), (80, 0), (80, 1), (80, 2)];
            let mut calls = widths.map(|width| row(0, 1, width)).to_vec();
            calls.extend([(40, 1), (40, 2)].map(|width| row(1, 1, width)));
            calls
        }
    }
}

/// The calls of a name whose growth is told: for drawings a screen's row, and the whole
/// line.
pub fn growing(name: &str) -> Vec<Call> {
    match name {
        "rows" => [(1, 1), (1, 2), (80, 2)].map(rows).to_vec(),
        "draw_window" => vec![window(0, 80), window(0, 1_048_576)],
        "draw_row" => vec![row(0, 1, (80, 2)), row(0, 65_535, (80, 2))],
        _ => measured(name),
    }
}

/// The calls for a line of hyphens, which has two rows for each.
pub fn with_hyphens(name: &str) -> Vec<Call> {
    let widths = [(0, 1), (0, 2)];
    match name {
        "rows" => widths.map(rows).to_vec(),
        "height" => widths.map(height).to_vec(),
        "draw_row" => widths.map(|width| row(1, 1, width)).to_vec(),
        _ => Vec::new(),
    }
}

fn reading() -> Call {
    Call::Read {
        matches: Vec::new(),
    }
}

fn rows((width, mode): (usize, usize)) -> Call {
    Call::Rows { width, mode }
}

fn height((width, mode): (usize, usize)) -> Call {
    Call::Height { width, mode }
}

fn window(start: usize, end: usize) -> Call {
    Call::DrawWindow {
        matches: Vec::new(),
        current: NONE,
        start,
        end,
    }
}

fn row(first: usize, count: usize, (width, mode): (usize, usize)) -> Call {
    Call::DrawRow {
        matches: Vec::new(),
        current: NONE,
        first,
        count,
        width,
        mode,
    }
}

/// The numbers of a call in short: width/mode; window; row:width/mode, or first
/// row+rows:width/mode.
pub fn label(call: &Call) -> String {
    match call {
        Call::Convert | Call::Read { .. } => String::new(),
        Call::Rows { width, mode } | Call::Height { width, mode } => format!("{width}/{mode}"),
        Call::DrawWindow { start, end, .. } => format!("{start}-{end}"),
        Call::DrawRow {
            first,
            count,
            width,
            mode,
            ..
        } => match count {
            1 => format!("{first}:{width}/{mode}"),
            _ => format!("{first}+{count}:{width}/{mode}"),
        },
    }
}

/// Makes the call with the source's own functions.
pub fn source(call: &Call, line: &[u8]) {
    let read = || SourceLine::read(black_box(line));
    match *call {
        Call::Convert => drop(black_box(source::convert(black_box(line)))),
        Call::Read { .. } => drop(black_box(read())),
        Call::Rows { width, mode } => drop(black_box(read().rows(width, mode))),
        Call::Height { width, mode } => {
            black_box(read().height(width, mode));
        }
        Call::DrawWindow { start, end, .. } => drop(black_box(read().draw_window(start, end))),
        Call::DrawRow {
            first,
            count,
            width,
            mode,
            ..
        } => drop(black_box(read().draw_row(first, count, width, mode))),
    }
}
