//! What a drawing hands to clipping, by document 01's words: from the records
//! and the converted line, with the columns counted as they are drawn.

use std::str;
use streampager::probe::{line_drawn, Record};
use unicode_segmentation::UnicodeSegmentation;
use unicode_width::UnicodeWidthStr;

/// The columns wanted on screen: from `start` up to, not including, `end`.
#[derive(Clone, Copy, Debug)]
pub struct Window {
    pub start: usize,
    pub end: usize,
}

impl Window {
    /// A window drawing's window begins at start + 1 where start is above 0.
    pub fn of_columns(start: usize, end: usize) -> Window {
        let start = if start > 0 { start + 1 } else { 0 };
        Window { start, end }
    }

    /// The bounds of `render_wrapped`: an absent row ends with the last one.
    pub fn of_rows(rows: &[(usize, usize)], first: usize, count: usize) -> Window {
        let last_end = rows.last().map_or(0, |row| row.1);
        let end = rows.get(first + count - 1).map_or(last_end, |row| row.1);
        let start = rows.get(first).map_or(end, |row| row.0);
        Window { start, end }
    }

    /// Whether columns from `begin` up to `end` are handed to clipping.
    pub fn meets(&self, begin: usize, end: usize) -> bool {
        end > self.start && begin < self.end
    }
}

/// A text handed on for drawing, with the index of its record, its first column
/// and its width.
pub struct Drawn {
    pub record: usize,
    pub begin: usize,
    pub width: usize,
    pub text: String,
}

/// Question 8: a cluster begins left of the window and ends right of it.
pub fn straddles(conv: &[u8], records: &[Record], window: Window) -> bool {
    let mut found = false;
    each_text(conv, records, |drawn| {
        let mut column = drawn.begin;
        found |= drawn.text.graphemes(true).any(|cluster| {
            let begin = column;
            column += cluster.width();
            begin < window.start && column > window.end
        });
    });
    found
}

/// Begin and end of each cluster that is drawn of a line read without matches.
pub fn clusters(line: &[u8]) -> Vec<(usize, usize)> {
    let answer = crate::read(line, &[], 8 * line.len(), usize::MAX);
    let mut clusters = Vec::new();
    each_text(&answer.conv, &answer.records, |drawn| {
        let mut column = drawn.begin;
        clusters.extend(drawn.text.graphemes(true).map(|cluster| {
            let begin = column;
            column += cluster.width();
            (begin, column)
        }));
    });
    clusters
}

/// Calls `hand_on` with each text in the order of the drawing.
pub fn each_text(conv: &[u8], records: &[Record], mut hand_on: impl FnMut(&Drawn)) {
    let mut column = 0;
    let mut line_drawing = false;
    for (record, span) in records.iter().enumerate() {
        let bytes = &conv[span.place..span.place + span.len];
        if span.kind == 8 {
            line_drawing = bytes == b"\x1B(0";
        }
        for text in texts(span.kind, bytes, line_drawing, column) {
            let (begin, width) = (column, text.width());
            hand_on(&Drawn {
                record,
                begin,
                width,
                text,
            });
            column += width;
        }
    }
}

/// The texts of one span.
fn texts(kind: usize, bytes: &[u8], line_drawing: bool, column: usize) -> Vec<String> {
    let text = || str::from_utf8(bytes).expect("the bytes of a text");
    match kind {
        1 | 2 if line_drawing => vec![line_drawn(text())],
        1 | 2 => vec![text().to_string()],
        3 | 4 => vec![mark(bytes[0])],
        5 => text()
            .chars()
            .map(|c| format!("<U+{:04X}>", c as u32))
            .collect(),
        10 => vec![" ".repeat(8 - column % 8)],
        _ => Vec::new(),
    }
}

/// The mark of a Control or Invalid span.
pub fn mark(byte: u8) -> String {
    format!("<{byte:02X}>")
}
