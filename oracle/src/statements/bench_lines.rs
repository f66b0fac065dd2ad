//! Document 01, "Bench lines".

use super::{about, convert, draw_row, draw_window, height, read, rows, Statement};
use super::{INVALID, STYLE, TEXT};

/// Document 01's bench lines.
pub fn bench_lines() -> Vec<Statement> {
    let mut list = Vec::new();
    let mut s = about(&mut list, "bench");
    s.converts("61 08", "");
    s.converts("62 08 62", "1B 5B 31 6D 62 1B 5B 32 32 6D");
    s.converts("5F 08 61", "1B 5B 34 6D 61 1B 5B 32 34 6D");
    s.converts("61 08 61 62 08 08 08", "1B 5B 31 1B 5B 32 32 6D");
    s.reads("E6 BC", &[INVALID, INVALID]);
    s.reads("41 FF 42", &[TEXT, INVALID, TEXT]);
    s.records(
        "1B 5B 31 6D CC 81 61",
        &[],
        &[[STYLE, 0, 4, 0], [TEXT, 6, 1, 0]],
    );
    s.rows("", 80, 1, &[(0, 0)]);
    s.rows("", 80, 2, &[(0, 0)]);
    for mode in [1, 2] {
        s.rows("E6 BC A2", 1, mode, &[(0, 0), (0, 2)]);
        s.rows("09", 4, mode, &[(0, 8)]);
        s.rows("'ab'", 0, mode, &[(0, 0), (0, 1), (1, 2)]);
    }
    s.rows("'ab cd'", 4, 1, &[(0, 4), (4, 5)]);
    s.rows("'ab cd'", 4, 2, &[(0, 3), (3, 5)]);
    s.rows("'abcdef'", 4, 1, &[(0, 4), (4, 6)]);
    let long = vec![b'a'; 4096];
    let too_long = vec![b'a'; 4097];
    for case in [
        convert(&long),
        read(&long, &[]),
        rows(&long, 80, 1),
        height(&long, 80, 2),
    ] {
        s.accepts(case);
    }
    s.accepts(draw_window(&long, 1, 80));
    s.accepts(draw_row(&long, 1, 2, 80, 1));
    for case in [
        convert(&too_long),
        read(&too_long, &[]),
        rows(&too_long, 80, 1),
        height(&too_long, 80, 2),
    ] {
        s.refuses(case, 1);
    }
    s.refuses(draw_window(&too_long, 1, 80), 1);
    s.refuses(draw_row(&too_long, 1, 2, 80, 1), 1);
    s.accepts(rows(b"a", 65_535, 1));
    s.refuses(rows(b"a", 65_536, 1), 5);
    s.accepts(height(b"a", 65_535, 2));
    s.refuses(height(b"a", 65_536, 2), 5);
    s.accepts(draw_row(b"a", 0, 1, 65_535, 1));
    s.refuses(draw_row(b"a", 0, 1, 65_536, 1), 5);
    list
}

/// A clipping of document 01's bench lines: text, offset, width, and what it
/// gives, none where question 8 refuses.
pub const CLIPPINGS: [(&str, usize, usize, Option<&str>); 2] =
    [("\u{6F22}", 1, 1, Some("")), ("\u{6F22}", 1, 0, None)];
