//! Rows and refusals that are stated, where document 02's words are short.

use super::changes::{attributes, change, clear, cursor_right, text, with_length};
use super::model::{Answer, BODY};
use super::{drawn, Case};
use crate::writing::Writing;
use oracle::{Call, NONE};

struct Statement {
    case: Case,
    /// The row, or the number of the refusal.
    answer: Result<&'static str, usize>,
}

/// The stated cases; the model is held to each of them here.
pub fn cases() -> Vec<Case> {
    let mut statements = statements();
    statements.extend(drawings());
    for Statement { case, answer } in &statements {
        let shown = shown(&case.answer());
        let shown = match case.drawn {
            true => shown.map(|row| row.replace('*', "")),
            false => shown,
        };
        assert_eq!(shown, answer.map(str::to_string), "{case}");
    }
    assert_eq!(Case::new(&text("a"), 2, 60).answer().out, row_of_a());
    statements.into_iter().map(|said| said.case).collect()
}

/// The row of two columns after `a`, in bytes.
fn row_of_a() -> Vec<u8> {
    let cell = |byte| [&[1, 0, 0, 0, byte][..], &[0; BODY]].concat();
    [cell(b'a'), cell(b' ')].concat()
}

/// The cells parted by `|`: a cluster, `-` for a later cell of it, `_` for a plain blank,
/// `_5` for one with the background of palette 5. Behind a cluster `*` stands for other
/// attributes than the default ones.
fn shown(answer: &Answer) -> Result<String, usize> {
    if answer.number != 0 {
        return Err(answer.number);
    }
    let mut cells = Vec::new();
    let mut rest = &answer.out[..];
    let mut before: &[u8] = &[];
    while let Some((len, behind)) = rest.split_first_chunk() {
        let (cluster, behind) = behind.split_at(u32::from_le_bytes(*len) as usize);
        let (attributes, behind) = behind.split_at(BODY);
        cells.push(cell(cluster, attributes));
        assert!(!cluster.is_empty() || attributes == before);
        (rest, before) = (behind, attributes);
    }
    Ok(cells.join("|"))
}

fn cell(cluster: &[u8], attributes: &[u8]) -> String {
    let plain = attributes.iter().all(|&byte| byte == 0);
    let cleared = [&[0; 8][..], &[1, attributes[9]], &[0; 15]].concat();
    match (cluster, std::str::from_utf8(cluster).expect("a cluster")) {
        (b"", _) => "-".to_string(),
        (b" ", _) if plain => "_".to_string(),
        (b" ", _) if attributes == cleared => format!("_{}", attributes[9]),
        (_, cluster) if plain => cluster.to_string(),
        (_, cluster) => format!("{cluster}*"),
    }
}

fn says(
    list: &[Vec<u8>],
    width: usize,
    size: usize,
    answer: Result<&'static str, usize>,
) -> Statement {
    let case = Case::new(&list.concat(), width, size);
    Statement { case, answer }
}

/// The row that is left where just enough is lent.
fn leaves(list: &[Vec<u8>], width: usize, row: &'static str) -> Statement {
    let case = Case::snug(&list.concat(), width, 0);
    Statement {
        case,
        answer: Ok(row),
    }
}

fn refused(list: &[Vec<u8>], width: usize, number: usize) -> Statement {
    says(list, width, 100, Err(number))
}

/// Only the list is looked at: it is well formed, or it is refused by 10.
fn well_formed(change: Vec<u8>) -> Statement {
    leaves(&[change], 1, "_")
}

fn malformed(change: Vec<u8>) -> Statement {
    refused(&[change], 4, 10)
}

const H: &str = "\u{6F22}";
const L: &str = "\u{1100}";
const LL: &str = "\u{1100}\u{1100}";
const LLL: &str = "\u{1100}\u{1100}\u{1100}";
const RI: &str = "\u{1F1E6}";

#[rustfmt::skip]
fn statements() -> Vec<Statement> {
    let (t, a, k3) = (|bytes: &str| text(bytes), attributes, clear);
    let k4 = cursor_right;
    let arrow = || [t("\u{8}"), k4(), t(">")].concat();
    let bold = || a(&[(0, 1)]);
    let damaged = vec![0];

    let mut said = Vec::new();
    // the width is asked first, and never cut to a narrower type
    for width in [0, 4_097, (1 << 32) + 4, usize::MAX] {
        said.push(refused(std::slice::from_ref(&damaged), width, 5));
    }
    // each question is put to the whole list before the next
    said.push(refused(&[t("ab"), damaged], 1, 10));
    said.push(says(&[t("ab")], 1, 0, Err(11)));
    // at first; no list is too long
    said.push(leaves(&[], 3, "_|_|_"));
    said.push(leaves(&[t("").repeat(700)], 1, "_"));
    // a head past the end, a body past the end
    for bytes in 1..6 {
        said.push(refused(&[t("a"), vec![0; bytes]], 2, 10));
    }
    said.push(malformed(with_length(2, 1, b"a")));
    said.push(malformed(with_length(u32::MAX, 1, b"a")));
    // kinds are of two bytes
    for kind in [0, 5, 257, 256, 0x0400] {
        said.push(malformed(change(kind, &[])));
    }
    // body sizes
    said.push(well_formed(change(1, &[])));
    for (kind, sizes) in [(2, &[0, 1, 24, 26, 50][..]), (3, &[0, 3, 5, 8]), (4, &[1, 4])] {
        for &size in sizes {
            said.push(malformed(change(kind, &vec![0; size])));
        }
    }
    // values of fields
    for (place, largest) in [(0, 2), (1, 2), (2, 2), (3, 31), (24, 2)] {
        said.push(well_formed(a(&[(place, largest)])));
        said.push(malformed(a(&[(place, largest + 1)])));
    }
    said.push(well_formed(a(&[(0, 2), (1, 1), (2, 2), (3, 31), (4, 2), (8, 1), (12, 2), (24, 1)])));
    // colours: bytes that are not used are 0
    for at in [4, 8, 12] {
        said.push(malformed(a(&[(at + 1, 1)])));
        said.push(malformed(a(&[(at, 1), (at + 2, 1)])));
        said.push(well_formed(a(&[(at, 1), (at + 1, 255)])));
        said.push(well_formed(a(&[(at, 2), (at + 1, 255), (at + 2, 255), (at + 3, 255)])));
        said.push(malformed(a(&[(at, 3)])));
    }
    for colour in [[0, 1, 0, 0], [0, 0, 0, 1], [1, 1, 1, 0], [1, 1, 0, 1], [3, 0, 0, 0]] {
        said.push(malformed(change(3, &colour)));
    }
    said.push(well_formed(change(3, &[0, 0, 0, 0])));
    said.push(leaves(&[change(3, &[1, 9, 0, 0])], 2, "_9|_9"));
    said.push(leaves(&[change(3, &[2, 0, 0, 9])], 1, " *"));
    // the URI's two take any value
    for place in 16..24 {
        said.push(leaves(&[a(&[(place, 255)]), t("a")], 2, "a*|_"));
    }
    // UTF-8 is asked of each text by itself
    said.push(refused(&[text(b"\xC3"), text(b"\xA9")], 2, 10));
    said.push(leaves(&[text(b"\xC3\xA9")], 2, "\u{E9}|_"));
    for bytes in [&b"\xED\xA0\x80"[..], b"\xC0\xAF", b"\xE0\x80\xAF", b"\xF4\x90\x80\x80", b"\xFF", b"a\xE6\xBC"] {
        said.push(malformed(text(bytes)));
    }
    // 08 is a cluster of its own; no other has width 0
    said.push(leaves(&[t("a\u{8}b")], 2, "b|_"));
    for bytes in [
        "\u{8}\u{301}", "\t", "\n", "\r", "\r\n", "\u{1B}", "\u{7F}", "\u{85}", "\u{200B}", "\u{200D}",
        "\u{301}", "\u{1161}", "\u{11A8}",
    ] {
        said.push(malformed(t(bytes)));
    }
    // clusters are those of one text
    said.push(refused(&[t("e"), t("\u{301}")], 2, 10));
    said.push(leaves(&[t("e\u{301}")], 1, "e\u{301}"));
    said.push(leaves(&[t(L), t(L)], 4, "\u{1100}|-|\u{1100}|-"));
    said.push(leaves(&[t(LL)], 4, "\u{1100}\u{1100}|-|-|-"));
    said.push(leaves(&[t(RI), t(RI)], 2, "\u{1F1E6}|\u{1F1E6}"));
    said.push(leaves(&[t(&RI.repeat(2))], 2, "\u{1F1E6}\u{1F1E6}|-"));
    // a wide cluster takes its columns
    said.push(leaves(&[t(LL)], 5, "\u{1100}\u{1100}|-|-|-|_"));
    said.push(refused(&[t(LLL)], 5, 11));
    said.push(leaves(&[t(LLL)], 6, "\u{1100}\u{1100}\u{1100}|-|-|-|-|-"));
    // what would pass the last column
    said.push(refused(&[t("a"), t(H)], 2, 11));
    said.push(refused(&[t(H)], 1, 11));
    said.push(refused(&[t("a"), t("b")], 1, 11));
    said.push(refused(&[t("a"), a(&[]), k3(1), k4(), t("b")], 1, 11));
    said.push(leaves(&[t("a"), t("")], 1, "a"));
    // 08 clears the flag and moves one column
    said.push(leaves(&[t("ab\u{8}c")], 2, "c|b"));
    said.push(leaves(&[t("a\u{8}b")], 1, "b"));
    said.push(leaves(&[t("\u{6F22}\u{8}c")], 2, "c|_"));
    said.push(leaves(&[t("\u{8}\u{8}a")], 2, "a|_"));
    said.push(leaves(&[t("\u{6F22}a\u{8}\u{8}b")], 4, "_|b|a|_"));
    // cursor right
    said.push(leaves(&[t("a"), k4(), k4(), t("b")], 2, "a|b"));
    said.push(leaves(&[t("ab\u{8}\u{8}"), k4(), t("c")], 3, "a|c|_"));
    said.push(leaves(&[t("ab"), arrow()], 2, "a|>"));
    said.push(leaves(&[t("ab"), arrow()], 3, "a|b|>"));
    said.push(leaves(&[arrow()], 2, "_|>"));
    said.push(leaves(&[arrow()], 1, ">"));
    // a wide cell that is written in part
    said.push(leaves(&[t("\u{6F22}\u{8}a")], 3, "_|a|_"));
    said.push(leaves(&[t("\u{6F22}\u{8}\u{8}a")], 3, "a|_|_"));
    said.push(leaves(&[t(LL), t("\u{8}\u{8}\u{8}a")], 5, "_|a|_|_|_"));
    said.push(leaves(&[t("\u{6F22}\u{6F22}\u{8}\u{8}\u{8}\u{6F22}")], 5, "_|\u{6F22}|-|_|_"));
    said.push(leaves(&[bold(), t("\u{6F22}\u{8}a")], 3, "_|a*|_"));
    // clears
    said.push(leaves(&[t("\u{6F22}\u{8}"), k3(5)], 3, "_|_5|_5"));
    said.push(leaves(&[k3(5), t("a")], 2, "a|_5"));
    said.push(leaves(&[bold(), k3(5), t("a")], 2, "a*|_5"));
    said.push(leaves(&[t("ab"), k3(5)], 2, "a|_5"));
    said.push(leaves(&[t(H), k3(5)], 2, "_|_5"));
    // cells in bytes, and a buffer one byte short
    said.push(says(&[t("a")], 2, 60, Ok("a|_")));
    said.push(says(&[t("a")], 2, 59, Err(9)));
    said.push(leaves(&[t(" ")], 2, "_|_"));
    said.push(says(&[], 1, 30, Ok("_")));
    said.push(says(&[], 1, 29, Err(9)));
    // raised and lowered cells, and a wide one written in part
    said.push(leaves(&[a(&[(24, 1)]), t("a"), a(&[(24, 2)]), t("b")], 3, "a*|b*|_"));
    said.push(leaves(&[a(&[(24, 1)]), t("\u{6F22}\u{8}a")], 3, "_|a*|_"));
    // GB11 joins both in one cell of four columns
    said.push(leaves(&[t("\u{1F468}\u{200D}\u{1F469}")], 4, "\u{1F468}\u{200D}\u{1F469}|-|-|-"));
    said
}

/// What drawings leave in rows of other widths than their own.
fn drawings() -> Vec<Statement> {
    let window = |line: &[u8], start, end, width, answer| {
        let call = Call::DrawWindow {
            matches: Vec::new(),
            current: NONE,
            start,
            end,
        };
        drawing(line, call, width, answer)
    };
    let rows = |line: &[u8], first, count, (row_width, mode), width, answer| {
        let call = Call::DrawRow {
            matches: Vec::new(),
            current: NONE,
            first,
            count,
            width: row_width,
            mode,
        };
        drawing(line, call, width, answer)
    };
    vec![
        window(b"", 0, 0, 1, Ok("_")),
        window(b"a", 0, 2, 2, Ok("a|_")),
        window(b"a", 0, 2, 1, Ok("_")),
        window(b"", 1, 2, 1, Ok("_")),
        window(b"abc", 0, 2, 2, Ok("a|>")),
        window(b"\x1B[73ma\x1B[75mb", 0, 2, 2, Ok("a|b")),
        window(b"abc", 0, 2, 3, Ok("a|b|>")),
        window(b"a\xE6\xBC\xA2\xFF", 1, 5, 4, Ok("<|<|F|>")),
        rows(b"ab", 0, 1, (2, 1), 2, Ok("a|b")),
        rows(b"ab", 0, 2, (2, 1), 2, Ok("a|_")),
        rows(b"ab", 0, 2, (2, 1), 4, Ok("a|b|_|_")),
        rows(b"abcdef", 1, 1, (4, 1), 2, Ok("e|_")),
        rows(b"abcdef", 1, 1, (4, 1), 4, Ok("e|f|_|_")),
        rows(b"a", 0, 1, (80, 1), 1, Ok("_")),
        rows(b"\t", 0, 1, (4, 1), 4, Err(11)),
        rows(b"\xFF", 1, 1, (3, 1), 3, Err(11)),
        rows(b"\xE6\xBC\xA2", 1, 1, (1, 1), 1, Err(11)),
        rows(b"ab", 0, 1, (1, 0), 1, Err(11)),
        rows(b"ab", 0, 2, (1, 1), 1, Err(11)),
    ]
}

fn drawing(
    line: &[u8],
    call: Call,
    width: usize,
    answer: Result<&'static str, usize>,
) -> Statement {
    let list = drawn::list(&call, line).expect("a drawing");
    let mut case = Case::snug(&list, width, 64);
    case.drawn = true;
    Statement { case, answer }
}
