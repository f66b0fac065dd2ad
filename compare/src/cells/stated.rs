//! Written cells and refusals that are stated, where document 02's words are short.

use super::model::styled;
use super::Case;
use crate::writing::{Answer, Writing};

/// A case, what it writes or is refused by, and what converting gives for that.
struct Statement {
    case: Case,
    answer: Result<Vec<u8>, usize>,
    converted: Option<&'static [u8]>,
}

/// The stated cases; the model is held to each of them here.
pub fn cases() -> Vec<Case> {
    let mut statements = short();
    statements.extend(limits());
    for said in &statements {
        let Statement { case, answer, .. } = said;
        assert_eq!(case.answer(), Answer::of(answer.clone()), "{case}");
        if let Some(converted) = said.converted {
            assert_eq!(styled(&case.cells), converted, "{case}");
        }
    }
    statements.into_iter().map(|said| said.case).collect()
}

/// The same that can be recorded: crates/vectors has room for so many cells.
pub fn recorded() -> Vec<Case> {
    let mut cases = cases();
    cases.retain(|case| case.cells.len() < 5_000);
    cases
}

fn says(cells: &[u8], size: usize, answer: Result<&[u8], usize>) -> Statement {
    Statement {
        case: Case::new(cells, size),
        answer: answer.map(<[u8]>::to_vec),
        converted: None,
    }
}

/// What is written where just enough is lent, and what it is converted to.
fn writes(cells: &[u8], written: &[u8], converted: &'static [u8]) -> Statement {
    Statement {
        converted: Some(converted),
        ..says(cells, written.len(), Ok(written))
    }
}

fn refused(cells: &[u8], number: usize) -> Statement {
    says(cells, 100, Err(number))
}

fn short() -> Vec<Statement> {
    let mut said = vec![
        writes(b"", b"", b""),
        writes(b"a\0", b"a", b"a"),
        writes(b"a\x01", b"a\x08a", b"\x1B[1ma\x1B[22m"),
        writes(b"a\x02", b"_\x08a", b"\x1B[4ma\x1B[24m"),
        writes(b"a\x03", b"_\x08a\x08a", b"\x1B[1;4ma\x1B[22;24m"),
        // a space is a cell
        writes(b" \x02", b"_\x08 ", b"\x1B[4m \x1B[24m"),
        writes(b" \x01", b" \x08 ", b"\x1B[1m \x1B[22m"),
        writes(b"~\0", b"~", b"~"),
        // no order between cells of one style
        writes(b"a\x01b\x01", b"a\x08ab\x08b", b"\x1B[1mab\x1B[22m"),
        writes(b"a\0b\0", b"ab", b"ab"),
        writes(b"a\x01a\x01", b"a\x08aa\x08a", b"\x1B[1maa\x1B[22m"),
        // from each style to each other
        writes(
            b"a\x01b\x02",
            b"a\x08a_\x08b",
            b"\x1B[1ma\x1B[22;4mb\x1B[24m",
        ),
        writes(
            b"a\x02b\x01",
            b"_\x08ab\x08b",
            b"\x1B[4ma\x1B[24;1mb\x1B[22m",
        ),
        writes(
            b"a\x03b\x01",
            b"_\x08a\x08ab\x08b",
            b"\x1B[1;4ma\x1B[24mb\x1B[22m",
        ),
        writes(
            b"a\x03b\x02",
            b"_\x08a\x08a_\x08b",
            b"\x1B[1;4ma\x1B[22mb\x1B[24m",
        ),
        writes(
            b"a\x01b\x03",
            b"a\x08a_\x08b\x08b",
            b"\x1B[1ma\x1B[4mb\x1B[22;24m",
        ),
        writes(
            b"a\x02b\x03",
            b"_\x08a_\x08b\x08b",
            b"\x1B[4ma\x1B[1mb\x1B[22;24m",
        ),
        writes(
            b"a\x03b\0c\x03",
            b"_\x08a\x08ab_\x08c\x08c",
            b"\x1B[1;4ma\x1B[22;24mb\x1B[1;4mc\x1B[22;24m",
        ),
        // half a cell
        refused(b"a", 16),
        refused(b"a\0b", 16),
        refused(b"\0", 16),
        // styles are numbers, not digits
        refused(b"a1", 16),
        refused(b"a\x04", 16),
        refused(b"a\xFF", 16),
        // 17 stands last
        says(b"a\x01", 2, Err(17)),
        says(b"a\x01", 0, Err(17)),
        says(b"a\x03b\0", 5, Err(17)),
        says(b"a\x03b\x04", 0, Err(16)),
        says(b"a\x02", 50, Ok(b"_\x08a")),
        says(b"", 9, Ok(b"")),
    ];
    for byte in [0x00, 0x08, 0x0A, 0x1B, 0x1F, 0x5F, 0x7F, 0x80, 0xFF] {
        said.push(refused(&[byte, 0], 16));
        said.push(refused(&[b'a', 0, byte, 1, b'b', 0], 16));
    }
    said
}

/// Written bytes are counted, not cells; 16 is asked of all cells before.
fn limits() -> Vec<Statement> {
    let plain = |count| b"a\0".repeat(count);
    let both = |count| b"a\x03".repeat(count);
    let strikes = |count: usize| b"_\x08a\x08a".repeat(count);
    let full = [both(819), plain(1)].concat();
    let damaged = |cells: Vec<u8>| [cells, b"_\0".to_vec()].concat();
    vec![
        says(&plain(4_096), 4_096, Ok(&b"a".repeat(4_096))),
        says(&plain(4_096), 4_095, Err(17)),
        says(&plain(4_097), 5_000, Err(1)),
        says(&plain(4_097), 0, Err(1)),
        says(&damaged(plain(4_097)), 5_000, Err(16)),
        says(&[b"_\0".to_vec(), plain(4_097)].concat(), 0, Err(16)),
        says(&[plain(4_097), b"a".to_vec()].concat(), 5_000, Err(16)),
        says(&[plain(4_097), b"a\x04".to_vec()].concat(), 5_000, Err(16)),
        says(&full, 4_096, Ok(&[strikes(819), b"a".to_vec()].concat())),
        says(&full, 4_095, Err(17)),
        says(&[both(819), plain(2)].concat(), 5_000, Err(1)),
        says(&both(819), 4_095, Ok(&strikes(819))),
        says(&both(820), 5_000, Err(1)),
        says(&both(820), 0, Err(1)),
        says(&damaged(both(820)), 0, Err(16)),
        says(&plain(100_000), 200_000, Err(1)),
        says(&damaged(plain(100_000)), 200_000, Err(16)),
    ]
}
