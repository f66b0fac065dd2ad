//! Stored forms and refusals that are stated, where document 02's words are short.

use super::lists::{stored_change, with_length as stored_with_length};
use super::{Case, RESTORE, STORE};
use crate::screen::changes::{change, clear, cursor_right, text, with_length};
use crate::writing::{Answer, Writing};
use oracle::format::hex;

/// A case, and what it leaves or is refused by.
struct Statement {
    case: Case,
    answer: Result<Vec<u8>, usize>,
}

/// The stated cases of a call; the model is held to each of them here.
pub fn cases(call: &str) -> Vec<Case> {
    let statements = match call {
        STORE => there(),
        RESTORE => back(),
        _ => panic!("no call {call}"),
    };
    for Statement { case, answer } in &statements {
        assert_eq!(case.answer(), Answer::of(answer.clone()), "{case}");
    }
    statements.into_iter().map(|said| said.case).collect()
}

/// The same that can be recorded: crates/vectors has room for short lists.
pub fn recorded(call: &str) -> Vec<Case> {
    let mut cases = cases(call);
    cases.retain(|case| case.list.len() < 1_000 && case.size < 1_000);
    cases
}

// ---- changes in both forms

/// An attribute body of so many bytes, 0 but for some.
fn body(len: usize, bytes: &[(usize, u8)]) -> Vec<u8> {
    let mut body = vec![0; len];
    for &(place, byte) in bytes {
        body[place] = byte;
    }
    body
}

fn attributes(len: usize, bytes: &[(usize, u8)]) -> Vec<u8> {
    change(2, &body(len, bytes))
}

fn stored_attributes(len: usize, bytes: &[(usize, u8)]) -> Vec<u8> {
    stored_change(2, &body(len, bytes))
}

fn stored_text(text: impl AsRef<[u8]>) -> Vec<u8> {
    stored_change(1, text.as_ref())
}

fn letters(count: usize) -> Vec<u8> {
    vec![b'a'; count]
}

// ---- store

fn stores(list: &[Vec<u8>], stored: &[Vec<u8>]) -> Statement {
    let stored = stored.concat();
    Statement {
        case: Case::store(&list.concat(), stored.len()),
        answer: Ok(stored),
    }
}

fn refuses(list: &[Vec<u8>], size: usize, number: usize) -> Statement {
    Statement {
        case: Case::store(&list.concat(), size),
        answer: Err(number),
    }
}

fn malformed(change: Vec<u8>) -> Statement {
    refuses(&[change], 100, 10)
}

/// One change is stored in its own form.
fn kept(kind: u16, body: &[u8]) -> Statement {
    stores(&[change(kind, body)], &[stored_change(kind, body)])
}

fn there() -> Vec<Statement> {
    let mut said = forms();
    said.extend(malformed_lists());
    said.extend(long_bodies());
    said.extend(sizes_of_attributes());
    said.extend(questions());
    said
}

/// The form in bytes.
fn forms() -> Vec<Statement> {
    assert_eq!(hex(&stored_text("a")), "0100010061");
    assert_eq!(hex(&stored_change(4, &[])), "00000400");
    assert_eq!(hex(&stored_attributes(25, &[])[..4]), "19000200");
    vec![
        stores(&[], &[]),
        kept(1, b"a"),
        kept(1, b""),
        kept(4, &[]),
        kept(3, &[1, 5, 0, 0]),
        kept(3, &[2, 9, 8, 7]),
        // any number of changes
        stores(&[text("ab").repeat(150)], &[stored_text("ab").repeat(150)]),
        stores(
            &[text("a"), clear(3), cursor_right(), text("")],
            &[
                stored_text("a"),
                stored_change(3, &[1, 3, 0, 0]),
                stored_change(4, &[]),
                stored_text(""),
            ],
        ),
        // cluster widths are not asked
        kept(1, "\u{301}".as_bytes()),
        kept(1, b"\t"),
        kept(1, b"\x1B"),
        kept(1, b"\r\n\0"),
        kept(1, "\u{8}\u{301}\u{200D}\u{1161}".as_bytes()),
        // lengths of two bytes
        kept(1, &letters(255)),
        kept(1, &letters(256)),
    ]
}

/// Attributes get an alignment where they have none.
fn sizes_of_attributes() -> Vec<Statement> {
    let old = |bytes: &[(usize, u8)]| attributes(24, bytes);
    let new = |bytes: &[(usize, u8)]| attributes(25, bytes);
    let stored = |bytes: &[(usize, u8)]| stored_attributes(25, bytes);
    let mut said = vec![
        stores(&[old(&[])], &[stored(&[])]),
        stores(&[new(&[])], &[stored(&[])]),
        stores(
            &[old(&[(0, 1), (23, 255)])],
            &[stored(&[(0, 1), (23, 255)])],
        ),
        // mixed, in either order
        stores(
            &[old(&[(0, 1)]), new(&[(24, 1)]), text("a"), old(&[(3, 31)])],
            &[
                stored(&[(0, 1)]),
                stored(&[(24, 1)]),
                stored_text("a"),
                stored(&[(3, 31)]),
            ],
        ),
        stores(
            &[new(&[(24, 2)]), old(&[])],
            &[stored(&[(24, 2)]), stored(&[])],
        ),
        malformed(new(&[(24, 3)])),
        malformed(new(&[(24, 255)])),
        refuses(&[old(&[]), new(&[(24, 3)])], 100, 10),
    ];
    for alignment in 0..3 {
        said.push(kept(2, &body(25, &[(24, alignment)])));
    }
    for len in [0, 1, 4, 23, 26, 48, 50] {
        said.push(malformed(attributes(len, &[])));
    }
    // the URI's two take any value
    for place in 16..24 {
        said.push(kept(2, &body(25, &[(place, 255)])));
    }
    said
}

fn malformed_lists() -> Vec<Statement> {
    let mut said = Vec::new();
    // a head past the end, a body past the end
    for bytes in 1..6 {
        said.push(refuses(&[text("a"), vec![0; bytes]], 100, 10));
    }
    said.push(malformed(with_length(2, 1, b"a")));
    said.push(malformed(with_length(u32::MAX, 1, b"a")));
    said.push(malformed(with_length(0x1_0001, 1, b"a")));
    // kinds are of two bytes
    for kind in [0, 5, 256, 257, 258, 0x0400, u16::MAX] {
        said.push(malformed(change(kind, &[])));
    }
    for (kind, sizes) in [(3, &[0, 3, 5, 8][..]), (4, &[1, 4])] {
        for &size in sizes {
            said.push(malformed(change(kind, &vec![0; size])));
        }
    }
    for len in [24, 25] {
        for (place, largest) in [(0, 2), (1, 2), (2, 2), (3, 31)] {
            said.push(malformed(attributes(len, &[(place, largest + 1)])));
        }
        // colours: bytes that are not used are 0
        for at in [4, 8, 12] {
            said.push(malformed(attributes(len, &[(at + 1, 1)])));
            said.push(malformed(attributes(len, &[(at, 1), (at + 2, 1)])));
            said.push(malformed(attributes(len, &[(at, 3)])));
        }
    }
    for colour in [
        [0, 1, 0, 0],
        [0, 0, 0, 1],
        [1, 1, 1, 0],
        [1, 1, 0, 1],
        [3, 0, 0, 0],
    ] {
        said.push(malformed(change(3, &colour)));
    }
    // UTF-8 is asked of each text by itself
    said.push(refuses(&[text(b"\xC3"), text(b"\xA9")], 100, 10));
    for bytes in [
        &b"\xFF"[..],
        b"\xC3",
        b"\xED\xA0\x80",
        b"\xC0\xAF",
        b"\xF4\x90\x80\x80",
    ] {
        said.push(malformed(text(bytes)));
    }
    said
}

/// 12 stands behind a whole list that is well formed.
fn long_bodies() -> Vec<Statement> {
    let long = || text(letters(65_536));
    vec![
        kept(1, &letters(65_535)),
        refuses(&[long()], 70_000, 12),
        refuses(&[long()], 0, 12),
        refuses(&[text("a"), long(), text("b")], 70_000, 12),
        refuses(&[text(letters(65_537))], 70_000, 12),
        refuses(&[text(letters(131_072))], 140_000, 12),
        refuses(&[long(), vec![0]], 70_000, 10),
        refuses(&[long(), attributes(23, &[])], 70_000, 10),
        refuses(&[text(vec![0xFF; 65_536])], 70_000, 10),
        refuses(&[change(2, &vec![0; 65_536])], 70_000, 10),
        refuses(&[change(3, &vec![0; 65_536])], 70_000, 10),
        refuses(&[change(4, &vec![0; 65_536])], 70_000, 10),
        // a length cut to two bytes would find 24 or 25 bytes here
        refuses(&[change(2, &vec![0; 65_536 + 25])], 70_000, 10),
        // two texts, each short enough
        stores(
            &[text(letters(65_535)), text(letters(65_535))],
            &[stored_text(letters(65_535)), stored_text(letters(65_535))],
        ),
        // the last byte that is counted is inside a scalar
        stores(
            &[text("\u{E9}".repeat(32_767))],
            &[stored_text("\u{E9}".repeat(32_767))],
        ),
        refuses(&[text("\u{E9}".repeat(32_768))], 70_000, 12),
    ]
}

/// 9 stands last.
fn questions() -> Vec<Statement> {
    let list = || {
        [
            text("a"),
            attributes(24, &[]),
            attributes(25, &[]),
            clear(1),
        ]
        .concat()
    };
    let need = (4 + 1) + 2 * (4 + 25) + (4 + 4);
    vec![
        refuses(&[list()], need - 1, 9),
        refuses(&[list()], 0, 9),
        refuses(&[list(), vec![0]], 0, 10),
        refuses(&[text("a")], 4, 9),
        refuses(&[text("")], 3, 9),
        Statement {
            case: Case::store(&[], 7),
            answer: Ok(vec![]),
        },
        Statement {
            case: Case::store(&text("a"), 300),
            answer: Ok(stored_text("a")),
        },
    ]
}

// ---- restore

fn restores(stored: &[Vec<u8>], list: &[Vec<u8>]) -> Statement {
    let list = list.concat();
    Statement {
        case: Case::restore(&stored.concat(), list.len()),
        answer: Ok(list),
    }
}

fn refuses_stored(stored: &[Vec<u8>], size: usize, number: usize) -> Statement {
    Statement {
        case: Case::restore(&stored.concat(), size),
        answer: Err(number),
    }
}

fn back() -> Vec<Statement> {
    let malformed = |stored: Vec<u8>| refuses_stored(&[stored], 100, 10);
    let same = |kind, body: &[u8]| restores(&[stored_change(kind, body)], &[change(kind, body)]);
    let attributes_of = |bytes: &[(usize, u8)]| stored_attributes(25, bytes);
    let mut said = vec![
        restores(&[], &[]),
        same(1, b"a"),
        same(1, b""),
        same(1, "\u{301}\t".as_bytes()),
        same(1, &letters(256)),
        same(1, &letters(65_535)),
        same(2, &body(25, &[(0, 2), (24, 2)])),
        same(3, &[1, 5, 0, 0]),
        same(4, &[]),
        restores(
            &[stored_text("a"), attributes_of(&[]), stored_change(4, &[])],
            &[text("a"), attributes(25, &[]), cursor_right()],
        ),
        // attributes have 25 bytes only
        malformed(stored_attributes(24, &[])),
        malformed(stored_attributes(26, &[])),
        malformed(stored_attributes(23, &[])),
        refuses_stored(&[attributes_of(&[]), stored_attributes(24, &[])], 200, 10),
        malformed(attributes_of(&[(24, 3)])),
        malformed(attributes_of(&[(0, 3)])),
        malformed(attributes_of(&[(3, 32)])),
        malformed(attributes_of(&[(5, 1)])),
        malformed(stored_change(3, &[0, 0, 1, 0])),
        malformed(stored_change(3, &[0; 3])),
        malformed(stored_change(4, &[0])),
        malformed(stored_change(0, &[])),
        malformed(stored_change(5, &[])),
        malformed(stored_change(0x0101, &[])),
        malformed(stored_text(b"\xFF")),
        malformed(stored_text(b"\xE6\xBC")),
        refuses_stored(&[stored_text(b"\xC3"), stored_text(b"\xA9")], 100, 10),
        // a body past the end
        malformed(stored_with_length(2, 1, b"a")),
        malformed(stored_with_length(u16::MAX, 1, b"a")),
        // an old list is none
        malformed(text("a")),
        // 9 stands last
        refuses_stored(&[stored_text("a")], 6, 9),
        refuses_stored(&[stored_text("a"), attributes_of(&[])], 37, 9),
        refuses_stored(&[stored_text("a"), attributes_of(&[(24, 3)])], 0, 10),
    ];
    // a head past the end
    for bytes in 1..4 {
        said.push(refuses_stored(&[stored_text("a"), vec![0; bytes]], 100, 10));
    }
    said
}
