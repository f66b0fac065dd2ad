//! Change lists: random ones, and the same altered.

use super::changes::{change, cursor_right, text};
use super::model::{screen_row, CELL, LARGEST_WIDTH};
use super::{drawn, Case};
use oracle::changes::places;
use oracle::random::Random;
use oracle::Call;
use std::ops::Range;
use unicode_width::UnicodeWidthStr;

/// Widths at and around each limit, and those that a narrower type would cut.
#[rustfmt::skip]
pub const WIDTHS: [usize; 21] = [
    0, 1, 2, 3, 4, 5, 80, 255, 256, 257, 4_095, 4_096, 4_097, 65_535, 65_536, 65_537, 1 << 32, (1 << 32) + 1,
    (1 << 32) + 4, usize::MAX - 1, usize::MAX,
];

// ---- random lists

const CLUSTERS: [&str; 17] = [
    "a",
    "b",
    " ",
    "\u{8}",
    "\u{8}",
    "\u{8}\u{8}\u{8}",
    "\u{6F22}",
    "\u{6F22}",
    "\u{1100}\u{1100}",
    "\u{1100}\u{1100}\u{1161}",
    "\u{1100}\u{1100}\u{1100}",
    "\u{AC01}",
    "e\u{301}",
    "\u{E9}\u{301}\u{302}\u{E0100}",
    "\u{1F1E6}",
    "\u{1F1F3}\u{1F1F4}",
    "\u{1F468}\u{200D}\u{1F469}",
];

/// What no text has.
#[rustfmt::skip]
const REFUSED: [&[u8]; 17] = [
    b"\t", b"\n", b"\r\n", b"\0", b"\x1B", b"\x7F", b"\xC2\x85", b"\xCC\x81", b"\x08\xCC\x81", b"\xE2\x80\x8B",
    b"\xE2\x80\x8D", b"\xE1\x85\xA1", b"\xE1\x86\xA8", b"\xFF", b"\xC3", b"\xED\xA0\x80", b"\xF4\x90\x80\x80",
];

fn any_colour(random: &mut Random) -> [u8; 4] {
    let [red, green, blue] = [0; 3].map(|_| random.below(256) as u8);
    match random.below(3) {
        0 => [0; 4],
        1 => [1, red, 0, 0],
        _ => [2, red, green, blue],
    }
}

fn any_attributes(random: &mut Random) -> Vec<u8> {
    let mut body: Vec<u8> = [3, 3, 3, 32].map(|end| random.below(end) as u8).to_vec();
    for _ in 0..3 {
        body.extend(any_colour(random));
    }
    let uri = if random.percent(50) {
        0
    } else {
        random.number()
    };
    body.extend(uri.to_le_bytes());
    body.push(random.below(3) as u8);
    change(2, &body)
}

fn any_text(random: &mut Random) -> Vec<u8> {
    let clusters = (0..random.below(5)).map(|_| random.pick(&CLUSTERS));
    text(clusters.collect::<String>())
}

/// A change that document 01 lacks.
fn refused_change(random: &mut Random) -> Vec<u8> {
    match random.below(4) {
        0 => text([&b"a"[..], random.pick(&REFUSED), b"b"].concat()),
        1 => text(random.pick(&REFUSED)),
        2 => {
            let kind = random.pick(&[0, 1, 2, 3, 4, 5, 6, 257, 0x0200]);
            change(kind, &vec![random.pick(&[0, 1, 0x61]); random.below(30)])
        }
        _ => {
            let mut bytes = any_attributes(random);
            let place = random.between(6, 22);
            let place = if place == 22 { bytes.len() - 1 } else { place };
            bytes[place] = random.pick(&[1, 2, 3, 32, 255]);
            bytes
        }
    }
}

/// A list of any changes, now and then with one that document 01 lacks.
pub fn any_list(random: &mut Random) -> Vec<u8> {
    let count = match random.below(100) {
        0..=79 => random.between(1, 9),
        80..=96 => random.between(5, 30),
        _ => random.between(30, 200),
    };
    let refused = random.percent(8).then(|| random.below(count));
    let mut list = Vec::new();
    for number in 0..count {
        list.extend(match random.below(20) {
            _ if refused == Some(number) => refused_change(random),
            0..=10 => any_text(random),
            11 | 12 => any_attributes(random),
            13..=15 => change(3, &any_colour(random)),
            16 | 17 => cursor_right(),
            _ => text("\u{8}".repeat(random.between(1, 4))),
        });
    }
    list
}

// ---- alterations

/// A list in which a few things were changed.
pub fn altered(random: &mut Random, mut list: Vec<u8>) -> Vec<u8> {
    for _ in 0..random.pick(&[1, 1, 1, 2, 3]) {
        alter(random, &mut list);
    }
    list
}

fn alter(random: &mut Random, list: &mut Vec<u8>) {
    let changes = places(list).unwrap_or_default();
    if changes.is_empty() || random.percent(30) {
        return alter_bytes(random, list);
    }
    let (kind, body) = changes[random.below(changes.len())].clone();
    let change = body.start - 6..body.end;
    match random.below(8) {
        0 => {
            let (_, other) = changes[random.below(changes.len())].clone();
            swap(list, change, other.start - 6..other.end);
        }
        1 => list.extend_from_within(change),
        2 => drop(list.drain(change)),
        3 => list[change.start + 4] = random.pick(&[0, 1, 2, 3, 4, 5, 6, kind as u8]),
        4 => list[change.start + 5] = random.pick(&[0, 1, 2, 4]),
        5 => {
            let len = random.pick(&[0, 1, 4, 24, 25, 26, 256, 1 << 24, u32::MAX, u32::MAX - 6]);
            let near = (body.len() as u32).wrapping_add_signed(random.pick(&[-1, 1, 6]));
            let len = random.pick(&[len, near]);
            list[change.start..change.start + 4].copy_from_slice(&len.to_le_bytes());
        }
        _ if body.is_empty() => (),
        6 => {
            let place = random.between(body.start, body.end - 1);
            list[place] = random.pick(&[0, 1, 2, 3, 8, 31, 32, 0x61, 0xCC, 0xFF]);
        }
        _ => {
            let cluster = random.pick(&CLUSTERS).as_bytes();
            let place = random.between(body.start, body.end);
            list.splice(place..place, cluster.iter().copied());
            let len = (body.len() + cluster.len()) as u32;
            list[change.start..change.start + 4].copy_from_slice(&len.to_le_bytes());
        }
    }
}

fn swap(list: &mut Vec<u8>, one: Range<usize>, other: Range<usize>) {
    let (first, second) = if one.start < other.start {
        (one, other)
    } else {
        (other, one)
    };
    if first == second {
        return;
    }
    let parts = [
        &list[..first.start],
        &list[second.clone()],
        &list[first.end..second.start],
        &list[first],
        &list[second.end..],
    ];
    *list = parts.concat();
}

/// Cuts a list, or loses, adds or changes a byte.
fn alter_bytes(random: &mut Random, list: &mut Vec<u8>) {
    let place = random.below(list.len() + 1);
    let byte = random.pick(&[0, 1, 2, 3, 4, 8, 24, 25, 0x61, 0xE6, 0xFF]);
    match random.below(5) {
        0 => list.truncate(place),
        1 => list.insert(place, byte),
        _ if place == list.len() => (),
        2 => drop(list.remove(place)),
        3 => list[place] = byte,
        _ => list[place] ^= 1 << random.below(8),
    }
}

// ---- cases

/// A list in some width, with sizes lent around the need.
pub fn any_case(random: &mut Random, list: Vec<u8>) -> Case {
    let columns = text_columns(&list);
    let width = match random.below(40) {
        0 => random.pick(&WIDTHS),
        1..=5 => columns.saturating_sub(1),
        6..=20 => columns.max(1),
        21..=24 => columns + 1,
        25..=30 => random.below(columns + 2),
        _ => random.between(1, 12),
    };
    around_need(random, list, width)
}

/// The columns of all texts that are UTF-8.
fn text_columns(list: &[u8]) -> usize {
    let changes = places(list).unwrap_or_default().into_iter();
    let texts = changes.filter(|(kind, _)| *kind == 1);
    let texts = texts.filter_map(|(_, body)| std::str::from_utf8(&list[body]).ok());
    texts.map(UnicodeWidthStr::width).sum()
}

/// A row that is refused whatever is lent is lent a cell for each column.
pub fn around_need(random: &mut Random, list: Vec<u8>, width: usize) -> Case {
    let answer = screen_row(&list, width, usize::MAX);
    let need = match answer.number {
        0 => answer.count,
        _ => CELL * width.min(LARGEST_WIDTH + 1),
    };
    let size = match random.below(40) {
        0 => 0,
        1 | 2 => need - 1.min(need),
        3 => random.below(need + 1),
        4..=25 => need,
        26..=32 => need + 1,
        33..=38 => need + random.below(60),
        _ => need + random.between(60, 5_000),
    };
    Case::new(&list, width, size)
}

/// Makes a call for a line.
pub type AnyCall = fn(&mut Random, &[u8]) -> Call;

/// Most lines have a drawing that is accepted among so many.
const TRIES: usize = 30;

/// What a drawing leaves, and how many columns it was drawn into.
pub fn drawn_list(random: &mut Random, line: &[u8], call: AnyCall) -> Option<(Vec<u8>, usize)> {
    let mut calls = (0..TRIES).map(|_| call(random, line));
    calls.find_map(|call| {
        let list = drawn::list(&call, line)?;
        let columns = match call {
            Call::DrawWindow { start, end, .. } => end - start,
            Call::DrawRow { width, .. } => width,
            _ => return None,
        };
        Some((list, columns))
    })
}

/// What a drawing leaves, in as many columns as it was drawn into, as its texts take, or
/// any; altered, if that is wanted. Where no drawing is accepted, the empty list.
pub fn drawn_case(random: &mut Random, line: &[u8], call: AnyCall, change: bool) -> Case {
    let (mut list, own) = drawn_list(random, line, call).unwrap_or_default();
    let columns = drawn::columns(&list);
    if change {
        list = altered(random, list);
    }
    let width = match random.below(60) {
        0..=23 => own,
        24 | 25 => own.saturating_sub(1),
        26..=28 => own + 1,
        29..=38 => columns.max(1),
        39..=43 => columns.saturating_sub(1),
        44..=48 => columns + 1,
        49..=53 => random.between(1, columns + 4),
        54..=57 => random.pick(&[1, 2, 3]),
        _ => random.pick(&WIDTHS),
    };
    let mut case = around_need(random, list, width);
    case.drawn = !change;
    case
}
