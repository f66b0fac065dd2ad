//! The sets of cases.

use super::{sample, stated, Case};
use crate::comparison::Set;
use crate::lending::around;
use crate::lines::{short_of, Lines};
use oracle::random::Random;

/// How many random cases a set has.
const RANDOM: usize = 1_000_000;

pub fn sets(seed: u64) -> Vec<Set<Case>> {
    let maker = Maker { seed };
    vec![
        Set::of("stated cases", stated::cases()),
        Set::of("the recorded sample", sample::cases()),
        Set::of("every cell", every_cell()),
        Set::of("sizes lent", sizes()),
        Set::of("written lengths", written_lengths()),
        maker.lists("short lists of cells", short_of(cells(), 4)),
        maker.lists("short lists of bytes", short_of(bytes(), 6)),
        maker.random("random cells", RANDOM, |random, number| {
            let count = any_count(random, number);
            any_cells(random, count)
        }),
        maker.random("altered cells", RANDOM / 2, |random, number| {
            let count = any_count(random, number);
            let cells = any_cells(random, count);
            altered(random, cells)
        }),
    ]
}

/// Telling bytes in each style, and what is no cell.
fn cells() -> Vec<Vec<u8>> {
    let mut cells = Vec::new();
    for byte in [b'a', b'b', b' ', b'~'] {
        cells.extend((0..4).map(|style| vec![byte, style]));
    }
    cells.extend([b"_\0", b"a\x04", b"\x7F\0", b"\x1F\x02"].map(|cell| cell.to_vec()));
    cells
}

/// Bytes that may be either of a cell, or neither.
fn bytes() -> Vec<Vec<u8>> {
    let bytes = [0, 1, 2, 3, 4, 8, b' ', b'a', b'_', 0x7F];
    bytes.map(|byte| vec![byte]).to_vec()
}

/// A random list has a few cells; three of 100 about as many as may be written, in one
/// style or another.
pub fn any_count(random: &mut Random, number: usize) -> usize {
    match number % 100 {
        0 => random.between(700, 900),
        1 => random.between(1_300, 2_100),
        2 => random.between(4_000, 4_200),
        _ => random.between(0, 24),
    }
}

/// Cells of a few bytes or any, their styles in runs or mixed.
pub fn any_cells(random: &mut Random, count: usize) -> Vec<u8> {
    let few = random.percent(50);
    let change = random.pick(&[10, 50, 100]);
    let styles: &[u8] = random.pick(&[&[0, 1, 2, 3][..], &[0, 1, 2, 3], &[0], &[3], &[0, 1]]);
    let mut style = 0;
    let mut cells = Vec::new();
    for _ in 0..count {
        if random.percent(change) {
            style = random.pick(styles);
        }
        let byte = match few {
            true => random.pick(b"ab m[1"),
            false => random.between(0x20, 0x7E) as u8,
        };
        cells.extend([if byte == b'_' { b'-' } else { byte }, style]);
    }
    cells
}

/// A byte lost, added or changed.
fn altered(random: &mut Random, mut cells: Vec<u8>) -> Vec<u8> {
    let place = random.below(cells.len() + 1);
    let byte = random.pick(&[0, 1, 3, 4, 8, 0x1F, b'_', 0x7E, 0x7F, 0x80, 0xFF]);
    match random.below(4) {
        0 => cells.insert(place, byte),
        _ if place == cells.len() => (),
        1 => drop(cells.remove(place)),
        _ => cells[place] = byte,
    }
    cells
}

#[derive(Clone, Copy)]
struct Maker {
    seed: u64,
}

impl Maker {
    fn random(
        self,
        name: &'static str,
        count: usize,
        cells: impl Fn(&mut Random, usize) -> Vec<u8> + Sync + 'static,
    ) -> Set<Case> {
        let case = move |number| {
            let mut random = Random::of_case(self.seed, number);
            let cells = cells(&mut random, number);
            let need = Case::snug(&cells, cells.len()).size;
            Case::new(&cells, around(&mut random, need))
        };
        let case = Box::new(case);
        Set { name, count, case }
    }

    fn lists(self, name: &'static str, lists: Lines) -> Set<Case> {
        self.random(name, lists.count, move |_, number| (lists.line)(number))
    }
}

/// Every byte in every style, alone, behind a cell and before one.
fn every_cell() -> Vec<Case> {
    let mut cases = Vec::new();
    for byte in 0..=255 {
        for style in 0..=255 {
            let cell = [byte, style];
            for cells in [&cell[..], &[b'a', 1, byte, style], &[byte, style, b'a', 2]] {
                cases.push(Case::snug(cells, 12));
            }
        }
    }
    cases
}

/// Every size up to one more than is needed, and much more.
fn sizes() -> Vec<Case> {
    let lists = short_of(cells(), 2);
    let mut cases = Vec::new();
    for cells in (0..lists.count).map(lists.line) {
        let need = Case::snug(&cells, 8).size;
        let sizes = (0..need + 2).chain([need + 20_000]);
        cases.extend(sizes.map(|size| Case::new(&cells, size)));
    }
    cases
}

/// Lists that write about 4,096 bytes in each style and in mixed ones; with half a cell,
/// a 5F or a style 4 at the first place, in the middle and at the last; lent just enough, a byte
/// less or more, nothing or much.
fn written_lengths() -> Vec<Case> {
    let mut cases = Vec::new();
    for (style, width) in [(0, 1), (1, 3), (2, 3), (3, 5)] {
        for count in [
            4_080 / width,
            4_095 / width,
            4_096 / width,
            4_096 / width + 1,
        ] {
            for rest in 0..4 {
                let cells = [[b'a', style].repeat(count), b"b\0".repeat(rest)].concat();
                let sizes = [0, 4_094, 4_095, 4_096, 4_097, 9_000];
                cases.extend(sizes.map(|size| Case::new(&cells, size)));
                cases.extend(damaged(&cells));
            }
        }
    }
    cases
}

fn damaged(cells: &[u8]) -> Vec<Case> {
    let mut cases = Vec::new();
    for place in [0, cells.len() / 4 * 2, cells.len()] {
        for piece in [&b"a"[..], b"_\x01", b"a\x04", b"\x08\0"] {
            let cells = [&cells[..place], piece, &cells[place..]].concat();
            cases.extend([0, 5_000].map(|size| Case::new(&cells, size)));
        }
    }
    cases
}
