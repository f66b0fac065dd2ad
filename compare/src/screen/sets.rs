//! The sets of cases.

use super::changes::{attributes, change, clear, cursor_right, text, with_length};
use super::lists::{altered, any_case, any_list, around_need, drawn_case, AnyCall, WIDTHS};
use super::model::{BODY, CELL, LARGEST_WIDTH};
use super::{sample, stated, Case};
use crate::alphabets::{CLASSES, DRAWN, SHIFTED};
use crate::calls;
use crate::comparison::Set;
use crate::lines::{self, scalars, sequences, short, short_of, Context, Lines};
use oracle::random::Random;

/// How many random cases a set has.
const RANDOM: usize = 1_000_000;

pub fn sets(seed: u64) -> Vec<Set<Case>> {
    let maker = Maker { seed };
    let narrow: &[usize] = &[1, 2, 3, 5];
    let mut sets = vec![
        Set::of("stated cases", stated::cases()),
        Set::of("the recorded sample", sample::cases()),
        Set::of("widths at each limit", widths()),
        Set::of("sizes lent", sizes()),
        Set::of("fields of attributes", fields()),
        Set::of("colours", colours()),
        Set::of("kinds and body sizes", kinds()),
        Set::of("cut lists", cut()),
        Set::of("lengths of bodies", lengths()),
        Set::of("long rows", long_rows()),
        maker.each("sequences of bytes", as_texts(sequences()), &[8]),
        maker.each("every scalar", as_texts(scalars(SCALARS)), &[4]),
        maker.each("short texts", as_texts(short(CLASSES, 5)), &[1, 2, 4]),
        maker.each("short lists", short_of(symbols(), 6), narrow),
        maker.each("short lists of writes", short_of(writes(), 7), &[4, 6]),
    ];
    sets.extend(maker.drawn());
    sets.extend([
        maker.random("random lists", 2 * RANDOM, |random, _| {
            let list = any_list(random);
            any_case(random, list)
        }),
        maker.random("altered lists", RANDOM, |random, _| {
            let list = any_list(random);
            let list = altered(random, list);
            any_case(random, list)
        }),
    ]);
    sets
}

#[derive(Clone, Copy)]
struct Maker {
    seed: u64,
}

impl Maker {
    fn random(
        self,
        name: &'static str,
        count: usize,
        make: impl Fn(&mut Random, usize) -> Case + Sync + 'static,
    ) -> Set<Case> {
        let case = move |number| make(&mut Random::of_case(self.seed, number), number);
        let case = Box::new(case);
        Set { name, count, case }
    }

    /// Every list in each of the widths, with sizes lent around the need.
    fn each(self, name: &'static str, lists: Lines, widths: &[usize]) -> Set<Case> {
        let widths = widths.to_vec();
        self.random(name, lists.count * widths.len(), move |random, number| {
            let list = (lists.line)(number / widths.len());
            around_need(random, list, widths[number % widths.len()])
        })
    }

    /// Lists that drawings leave, and the same altered.
    fn drawn(self) -> Vec<Set<Case>> {
        let every = |name, lines: Lines, call: AnyCall| {
            self.random(name, lines.count, move |random, number| {
                let line = (lines.line)(number);
                drawn_case(random, &line, call, false)
            })
        };
        let random = |name, call: AnyCall, altered| {
            self.random(name, RANDOM, move |random, number| {
                let line = lines::random(random, DRAWN, number);
                drawn_case(random, &line, call, altered)
            })
        };
        vec![
            every("windows of short lines", short(DRAWN, 4), calls::any_window),
            every("rows of short lines", short(DRAWN, 4), calls::any_row),
            every("shifted columns", short(SHIFTED, 5), calls::any_window),
            random("windows", calls::any_window, false),
            random("rows", calls::any_row, false),
            random("altered windows", calls::any_window, true),
            random("altered rows", calls::any_row, true),
        ]
    }
}

fn as_texts(lines: Lines) -> Lines {
    let line = move |number| text((lines.line)(number));
    Lines {
        count: lines.count,
        line: Box::new(line),
    }
}

/// Alone, behind a jamo that most classes tell themselves by, between letters.
const SCALARS: &[Context] = &[(b"", b""), (b"\xE1\x84\x80", b"\x08"), (b"a", b"b")];

fn symbols() -> Vec<Vec<u8>> {
    vec![
        text("a"),
        text("\u{6F22}"),
        text("\u{8}"),
        text("\u{1100}\u{1100}"),
        text(""),
        attributes(&[(0, 1), (8, 1), (9, 6)]),
        clear(5),
        cursor_right(),
    ]
}

/// Writes that cut wide clusters left, right and on both sides.
fn writes() -> Vec<Vec<u8>> {
    vec![
        text("a"),
        text("\u{6F22}"),
        text("\u{8}"),
        text("\u{1100}\u{1100}"),
        clear(5),
        cursor_right(),
    ]
}

/// Some lists that use everything.
fn few() -> Vec<Vec<u8>> {
    vec![
        Vec::new(),
        vec![0],
        symbols().concat(),
        [text("a\u{6F22}\u{8}\u{8}"), clear(3), text("e\u{301}")].concat(),
        [
            attributes(&[(3, 31), (16, 9)]),
            text("ab"),
            text("\u{8}"),
            cursor_right(),
            text(">"),
        ]
        .concat(),
        [text("\u{1100}".repeat(3)), clear(0), text("\u{8}b")].concat(),
    ]
}

/// Each limit of the width, with nothing lent, a cell, and much.
fn widths() -> Vec<Case> {
    let mut cases = Vec::new();
    let most = CELL * LARGEST_WIDTH;
    for list in few() {
        for width in WIDTHS {
            for size in [0, CELL, 4_000, most - 1, most, most + 400] {
                cases.push(Case::new(&list, width, size));
            }
        }
    }
    cases
}

/// Every size up to one more than is needed, and much more.
fn sizes() -> Vec<Case> {
    let lists = short_of(symbols(), 3);
    let mut cases = Vec::new();
    for list in (0..lists.count).map(lists.line) {
        for width in [1, 2, 4] {
            let need = Case::snug(&list, width, CELL * width).size;
            let sizes = (0..need + 2).chain([need + 20_000]);
            cases.extend(sizes.map(|size| Case::new(&list, width, size)));
        }
    }
    cases
}

/// Each byte of an attribute body with each value, the others at nothing and at much.
fn fields() -> Vec<Case> {
    let much = [
        2, 2, 2, 31, 2, 255, 255, 255, 2, 1, 2, 3, 2, 255, 0, 9, 1, 2, 3, 4, 5, 6, 7, 8, 2,
    ];
    let mut cases = Vec::new();
    for body in [[0; BODY], much] {
        for place in 0..BODY {
            for value in 0..=255 {
                let mut body = body;
                body[place] = value;
                let list = [change(2, &body), text("\u{6F22}"), clear(7)].concat();
                cases.push(Case::snug(&list, 3, 90));
            }
        }
    }
    cases
}

/// Each first byte of each colour with what may follow it.
fn colours() -> Vec<Case> {
    const TELLING: [u8; 3] = [0, 1, 255];
    let mut cases = Vec::new();
    for number in 0..256 * 27 {
        let telling = |digit: usize| TELLING[number / digit % 3];
        let colour = [(number / 27) as u8, telling(1), telling(3), telling(9)];
        for place in [4, 8, 12] {
            let mut body = [0; BODY];
            body[place..place + 4].copy_from_slice(&colour);
            cases.push(Case::snug(&[change(2, &body), text("a")].concat(), 2, 60));
        }
        cases.push(Case::snug(&[change(3, &colour), text("a")].concat(), 2, 60));
    }
    cases
}

/// Every kind without a body and with one of 4, 24 and 25 bytes, and kinds with bodies of
/// each size.
fn kinds() -> Vec<Case> {
    let mut cases = Vec::new();
    for kind in 0..=u16::MAX {
        for size in [0, 4, 24, BODY] {
            cases.push(Case::new(&change(kind, &vec![0; size]), 1, CELL));
        }
    }
    for kind in [0, 1, 2, 3, 4, 5, 6, 256, 257, 258, 259, 260] {
        for size in 0..60 {
            for byte in [0, 1, 2, b'a', 0xFF] {
                let list = [text("\u{8}"), change(kind, &vec![byte; size])].concat();
                cases.push(Case::snug(&list, 70, CELL * 70));
            }
        }
    }
    cases
}

/// Lists cut at every place, with and without something behind the cut.
fn cut() -> Vec<Case> {
    let mut cases = Vec::new();
    for list in few() {
        for end in 0..list.len() {
            for behind in [Vec::new(), text("a"), vec![0xFF; 3], vec![0; 6]] {
                let list = [&list[..end], &behind].concat();
                cases.extend([1, 4, 12].map(|width| Case::snug(&list, width, CELL * width)));
            }
        }
    }
    cases
}

/// Heads with any length before bodies of each size.
fn lengths() -> Vec<Case> {
    let telling = [
        0x100,
        0x101,
        0x1_0000,
        0x1_0001,
        1 << 24,
        1 << 31,
        u32::MAX - 6,
        u32::MAX,
    ];
    let mut cases = Vec::new();
    for kind in 0..6 {
        for size in 0..30 {
            for len in (0..40).chain(telling) {
                for byte in [0, b'a'] {
                    let list = with_length(len, kind, &vec![byte; size]);
                    let list = [text("a"), list].concat();
                    cases.push(Case::snug(&list, 40, CELL * 40));
                }
            }
        }
    }
    cases
}

/// Rows of thousands of columns: written from end to end, through, and once too often;
/// one cluster of all columns, and that broken; clears from everywhere.
fn long_rows() -> Vec<Case> {
    let mut cases = Vec::new();
    for width in [511, 512, 1_130, 4_095, 4_096, 4_097] {
        let letters = text("a".repeat(width));
        let back = |columns| text("\u{8}".repeat(columns));
        let jamo = text("\u{1100}".repeat(width / 2));
        let marks = text("e\u{301}".repeat(width));
        let long = text(format!("e{}", "\u{301}".repeat(3 * width)));
        let rights = cursor_right().repeat(width);
        let clears: Vec<u8> = (0..30)
            .flat_map(|n| [clear(n), text("ab"), cursor_right()].concat())
            .collect();
        let lists = [
            vec![letters.clone()],
            vec![letters.clone(), text("b")],
            vec![letters.clone(), back(width), letters.clone(), clear(4)],
            vec![letters.clone(), back(width / 2), clear(4), text("\u{6F22}")],
            vec![jamo.clone()],
            vec![jamo.clone(), back(1), text("b")],
            vec![jamo.clone(), back(width), text("b")],
            vec![jamo.clone(), back(width / 2), clear(9)],
            vec![jamo.clone(), back(width), jamo],
            vec![text("a"), text("\u{1100}".repeat(width / 2)), text("b")],
            vec![
                text("\u{6F22}".repeat(width / 2)),
                back(3),
                text("\u{6F22}"),
            ],
            vec![marks, long.clone()],
            vec![long, attributes(&[(3, 31)]), clears],
            vec![rights.clone(), text("b"), back(2), clear(1)],
            vec![rights, text("\u{6F22}")],
            vec![text("\u{1F1E6}".repeat(2 * width))],
        ];
        for list in lists {
            let case = Case::snug(&list.concat(), width, CELL * width);
            let short = Case::new(&case.list, width, case.size - 1);
            let ample = Case::new(&case.list, width, case.size + 1_000);
            cases.extend([case, short, ample]);
        }
    }
    cases
}
