//! The sets of cases.

use super::lists::{
    altered_case, any, any_case, around_need, resized, shortened, stored_change, with_length,
};
use super::{sample, stated, Case, RESTORE};
use crate::alphabets::DRAWN;
use crate::calls;
use crate::comparison::Set;
use crate::lines::{self, scalars, sequences, short_of, Context, Lines};
use crate::screen::changes::{self, change, clear, cursor_right, text};
use crate::screen::lists::{drawn_list, AnyCall};
use oracle::random::Random;

/// How many random cases a set has.
const RANDOM: usize = 500_000;

pub fn sets(call: &'static str, seed: u64) -> Vec<Set<Case>> {
    let maker = Maker {
        back: call == RESTORE,
        seed,
    };
    let mut sets = vec![
        Set::of("stated cases", stated::cases(call)),
        Set::of("the recorded sample", sample::cases(call)),
        Set::of("sizes lent", maker.sizes()),
        Set::of("fields of attributes", maker.fields()),
        Set::of("colours", maker.colours()),
        Set::of("kinds and body sizes", maker.kinds()),
        Set::of("cut lists", maker.cut()),
        Set::of("lengths of bodies", maker.lengths()),
        Set::of("long texts", maker.long_texts()),
        maker.texts("sequences of bytes", sequences()),
        maker.texts("every scalar", scalars(SCALARS)),
        maker.lists("short lists", short_of(symbols(), 6)),
    ];
    sets.extend(maker.drawn());
    sets.extend([
        maker.random("random lists", 2 * RANDOM, |random, _| any(random)),
        maker.altered("altered lists", 2 * RANDOM, |random, _| any(random)),
    ]);
    sets
}

const SCALARS: &[Context] = &[(b"", b""), (b"a", b"\xCC\x81")];

/// Attributes of so many bytes.
fn attributes(len: usize, byte: u8) -> Vec<u8> {
    let mut body = vec![0; len];
    (body[0], body[len - 1]) = (1, byte);
    change(2, &body)
}

/// Each kind, both sizes of attributes, and one of them that is malformed.
fn symbols() -> Vec<Vec<u8>> {
    vec![
        text("a"),
        text("\u{6F22}\u{301}"),
        text(""),
        attributes(24, 255),
        attributes(25, 2),
        attributes(25, 3),
        clear(5),
        cursor_right(),
    ]
}

/// Some lists that use everything.
fn few() -> Vec<Vec<u8>> {
    let mut sound = symbols();
    sound.remove(5);
    vec![
        Vec::new(),
        sound.concat(),
        [attributes(25, 1), text("ab"), attributes(24, 0), clear(0)].concat(),
        [text("e\u{301}".repeat(100)), cursor_right(), clear(3)].concat(),
    ]
}

/// Makes lists of one form, that of the call.
#[derive(Clone, Copy)]
struct Maker {
    back: bool,
    seed: u64,
}

impl Maker {
    /// The call on a list in the form that it reads, lent so much.
    fn case(self, list: &[u8], size: usize) -> Case {
        match self.back {
            true => Case::restore(list, size),
            false => Case::store(list, size),
        }
    }

    /// The call on a change list or its stored form, lent just enough.
    fn snug(self, list: &[u8]) -> Case {
        let list = self.formed(list);
        let size = list.len();
        self.case(&list, size).snug()
    }

    fn formed(self, list: &[u8]) -> Vec<u8> {
        match self.back {
            true => shortened(list).expect("a whole number of changes"),
            false => list.to_vec(),
        }
    }

    /// A change in the form that the call reads.
    fn change(self, kind: u16, body: &[u8]) -> Vec<u8> {
        match self.back {
            true => stored_change(kind, body),
            false => change(kind, body),
        }
    }

    fn set(
        self,
        name: &'static str,
        count: usize,
        make: impl Fn(&mut Random, usize) -> Case + Sync + 'static,
    ) -> Set<Case> {
        let case = move |number| make(&mut Random::of_case(self.seed, number), number);
        let case = Box::new(case);
        Set { name, count, case }
    }

    fn random(
        self,
        name: &'static str,
        count: usize,
        list: impl Fn(&mut Random, usize) -> Vec<u8> + Sync + 'static,
    ) -> Set<Case> {
        self.set(name, count, move |random, number| {
            let list = list(random, number);
            any_case(random, &list, self.back)
        })
    }

    fn altered(
        self,
        name: &'static str,
        count: usize,
        list: impl Fn(&mut Random, usize) -> Vec<u8> + Sync + 'static,
    ) -> Set<Case> {
        self.set(name, count, move |random, number| {
            let list = list(random, number);
            altered_case(random, list, self.back)
        })
    }

    fn lists(self, name: &'static str, lists: Lines) -> Set<Case> {
        self.random(name, lists.count, move |_, number| (lists.line)(number))
    }

    /// Each line as a text of its own.
    fn texts(self, name: &'static str, lines: Lines) -> Set<Case> {
        self.set(name, lines.count, move |random, number| {
            let list = self.change(1, &(lines.line)(number));
            around_need(random, self.case(&list, 0))
        })
    }

    /// Lists that drawings leave, with alignments or without, and the same altered.
    fn drawn(self) -> Vec<Set<Case>> {
        let drawn = |call: AnyCall| {
            move |random: &mut Random, number: usize| {
                let line = lines::random(random, DRAWN, number);
                let list = drawn_list(random, &line, call).unwrap_or_default().0;
                resized(random, &list)
            }
        };
        vec![
            self.random("drawn windows", RANDOM, drawn(calls::any_window)),
            self.random("drawn rows", RANDOM, drawn(calls::any_row)),
            self.altered("altered windows", RANDOM / 2, drawn(calls::any_window)),
            self.altered("altered rows", RANDOM / 2, drawn(calls::any_row)),
        ]
    }

    /// Every size up to one more than is needed, and much more.
    fn sizes(self) -> Vec<Case> {
        let lists = short_of(symbols(), 3);
        let mut cases = Vec::new();
        for list in (0..lists.count).map(lists.line) {
            let case = self.snug(&list);
            let sizes = (0..case.size + 2).chain([case.size + 20_000]);
            cases.extend(sizes.map(|size| case.clone().lent(size)));
        }
        cases
    }

    /// Each byte of attributes of each size with each value, the others at nothing and at
    /// much.
    fn fields(self) -> Vec<Case> {
        let much = [
            2, 2, 2, 31, 2, 255, 255, 255, 2, 1, 2, 3, 2, 255, 0, 9, 1, 2, 3, 4, 5, 6, 7, 8, 2,
        ];
        let mut cases = Vec::new();
        for whole in [[0; 25], much] {
            for len in [24, 25] {
                for (place, value) in (0..len).flat_map(|place| (0..=255).map(move |v| (place, v)))
                {
                    let mut body = whole[..len].to_vec();
                    body[place] = value;
                    cases.push(self.snug(&[text("a"), change(2, &body), clear(7)].concat()));
                }
            }
        }
        cases
    }

    /// Each colour of a clear and of attributes with telling bytes.
    fn colours(self) -> Vec<Case> {
        let bytes = [0, 1, 2, 3, 255];
        let mut cases = Vec::new();
        for number in 0..5_usize.pow(4) {
            let colour = [125, 25, 5, 1].map(|power| bytes[number / power % 5]);
            cases.push(self.snug(&[change(3, &colour), text("a")].concat()));
            for (len, at) in [(24, 4), (25, 4), (25, 8), (25, 12)] {
                let mut body = vec![0; len];
                body[at..at + 4].copy_from_slice(&colour);
                cases.push(self.snug(&change(2, &body)));
            }
        }
        cases
    }

    /// Every kind with a few bodies, and kinds with bodies of each size.
    fn kinds(self) -> Vec<Case> {
        let mut cases = Vec::new();
        for kind in 0..=u16::MAX {
            for size in [0, 4, 24, 25] {
                cases.push(self.snug(&change(kind, &vec![0; size])));
            }
        }
        for kind in [0, 1, 2, 3, 4, 5, 6, 256, 257, 258, 259, 260] {
            for size in 0..60 {
                for byte in [0, 1, 2, b'a', 0xFF] {
                    let list = [text("\u{8}"), change(kind, &vec![byte; size])].concat();
                    cases.push(self.snug(&list));
                }
            }
        }
        cases
    }

    /// Lists cut at every place, with and without something behind the cut.
    fn cut(self) -> Vec<Case> {
        let mut cases = Vec::new();
        for list in few() {
            let list = self.formed(&list);
            for end in 0..=list.len() {
                for behind in [Vec::new(), self.change(1, b"a"), vec![0xFF; 3], vec![0; 6]] {
                    let list = [&list[..end], &behind].concat();
                    cases.push(self.case(&list, 2 * list.len()).snug());
                }
            }
        }
        cases
    }

    /// Heads with any length before bodies of each size.
    fn lengths(self) -> Vec<Case> {
        let telling = [
            0xFF,
            0x100,
            0x101,
            0xFFFF,
            0x1_0000,
            0x1_0001,
            1 << 24,
            u32::MAX,
        ];
        let mut cases = Vec::new();
        for kind in 0..6 {
            for size in 0..30 {
                for len in (0..40).chain(telling) {
                    for byte in [0, b'a'] {
                        let body = vec![byte; size];
                        let head = match self.back {
                            true => with_length(len as u16, kind, &body),
                            false => changes::with_length(len, kind, &body),
                        };
                        let list = [self.change(1, b"a"), head].concat();
                        cases.push(self.case(&list, 100).snug());
                    }
                }
            }
        }
        cases
    }

    /// Texts of about 65,535 bytes, alone and with something before or behind, lent just
    /// enough, a byte less or more, or nothing.
    fn long_texts(self) -> Vec<Case> {
        let behind = [
            Vec::new(),
            text("b"),
            attributes(24, 0),
            attributes(25, 3),
            vec![0],
        ];
        let before = [Vec::new(), attributes(24, 9), attributes(25, 1)];
        let mut cases = Vec::new();
        for len in [
            65_533, 65_534, 65_535, 65_536, 65_537, 65_560, 131_071, 131_072, 200_000,
        ] {
            for letter in ["a", "\u{E9}", "\u{6F22}", "\u{1F1E6}"] {
                let long = letter.repeat(len / letter.len());
                let padded = format!("{long}{}", "b".repeat(len - long.len()));
                for (before, behind) in before
                    .iter()
                    .flat_map(|a| behind.iter().map(move |b| (a, b)))
                {
                    let long = match self.back {
                        true => stored_change(1, padded.as_bytes()),
                        false => text(&padded),
                    };
                    let around = |list: &Vec<u8>| match self.back {
                        true => shortened(list).unwrap_or_else(|| list.clone()),
                        false => list.clone(),
                    };
                    let list = [around(before), long, around(behind)].concat();
                    let case = self.case(&list, list.len()).snug();
                    let need = case.size;
                    let sizes = [need, need - 1, need + 1, 0];
                    cases.extend(sizes.map(|size| case.clone().lent(size)));
                }
            }
        }
        cases.extend(self.long_damaged());
        cases
    }

    /// Long bodies of other kinds, and long texts that are not UTF-8 in one place.
    fn long_damaged(self) -> Vec<Case> {
        let mut cases = Vec::new();
        for len in [65_535, 65_536, 65_540, 65_560, 65_561] {
            for kind in 2..5 {
                cases.push(self.case(&self.change(kind, &vec![0; len]), len).snug());
            }
            for place in [0, 1, len / 2, 65_534, len - 1] {
                for byte in [0xFF, 0xC3, 0xE6] {
                    let mut body = vec![b'a'; len];
                    body[place] = byte;
                    cases.push(self.case(&self.change(1, &body), len).snug());
                }
            }
        }
        cases
    }
}
