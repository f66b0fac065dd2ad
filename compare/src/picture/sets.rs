//! The sets of cases.

use super::case::Case;
use crate::alphabets::{
    Alphabet, ATTRIBUTES, CLASSES, DRAWN, LINKS, PAGED, SHIFTED, STRUCK, WIDTHS_OF_SPANS, WORDS,
};
use crate::comparison::Set;
use crate::lines::{self, line_drawn, longest, scalars, short, Context, Lines};
use crate::orders::orders;
use oracle::random::Random;

/// How many random lines a set has.
const RANDOM: usize = 1_000_000;

const WIDTHS: &[usize] = &[0, 1, 2, 3, 4, 5, 6, 7, 8, 9, 10, 11, 12, 80, 65_535];
const MODES: [usize; 4] = [1, 2, 3, 4];

/// First of the line, between words, and line-drawn behind a mark.
const SCALARS: &[Context] = &[(b"", b"a -b"), (b"a ", b"-b"), (b"\xCC\x81\x1B(0", b"\tq")];

/// A set of cases, so many for each line.
pub struct Pictures {
    pub set: Set<Case>,
    per_line: usize,
}

impl Pictures {
    pub fn of(set: Set<Case>, per_line: usize) -> Pictures {
        Pictures { set, per_line }
    }

    /// How many lines there are where one case of so many is taken.
    pub fn lines(&self, step: usize) -> usize {
        self.set.count.div_ceil(step.max(self.per_line))
    }
}

pub fn sets(seed: u64) -> Vec<Pictures> {
    let maker = Maker { seed };
    vec![
        maker.each("short words", short(WORDS, 5), WIDTHS),
        maker.each("short spans", short(WIDTHS_OF_SPANS, 4), WIDTHS),
        maker.each("shifted columns", short(SHIFTED, 4), WIDTHS),
        maker.each("short lines", short(PAGED, 4), WIDTHS),
        maker.each("short drawn lines", short(DRAWN, 4), WIDTHS),
        maker.each("short lines of attributes", short(ATTRIBUTES, 3), WIDTHS),
        maker.each("short lines of classes", short(CLASSES, 4), WIDTHS),
        maker.each("line drawing of each byte", line_drawn(), WIDTHS),
        maker.each("longest lines", longest(PAGED), &[0, 8, 80]),
        maker.any("longer words", short(WORDS, 7)),
        maker.any("longer spans", short(WIDTHS_OF_SPANS, 6)),
        maker.any("longer shifted columns", short(SHIFTED, 6)),
        maker.any("longer lines", short(PAGED, 5)),
        maker.any("longer drawn lines", short(DRAWN, 5)),
        maker.any("longer lines of attributes", short(ATTRIBUTES, 5)),
        maker.any("longer lines of classes", short(CLASSES, 5)),
        maker.any("overstruck lines", short(STRUCK, 6)),
        maker.any("hyperlinks", short(LINKS, 5)),
        maker.any("sequences at ESC", orders()),
        maker.any("every scalar", scalars(SCALARS)),
        maker.random("random lines", PAGED),
        maker.random("random drawn lines", DRAWN),
    ]
}

#[derive(Clone, Copy)]
struct Maker {
    seed: u64,
}

impl Maker {
    /// Every line at each of the widths in each mode.
    fn each(self, name: &'static str, lines: Lines, widths: &'static [usize]) -> Pictures {
        let per_line = widths.len() * MODES.len();
        let case = move |number| Case {
            line: (lines.line)(number / per_line),
            width: widths[number % widths.len()],
            mode: MODES[number / widths.len() % MODES.len()],
        };
        let set = Set {
            name,
            count: lines.count * per_line,
            case: Box::new(case),
        };
        Pictures::of(set, per_line)
    }

    /// Every line at any width in any mode.
    fn any(self, name: &'static str, lines: Lines) -> Pictures {
        self.made(name, lines.count, move |_, number| (lines.line)(number))
    }

    fn random(self, name: &'static str, alphabet: Alphabet) -> Pictures {
        self.made(name, RANDOM, move |random, number| {
            lines::random(random, alphabet, number)
        })
    }

    fn made(
        self,
        name: &'static str,
        count: usize,
        line: impl Fn(&mut Random, usize) -> Vec<u8> + Sync + 'static,
    ) -> Pictures {
        let case = move |number| {
            let mut random = Random::of_case(self.seed, number);
            let line = line(&mut random, number);
            let width = any_width(&mut random, line.len());
            let mode = random.pick(&MODES);
            Case { line, width, mode }
        };
        let case = Box::new(case);
        Pictures::of(Set { name, count, case }, 1)
    }
}

/// Lines up to so many bytes are wrapped at any width. Most longer ones have few rows,
/// as each of them takes a drawing of the line.
const SHORT: usize = 200;

fn any_width(random: &mut Random, len: usize) -> usize {
    if len > SHORT && !random.percent(5) {
        return random.between(len / 16, len);
    }
    match random.below(20) {
        0 => 65_535,
        1 | 2 => 80,
        3 | 4 => random.between(13, 79),
        _ => random.below(13),
    }
}
