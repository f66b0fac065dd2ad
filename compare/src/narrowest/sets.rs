//! The sets of cases.

use super::case::need;
use super::{sample, stated, Case};
use crate::alphabets::{Alphabet, WIDTHS_OF_SPANS, WORDS};
use crate::comparison::Set;
use crate::lending::around;
use crate::lines::{self, few, longest, short, Lines, LONGEST_ADMITTED};
use oracle::random::Random;

/// So many random lines, and so many calls on each.
const RANDOM: usize = 200_000;
const CALLS: usize = 8;

/// Longer random lines are cut: a model of the line is made from each of its widths.
const LONGEST: usize = 300;

const MODES: [usize; 2] = [1, 2];

/// Wanted row counts and greatest widths for short lines: beyond the rows that they have at
/// width 1, and beyond their last column.
const MOST_WANTED: usize = 12;
const GREATEST: usize = 34;

/// Numbers at and around each limit, and those that a narrower type would cut.
const LIMITS: [usize; 11] = [
    0,
    1,
    2,
    3,
    65_534,
    65_535,
    65_536,
    65_537,
    1 << 32,
    (1 << 32) + 1,
    usize::MAX,
];
const MODE_LIMITS: [usize; 9] = [0, 1, 2, 3, 4, 5, 257, (1 << 32) + 1, usize::MAX];

pub fn sets(seed: u64) -> Vec<Set<Case>> {
    let maker = Maker { seed };
    vec![
        Set::of("stated cases", stated::cases()),
        Set::of("the recorded sample", sample::cases()),
        Set::of("numbers at each limit", limits()),
        Set::of("sizes lent", sizes()),
        maker.each("short words", short(WORDS, 4)),
        maker.each("short spans", short(WIDTHS_OF_SPANS, 3)),
        maker.any("longer words", short(WORDS, 6), 4),
        maker.any("longer spans", short(WIDTHS_OF_SPANS, 5), 4),
        maker.any("longest lines", longest(WORDS), 10),
        maker.random("random lines", WORDS),
        maker.random("random spans", WIDTHS_OF_SPANS),
    ]
}

#[derive(Clone, Copy)]
struct Maker {
    seed: u64,
}

impl Maker {
    /// Every line in each mode with every wanted row count and greatest width.
    fn each(self, name: &'static str, lines: Lines) -> Set<Case> {
        let per_line = MODES.len() * MOST_WANTED * GREATEST;
        let case = move |number: usize| {
            let line = (lines.line)(number / per_line);
            let number = number % per_line;
            let mode = MODES[number / (MOST_WANTED * GREATEST)];
            let wanted = 1 + number / GREATEST % MOST_WANTED;
            Case::snug(&line, mode, wanted, 1 + number % GREATEST)
        };
        Set {
            name,
            count: lines.count * per_line,
            case: Box::new(case),
        }
    }

    /// Every line with so many calls.
    fn any(self, name: &'static str, lines: Lines, calls: usize) -> Set<Case> {
        self.made(name, lines.count, calls, move |_, number| {
            (lines.line)(number)
        })
    }

    fn random(self, name: &'static str, alphabet: Alphabet) -> Set<Case> {
        self.made(name, RANDOM, CALLS, move |random, number| {
            let mut line = lines::random(random, alphabet, number);
            if line.len() <= LONGEST_ADMITTED {
                line.truncate(LONGEST);
            }
            line
        })
    }

    fn made(
        self,
        name: &'static str,
        count: usize,
        calls: usize,
        line: impl Fn(&mut Random, usize) -> Vec<u8> + Sync + 'static,
    ) -> Set<Case> {
        let case = move |number| {
            let line_number = number / calls;
            let line = line(&mut Random::of_case(self.seed, line_number), line_number);
            any_case(&mut Random::of_case(self.seed ^ 1, number), &line)
        };
        Set {
            name,
            count: count * calls,
            case: Box::new(case),
        }
    }
}

/// Any call on a line, lent around the need.
pub fn any_case(random: &mut Random, line: &[u8]) -> Case {
    let long = line.len().max(4);
    let number = |random: &mut Random| match random.below(40) {
        0 => random.pick(&LIMITS),
        1..=19 => random.between(1, 6),
        20..=24 => random.between(1, long),
        25..=29 => random.between(1, 3 * long),
        30 | 31 => random.between(1, 8 * long),
        _ => 65_535,
    };
    let mode = match random.below(50) {
        0 => random.pick(&MODE_LIMITS),
        _ => random.pick(&MODES),
    };
    let (wanted, greatest) = (number(random), number(random));
    Case {
        line: line.to_vec(),
        mode,
        wanted,
        greatest,
        lent: need(line).map(|need| around(random, need)),
    }
}

/// Each number at each limit.
fn limits() -> Vec<Case> {
    let lines = few();
    let mut cases = Vec::new();
    for line in (0..lines.count).map(lines.line) {
        for mode in MODE_LIMITS {
            for wanted in LIMITS {
                cases.extend(LIMITS.map(|greatest| Case::snug(&line, mode, wanted, greatest)));
            }
        }
    }
    cases
}

/// Each buffer lent nothing, one item too few, just enough, one more and much more, in
/// every combination.
fn sizes() -> Vec<Case> {
    let around = |need: usize| [0, need.saturating_sub(1), need, need + 1, need + 20_000];
    let lines = short(WORDS, 2);
    let mut cases = Vec::new();
    for line in (0..lines.count).map(lines.line) {
        for [mode, wanted, greatest] in [[1, 1, 80], [2, 2, 3], [3, 1, 80], [1, 0, 1]] {
            let case = Case::snug(&line, mode, wanted, greatest);
            let [conv, spans] = case.lent.map(around);
            for lent in conv.into_iter().flat_map(|a| spans.map(|b| [a, b])) {
                cases.push(Case {
                    lent,
                    ..case.clone()
                });
            }
        }
    }
    cases
}
