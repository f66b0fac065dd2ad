//! The sets of cases.

use super::Case;
use crate::alphabets::Alphabet;
use crate::comparison::Set;
use crate::lines::{self, short, Lines, LONGEST_ADMITTED};
use crate::units::{units, Unit};
use oracle::random::Random;
use oracle::Call;

/// So many random lines.
const RANDOM: usize = 300_000;

/// Every unit that is no tab, what is none, and what a word would be cut at.
#[rustfmt::skip]
const UNITS: Alphabet = &[
    b"a", b" ", b"-", b"\xE6\xBC\xA2", b"\xE1\x84\x80\xE1\x84\x80\xE1\x85\xA1", b"\xCC\x81", b"\xFF",
    b"\x1B", b"\x1B[1m", b"\r\n",
];

/// Clusters of 1, 2, 4 and 6 columns, marks and Unprintable spans.
#[rustfmt::skip]
const WIDE: Alphabet = &[
    b"a", b"\xE6\xBC\xA2", b"\xE1\x84\x80\xE1\x84\x80", b"\xE1\x84\x80\xE1\x84\x80\xE1\x84\x80", b"\xFF",
    b"\xCC\x81",
];

/// Widths of short lines.
const WIDTHS: usize = 26;

/// Longer random lines are cut: the minimum is found from each unit back.
const LONGEST: usize = 1_000;

pub fn sets(seed: u64) -> Vec<Set<Case>> {
    let maker = Maker { seed };
    vec![
        each("short lines", short(UNITS, 4)),
        each("short wide lines", short(WIDE, 6)),
        maker.random("random lines", UNITS),
        maker.random("random wide lines", WIDE),
    ]
}

/// Every line at each width.
fn each(name: &'static str, lines: Lines) -> Set<Case> {
    let case = move |number: usize| Case {
        line: (lines.line)(number / WIDTHS),
        width: number % WIDTHS,
    };
    Set {
        name,
        count: lines.count * WIDTHS,
        case: Box::new(case),
    }
}

struct Maker {
    seed: u64,
}

impl Maker {
    /// Random lines at a width from the widest unit up, some of them narrower.
    fn random(&self, name: &'static str, alphabet: Alphabet) -> Set<Case> {
        let seed = self.seed;
        let case = move |number| {
            let mut random = Random::of_case(seed, number);
            let mut line = lines::random(&mut random, alphabet, number);
            if line.len() <= LONGEST_ADMITTED {
                line.truncate(LONGEST);
            }
            let width = any_width(&mut random, &line);
            Case { line, width }
        };
        Set {
            name,
            count: RANDOM,
            case: Box::new(case),
        }
    }
}

fn any_width(random: &mut Random, line: &[u8]) -> usize {
    let matches = Vec::new();
    let units = units(&Call::Read { matches }.ample_answer(line));
    let columns = units.iter().map(|unit| match unit {
        Unit::Columns(columns) => *columns,
        Unit::Tab => 0,
    });
    let widest = columns.max().unwrap_or(0);
    match random.below(20) {
        0 => random.below(widest + 1),
        1..=5 => widest,
        6..=12 => widest + random.below(8),
        13..=15 => random.between(widest, widest + 40),
        16 | 17 => widest.max(80),
        18 => widest + random.below(line.len() + 1),
        _ => 65_535.max(widest),
    }
}
