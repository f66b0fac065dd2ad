//! The sets of sequences.

use super::forged;
use super::sequence::{Ask, Sequence, Step};
use super::{sample, stated};
use crate::alphabets::{PAGED, WORDS};
use crate::comparison::Set;
use crate::lines::{self, few};
use oracle::random::Random;

/// How many random sequences there are on one line.
const RANDOM: usize = 300_000;
/// How many with several lines, and how many with arrays of any contents.
const OTHER: usize = 100_000;
/// How many with wraps of about 1,024 rows.
const LONG: usize = 12_000;

pub fn sets(seed: u64) -> Vec<Set<Sequence>> {
    let random = |name, count, make: fn(&mut Random, usize) -> Sequence| {
        let case = move |number| make(&mut Random::of_case(seed, number), number);
        let case = Box::new(case);
        Set { name, count, case }
    };
    vec![
        Set::of("stated sequences", stated::sequences()),
        Set::of("the sample", sample::sequences()),
        Set::of("numbers at each limit", limits()),
        Set::of("sizes lent", sizes()),
        every_list(),
        forged::every_count_and_block(),
        Set::of("forged heads, telling numbers", forged::telling()),
        random("random calls on a line", RANDOM, |random, number| {
            let line = any_line(random, number);
            let keys = Keys::any(random);
            on_one_line(random, &line, &keys)
        }),
        random("wraps of about 1,024 rows", LONG, on_long_line),
        random("random calls on lines in turn", OTHER, on_lines),
        random("arrays of any contents", OTHER, forged::any),
        random(
            "arrays written between calls",
            OTHER,
            forged::written_between,
        ),
    ]
}

// ---- every one of some kinds

/// Widths and modes at and around each limit, and those that a narrower type would cut,
/// each asked for thrice.
fn limits() -> Vec<Sequence> {
    const WIDTHS: [usize; 12] = [
        0,
        1,
        2,
        255,
        256,
        65_534,
        65_535,
        65_536,
        1 << 32,
        (1 << 32) + 4,
        usize::MAX - 1,
        usize::MAX,
    ];
    const MODES: [usize; 9] = [0, 1, 2, 3, 4, 5, 256, (1 << 32) + 1, usize::MAX];
    let mut sequences = Vec::new();
    for line in (0..few().count).map(few().line) {
        for width in WIDTHS {
            for mode in MODES {
                for calls in [[true, true, false], [false, true, true]] {
                    let calls = calls.map(|rows| Ask {
                        lent: [0, 0, 4],
                        ..Ask::new(rows, width, mode)
                    });
                    sequences.push(Sequence::of_calls(&line, calls));
                }
            }
        }
    }
    sequences
}

/// A key that is kept and one that is not, lent nothing, one too few, just enough, one
/// more and much more, in every combination; then the kept one again.
fn sizes() -> Vec<Sequence> {
    const SIZES: [isize; 6] = [isize::MIN, -2, -1, 0, 1, 9_000];
    let mut sequences = Vec::new();
    for line in (0..few().count).map(few().line) {
        for mode in [0, 1, 2, 4] {
            for rows in [true, false] {
                let lent = SIZES
                    .iter()
                    .flat_map(|&conv| SIZES.map(|spans| (conv, spans)));
                for (conv, spans) in lent {
                    for numbers in SIZES {
                        let kept = Ask::new(rows, 1, mode);
                        let with = |ask: Ask| Ask {
                            lent: [conv, spans, numbers],
                            ..ask
                        };
                        let calls = [kept, with(kept), with(Ask::new(rows, 2, mode)), kept];
                        sequences.push(Sequence::of_calls(&line, calls));
                    }
                }
            }
        }
    }
    sequences
}

/// Every list of up to six calls out of nine: five keys, so that one gives way; kept ones
/// asked for again; Unwrapped ones; one that is refused.
fn every_list() -> Set<Sequence> {
    let calls = [
        Ask::new(true, 1, 1),
        Ask::new(true, 2, 1),
        Ask::new(false, 3, 2),
        Ask::new(true, 3, 1),
        Ask::new(false, 4, 1),
        Ask::new(false, 1, 1),
        Ask::new(true, 1, 0),
        Ask::new(false, 1, 0),
        Ask {
            lent: [0, 0, -1],
            ..Ask::new(true, 1, 1)
        },
    ];
    let count = (0..=6).map(|len| calls.len().pow(len)).sum();
    let case = move |mut number: usize| {
        let mut list = Vec::new();
        while number > 0 {
            number -= 1;
            list.push(calls[number % calls.len()]);
            number /= calls.len();
        }
        Sequence::of_calls(b"abc de", list)
    };
    Set {
        name: "every list of calls",
        count,
        case: Box::new(case),
    }
}

// ---- random ones

fn any_line(random: &mut Random, number: usize) -> Vec<u8> {
    let alphabet = if random.percent(50) { WORDS } else { PAGED };
    lines::random(random, alphabet, number)
}

/// A line, and a width at which it has from 1,020 to 1,030 rows.
fn long_line(random: &mut Random) -> (Vec<u8>, usize) {
    let rows = random.between(1_020, 1_030);
    match random.below(8) {
        0..=3 => (vec![b'a'; rows], 1),
        4 => (vec![b'a'; 2 * rows - random.below(2)], 2),
        5 => (vec![b'a'; 3 * rows - random.below(3)], 3),
        6 => ("\u{6F22}".repeat(rows).into_bytes(), 2),
        _ => (vec![b'-'; rows.div_ceil(2)], 0),
    }
}

/// That width in each mode, and others.
fn on_long_line(random: &mut Random, _: usize) -> Sequence {
    let (line, width) = long_line(random);
    let others = (0..random.between(1, 5)).map(|_| any_key(random));
    let keys = [1, 2, 3, 4].map(|mode| (width, mode)).into_iter();
    let keys = Keys::of(keys.chain(others.collect::<Vec<_>>()).collect());
    on_one_line(random, &line, &keys)
}

/// So many calls a sequence has.
pub const LONGEST: usize = 20;

fn on_one_line(random: &mut Random, line: &[u8], keys: &Keys) -> Sequence {
    let count = random.between(1, LONGEST);
    Sequence::of_calls(line, (0..count).map(|_| keys.ask(random)))
}

/// Up to four lines in turn.
fn on_lines(random: &mut Random, number: usize) -> Sequence {
    let lines: Vec<Vec<u8>> = (0..random.between(2, 4))
        .map(|part| match random.below(50) {
            0 => long_line(random).0,
            _ => any_line(random, number + part + 1),
        })
        .collect();
    let keys = Keys::any(random);
    let mut sequence = on_one_line(random, &lines[0], &keys);
    for place in (1..sequence.steps.len()).rev() {
        if random.percent(30) {
            let line = lines[random.below(lines.len())].clone();
            sequence.steps.insert(place, Step::Line(line));
        }
    }
    sequence
}

/// The widths and modes that are asked for: a few again and again, or any.
pub struct Keys(Vec<(usize, usize)>);

impl Keys {
    pub fn any(random: &mut Random) -> Keys {
        let count = match random.below(10) {
            0 | 1 => 0,
            _ => random.between(1, 8),
        };
        Keys((0..count).map(|_| any_key(random)).collect())
    }

    pub fn of(keys: Vec<(usize, usize)>) -> Keys {
        Keys(keys)
    }

    pub fn key(&self, random: &mut Random) -> (usize, usize) {
        if self.0.is_empty() || random.percent(6) {
            return any_key(random);
        }
        random.pick(&self.0)
    }

    pub fn ask(&self, random: &mut Random) -> Ask {
        let (width, mode) = self.key(random);
        let rows = random.percent(60);
        let lent = if random.percent(88) {
            [0, 0, random.pick(&[0, 0, 1, 2, 30])]
        } else {
            [0; 3].map(|_| around(random))
        };
        Ask {
            lent,
            ..Ask::new(rows, width, mode)
        }
    }
}

fn any_key(random: &mut Random) -> (usize, usize) {
    let width = match random.below(40) {
        0 => random.pick(&[80, 65_534, 65_535]),
        1 => random.pick(&[65_536, (1 << 32) + 4, usize::MAX]),
        _ => random.below(13),
    };
    let mode = match random.below(40) {
        0 => random.pick(&[5, (1 << 32) + 1, usize::MAX]),
        1..=5 => 0,
        _ => random.between(1, 4),
    };
    (width, mode)
}

/// How much is lent above the need, or below it.
fn around(random: &mut Random) -> isize {
    match random.below(12) {
        0 | 1 => -1,
        2 => -2,
        3 => isize::MIN,
        4..=8 => 0,
        9 | 10 => 1,
        _ => random.below(200) as isize,
    }
}
