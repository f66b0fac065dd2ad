//! Sequences on arrays that no call left so.

use super::model::{block_start, HEAD, HEADS, MOST_KEPT, MOST_ROWS, NUMBERS};
use super::sequence::{Ask, Sequence, Step};
use super::sets::{Keys, LONGEST};
use crate::alphabets::WORDS;
use crate::comparison::Set;
use crate::lines;
use oracle::random::Random;

const LINE: &[u8] = b"abcdef";

type Head = [usize; HEAD];
type Heads = [Head; MOST_KEPT];

fn write(heads: &Heads) -> Step {
    Step::Write(0, heads.concat())
}

/// Sound heads of four keys.
fn sound() -> Heads {
    [1, 2, 3, 4].map(|width| [0, width, 1, 2, width - 1])
}

// ---- every one of some kinds

/// Four heads with each of five counts and each of five blocks; then keys are asked for
/// that stand in the first and in the last of them, and in none.
pub fn every_count_and_block() -> Set<Sequence> {
    const COUNTS: [usize; 5] = [0, 1, 3, MOST_ROWS, MOST_ROWS + 1];
    const BLOCKS: usize = 5;
    let case = |mut number: usize| {
        let mut next = |below: usize| {
            let digit = number % below;
            number /= below;
            digit
        };
        let heads = sound().map(|[version, width, mode, ..]| {
            let (count, block) = (COUNTS[next(COUNTS.len())], next(BLOCKS));
            [version, width, mode, count, block]
        });
        let asks = [(true, 1), (false, 4), (true, 5), (true, 4)];
        let calls = asks.map(|(rows, width)| Step::Call(Ask::new(rows, width, 1)));
        let steps = [Step::Any(7), write(&heads)].into_iter().chain(calls);
        Sequence {
            line: LINE.to_vec(),
            steps: steps.collect(),
        }
    };
    Set {
        name: "forged heads, every count and block",
        count: (COUNTS.len() * BLOCKS).pow(MOST_KEPT as u32),
        case: Box::new(case),
    }
}

/// Numbers at each limit, and those that a narrower type would cut.
const TELLING: [usize; 20] = [
    0,
    1,
    2,
    3,
    4,
    5,
    255,
    256,
    1_023,
    1_024,
    1_025,
    65_535,
    65_536,
    70_000,
    1 << 32,
    (1 << 32) + 1,
    (1 << 32) + 4,
    1 << 63,
    usize::MAX - 1,
    usize::MAX,
];

/// Sound heads with telling numbers in each two places; then each key is asked for.
pub fn telling() -> Vec<Sequence> {
    let mut sequences = Vec::new();
    for first in 0..HEADS {
        for second in first..HEADS {
            for (number, other) in TELLING.iter().flat_map(|a| TELLING.map(|b| (*a, b))) {
                let mut numbers = sound().concat();
                (numbers[first], numbers[second]) = (number, other);
                let width = |place: usize| numbers[place / HEAD * HEAD + 1];
                let asks = [
                    (true, width(first), numbers[first / HEAD * HEAD + 2]),
                    (true, first / HEAD + 1, 1),
                    (false, second / HEAD + 1, 1),
                    (true, 5, 1),
                ];
                let calls = asks.map(|(rows, width, mode)| Ask::new(rows, width, mode));
                let steps = [Step::Any(8), Step::Write(0, numbers)].into_iter();
                sequences.push(Sequence {
                    line: LINE.to_vec(),
                    steps: steps.chain(calls.map(Step::Call)).collect(),
                });
            }
        }
    }
    sequences
}

// ---- random ones

/// Calls on an array that holds something, something false, or anything.
pub fn any(random: &mut Random, number: usize) -> Sequence {
    let line = lines::random(random, WORDS, number);
    let keys: Vec<(usize, usize)> = (0..random.between(1, 6))
        .map(|_| (random.below(8), random.below(5)))
        .collect();
    let keys = Keys::of(keys);
    let mut steps = vec![match random.below(6) {
        0 => Step::Fill(random.pick(&[1, 2, MOST_ROWS, usize::MAX])),
        _ => Step::Any(random.number()),
    }];
    if random.percent(94) {
        let mut heads = sound_heads(random, &keys);
        if random.percent(50) {
            spoil(random, &mut heads);
        }
        steps.push(write(&heads));
    }
    let count = random.between(1, LONGEST);
    steps.extend((0..count).map(|_| Step::Call(keys.ask(random))));
    Sequence { line, steps }
}

/// Up to four heads of some of the keys, a key twice now and then.
fn sound_heads(random: &mut Random, keys: &Keys) -> Heads {
    let count = random.between(1, MOST_KEPT);
    let mut blocks: Vec<usize> = (0..count).collect();
    let mut heads = [[0; HEAD]; MOST_KEPT];
    for head in heads.iter_mut().take(count) {
        let (width, mode) = keys.key(random);
        let rows = match random.below(10) {
            0 => MOST_ROWS - random.below(2),
            1 | 2 => random.between(1, MOST_ROWS),
            _ => random.between(1, 6),
        };
        let block = blocks.swap_remove(random.below(blocks.len()));
        *head = [0, width, mode, rows, block];
    }
    heads
}

/// Puts a number or two that do not belong there.
fn spoil(random: &mut Random, heads: &mut Heads) {
    for _ in 0..random.between(1, 2) {
        let head = &mut heads[random.below(MOST_KEPT)];
        let field = random.below(HEAD);
        head[field] = match field {
            4 => random.below(5),
            _ => random.pick(&TELLING),
        };
    }
}

/// Calls between which heads, rows or anything is written.
pub fn written_between(random: &mut Random, number: usize) -> Sequence {
    let line = lines::random(random, WORDS, number);
    let keys = Keys::any(random);
    let count = random.between(2, LONGEST);
    let mut steps = Vec::new();
    for _ in 0..count {
        steps.push(Step::Call(keys.ask(random)));
        if random.percent(25) {
            steps.push(any_write(random));
        }
    }
    Sequence { line, steps }
}

fn any_write(random: &mut Random) -> Step {
    let block = block_start(random.below(MOST_KEPT));
    let place = match random.below(20) {
        0 => return Step::Fill(random.pick(&[0, 1, usize::MAX])),
        1 => random.below(NUMBERS),
        2..=5 => random.below(HEADS),
        _ => block + random.below(8),
    };
    Step::Write(place, vec![random.pick(&TELLING)])
}
