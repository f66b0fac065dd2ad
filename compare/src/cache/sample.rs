//! The sample for crates/vectors: stated sequences and random ones, from none kept, on one
//! line, with enough lent for each call.

use super::model::{answers, HEADS};
use super::sequence::{list, Ask, Sequence};
use super::sets::Keys;
use super::stated;
use oracle::generate;
use oracle::random::Random;
use std::collections::HashSet;

const SEED: u64 = 1;

/// So many random sequences are recorded, of short lines.
const RANDOM: usize = 30;
const LONGEST_LINE: usize = 60;

/// What crates/vectors has room for.
const MOST_CALLS: usize = 21;
const MOST_ROWS: usize = 2_048;
const MOST_SPANS: usize = 1_024;

/// A sequence with its answers: number and count of each call, of `rows` the pairs too, and the
/// heads at the end; lists without the zeros behind them.
pub fn answered(sequence: &Sequence) -> String {
    let (answers, array) = answers(sequence);
    let mut text = format!("{} =", sequence.recorded());
    for (ask, answer) in sequence.calls().zip(&answers) {
        text += &format!(" {} {}", answer.number, answer.count);
        if ask.rows {
            text += &format!(" {}", trimmed(&answer.pairs));
        }
    }
    format!("{text} {}", trimmed(&array[..HEADS]))
}

fn trimmed(numbers: &[usize]) -> String {
    let end = numbers.iter().rposition(|&number| number != 0);
    list(numbers[..end.map_or(0, |last| last + 1)].iter().copied())
}

pub fn sequences() -> Vec<Sequence> {
    let mut sequences = stated::sequences();
    sequences.retain(is_recorded);
    sequences.extend((0..).map(random).filter(is_recorded).take(RANDOM));
    let mut seen = HashSet::new();
    sequences.retain(|sequence| seen.insert(sequence.recorded()));
    sequences
}

/// Whether all of it can be said in the text of a recorded sequence, and be answered.
fn is_recorded(sequence: &Sequence) -> bool {
    let just = sequence.calls().all(|ask| ask.lent == [0; 3]);
    let short = sequence.steps.len() <= MOST_CALLS;
    let (answers, _) = answers(sequence);
    let fit = |answer: &oracle::Answer| {
        answer.pairs.len() / 2 <= MOST_ROWS && answer.records.len() <= MOST_SPANS
    };
    sequence.is_of_calls() && just && short && answers.iter().all(fit)
}

fn random(number: usize) -> Sequence {
    let mut random = Random::of_case(SEED, number);
    let random = &mut random;
    let size = random.between(1, 12);
    let mut line = generate::line(random, size);
    line.truncate(LONGEST_LINE);
    let keys = Keys::any(random);
    let count = random.between(4, 16);
    let calls = (0..count).map(|_| Ask {
        lent: [0; 3],
        ..keys.ask(random)
    });
    Sequence::of_calls(&line, calls)
}
