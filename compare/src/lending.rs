//! Sizes lent, at and around what a call needs.

use oracle::random::Random;
use oracle::{Answer, Call, Case, Sizes};

/// The call with sizes lent around its need; any of them may be too small.
pub fn around_need(random: &mut Random, call: Call, line: &[u8]) -> Case {
    let (just, _) = just(call, line);
    around_just(random, &just)
}

/// The call with sizes lent around what another one has, which is just enough.
pub fn around_just(random: &mut Random, just: &Case) -> Case {
    just.lent(just.sizes().map(|need| around(random, need)))
}

/// The call lent just enough, and its answer.
pub fn just(call: Call, line: &[u8]) -> (Case, Answer) {
    let answer = call.ample_answer(line);
    let spans = match answer.number {
        0 => answer.records.len(),
        _ => {
            let matches = call.matches().to_vec();
            Call::Read { matches }.ample_answer(line).count
        }
    };
    let sizes = [8 * line.len(), spans, answer.pairs.len(), answer.list.len()];
    (Case::new(line, call, sizes), answer)
}

/// What the call needs; where it is refused whatever is lent, what reading needs.
pub fn need(call: &Call, line: &[u8]) -> Sizes {
    let (just, _) = just(call.clone(), line);
    just.sizes()
}

/// As much as is needed, a little less or more, or much more.
pub fn around(random: &mut Random, need: usize) -> usize {
    match random.below(80) {
        0 | 1 => need.saturating_sub(1),
        2 | 3 => need.saturating_sub(2),
        4 | 5 => random.below(need + 1),
        6..=49 => need,
        50..=64 => need + 1,
        65..=78 => need + random.below(40),
        _ => need + random.between(40, 5_000),
    }
}

/// Much more than a short line needs.
const MUCH: usize = 20_000;

/// Each buffer lent nothing, one item too few, just enough, one more and much more,
/// in every combination.
pub fn each_choice(call: &Call, line: &[u8]) -> Vec<Sizes> {
    let mut choices = vec![need(call, line)];
    for index in (0..4).filter(|&index| call.is_lent()[index]) {
        choices = choices
            .into_iter()
            .flat_map(|sizes| around_one(sizes, index))
            .collect();
    }
    choices
}

fn around_one(sizes: Sizes, index: usize) -> [Sizes; 5] {
    let need = sizes[index];
    [0, need.saturating_sub(1), need, need + 1, need + MUCH].map(|size| {
        let mut sizes = sizes;
        sizes[index] = size;
        sizes
    })
}

/// Change lists of every size up to one more than is needed.
pub fn each_list(call: &Call, line: &[u8]) -> Vec<Sizes> {
    let [conv, spans, rows, list] = need(call, line);
    let sizes = (0..=list + 1).map(|list| [conv, spans, rows, list]);
    sizes.collect()
}
