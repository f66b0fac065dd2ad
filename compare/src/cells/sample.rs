//! The sample that crates/vectors answers: the stated cases, sizes around the need, and
//! random ones.

use super::sets::any_cells;
use super::{stated, Case};
use oracle::random::Random;
use std::collections::HashSet;

const SEED: u64 = 1;
const RANDOM: usize = 20;

pub fn cases() -> Vec<Case> {
    let mut cases = stated::recorded();
    let whole = Case::snug(
        b"n\x01a\x01m\x01e\x01 \0f\x02i\x02l\x02e\x02 \0~\x03|\x03.\0",
        0,
    );
    let need = whole.size;
    let sizes = [0, 1, need - 1, need, need + 1, need + 300];
    cases.extend(sizes.map(|size| Case::new(&whole.cells, size)));
    cases.extend((0..RANDOM).map(|number| {
        let mut random = Random::of_case(SEED, number);
        let count = random.between(3, 20);
        Case::snug(&any_cells(&mut random, count), 0)
    }));
    let mut seen = HashSet::new();
    cases.retain(|case| seen.insert(case.to_string()));
    cases
}
