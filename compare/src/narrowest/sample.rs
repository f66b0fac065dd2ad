//! The sample that crates/vectors answers: the stated cases and random ones.

use super::sets::any_case;
use super::{stated, Case};
use oracle::generate;
use oracle::random::Random;
use std::collections::HashSet;

const SEED: u64 = 1;
const RANDOM: usize = 30;
const LONGEST_LINE: usize = 60;

pub fn cases() -> Vec<Case> {
    let mut cases = stated::recorded();
    cases.extend((0..).map(random).filter(is_recorded).take(RANDOM));
    let mut seen = HashSet::new();
    cases.retain(|case| seen.insert(case.to_string()));
    cases
}

fn random(number: usize) -> Case {
    let mut random = Random::of_case(SEED, number);
    let size = random.between(1, 12);
    let mut line = generate::line(&mut random, size);
    line.truncate(LONGEST_LINE);
    any_case(&mut random, &line)
}

/// What crates/vectors has room for.
fn is_recorded(case: &Case) -> bool {
    let [conv, spans] = case.lent;
    conv <= 32_768 && spans <= 1_024
}
