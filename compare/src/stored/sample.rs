//! The sample that crates/vectors answers: the stated cases, sizes around the need, drawn
//! lists and random ones.

use super::lists::{altered_case, any, any_case, resized, shortened};
use super::{stated, Case, RESTORE};
use crate::screen::changes::{change, clear, cursor_right, text};
use crate::screen::drawn;
use oracle::random::Random;
use oracle::{Call, NONE};
use std::collections::HashSet;

const SEED: u64 = 1;

/// Longer lists and results are not recorded.
const LONGEST: usize = 250;

pub fn cases(call: &str) -> Vec<Case> {
    let back = call == RESTORE;
    let mut cases = stated::recorded(call);
    cases.extend(around_need(back));
    cases.push(window(back));
    cases.extend(random(14, |random| {
        let list = any(random);
        any_case(random, &list, back)
    }));
    cases.extend(random(10, |random| {
        let list = any(random);
        altered_case(random, list, back)
    }));
    let mut seen = HashSet::new();
    cases.retain(|case| seen.insert(case.to_string()));
    cases
}

/// Each size around what is needed, for a list with everything in it.
fn around_need(back: bool) -> Vec<Case> {
    let body = [
        2, 1, 2, 31, 2, 1, 2, 3, 1, 9, 0, 0, 0, 0, 0, 0, 1, 2, 3, 4, 5, 6, 7, 8, 1,
    ];
    let list = [
        text("e\u{301}\u{6F22}\u{8}"),
        change(2, &body),
        clear(200),
        cursor_right(),
        text("\u{1F1E6}"),
    ];
    let case = snug(back, &list.concat());
    let need = case.size;
    let sizes = [0, 1, need - 1, need, need + 1, need + 300];
    sizes.map(|size| case.clone().lent(size)).to_vec()
}

fn snug(back: bool, list: &[u8]) -> Case {
    let case = match back {
        true => Case::restore(&shortened(list).expect("a whole list"), 0),
        false => Case::store(list, 0),
    };
    case.snug()
}

/// What a drawing of 24 columns leaves, with alignments.
fn window(back: bool) -> Case {
    let line = "\u{1B}[32mok\u{1B}[0m \u{53D7}\u{4FE1} \u{1B}[1mtune\u{1B}[44m\u{1B}[K\n";
    let call = Call::DrawWindow {
        matches: Vec::new(),
        current: NONE,
        start: 0,
        end: 24,
    };
    let list = drawn::list(&call, line.as_bytes()).expect("a drawing");
    snug(back, &resized(&mut Random::new(SEED), &list))
}

/// The first so many random cases with short lists and results.
fn random(count: usize, make: impl Fn(&mut Random) -> Case) -> impl Iterator<Item = Case> {
    let cases = (0..).map(move |number| make(&mut Random::of_case(SEED, number)));
    let is_short =
        |case: &Case| !case.list.is_empty() && case.list.len() <= LONGEST && case.size <= LONGEST;
    cases.filter(is_short).take(count)
}
