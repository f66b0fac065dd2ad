//! The sample that crates/vectors answers: the stated cases, limits, and random ones.

use super::changes::{attributes, clear, cursor_right, text};
use super::lists::{altered, any_case, any_list, drawn_case, AnyCall};
use super::{stated, Case};
use crate::calls;
use oracle::generate;
use oracle::random::Random;
use oracle::{Call, NONE};
use std::collections::HashSet;

const SEED: u64 = 1;

/// Longer lists and rows are not recorded but for a few.
const LONGEST_LIST: usize = 250;
const LONGEST_ROW: usize = 500;

pub fn cases() -> Vec<Case> {
    let mut cases = stated::cases();
    cases.extend(limits());
    cases.extend(around_need());
    cases.push(screen());
    cases.extend(random(30, |random| drawn(random, calls::any_window, false)));
    cases.extend(random(25, |random| drawn(random, calls::any_row, false)));
    cases.extend(random(20, |random| drawn(random, calls::any_window, true)));
    cases.extend(random(15, |random| drawn(random, calls::any_row, true)));
    cases.extend(random(60, |random| {
        let list = any_list(random);
        any_case(random, list)
    }));
    cases.extend(random(25, |random| {
        let list = any_list(random);
        let list = altered(random, list);
        any_case(random, list)
    }));
    let mut seen = HashSet::new();
    cases.retain(|case| seen.insert(case.to_string()));
    cases
}

/// The largest width and its neighbours; too little is lent.
fn limits() -> Vec<Case> {
    let widths = [4_095, 4_096, 4_097, 65_536, 65_537, 1 << 32, (1 << 32) + 1];
    let list = text("a");
    widths.map(|width| Case::new(&list, width, 100)).to_vec()
}

/// Each size around what is needed, for a row with everything in it.
fn around_need() -> Vec<Case> {
    let list = [
        text("e\u{301}\u{6F22}\u{8}"),
        attributes(&[(0, 2), (4, 2), (7, 255), (20, 3)]),
        text("\u{1100}\u{1161}"),
        clear(200),
        text("\u{8}\u{8}"),
        cursor_right(),
        text("\u{1F1E6}"),
    ];
    let case = Case::snug(&list.concat(), 6, 0);
    let need = case.size;
    let sizes = [0, 1, need - 1, need, need + 1, need + 300];
    let lent = sizes.map(|size| Case::new(&case.list, case.width, size));
    lent.to_vec()
}

/// A window of 80 columns.
fn screen() -> Case {
    let line = "\u{1B}[32mok\u{1B}[0m set \u{1B}[1;38;5;208mtune\u{1B}[22;39m 9410, \u{53D7}\u{4FE1}\u{1B}[44m\u{1B}[K\n";
    let call = Call::DrawWindow {
        matches: Vec::new(),
        current: NONE,
        start: 0,
        end: 80,
    };
    let list = super::drawn::list(&call, line.as_bytes()).expect("a drawing");
    Case::snug(&list, 80, 0)
}

fn drawn(random: &mut Random, call: AnyCall, altered: bool) -> Case {
    let size = random.between(1, 16);
    let line = generate::line(random, size);
    drawn_case(random, &line, call, altered)
}

/// The first so many random cases with short lists and rows.
fn random(count: usize, make: impl Fn(&mut Random) -> Case) -> impl Iterator<Item = Case> {
    let cases = (0..).map(move |number| make(&mut Random::of_case(SEED, number)));
    let is_short = |case: &Case| {
        !case.list.is_empty() && case.list.len() <= LONGEST_LIST && case.size <= LONGEST_ROW
    };
    cases.filter(is_short).take(count)
}
