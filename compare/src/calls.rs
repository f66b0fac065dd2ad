//! The calls that lines are tried with.

use oracle::generate;
use oracle::random::Random;
use oracle::{Call, NONE};

pub const WIDTHS: [usize; 11] = [0, 1, 2, 3, 4, 7, 8, 9, 80, 65_535, 65_536];
pub const MODES: [usize; 5] = [0, 1, 2, 3, 4];

/// Numbers at and around each limit, and those that a narrower type would cut.
const LIMITS: [usize; 13] = [
    0,
    1,
    2,
    65_534,
    65_535,
    65_536,
    1_048_575,
    1_048_576,
    1_048_577,
    1 << 32,
    (1 << 32) + 4,
    usize::MAX - 1,
    usize::MAX,
];
const MODE_LIMITS: [usize; 8] = [0, 1, 2, 3, 4, 5, (1 << 32) + 1, usize::MAX];

/// Every choice of one item of each list.
fn pairs<A: Copy, B: Copy>(first: &[A], second: &[B]) -> Vec<(A, B)> {
    let with = |&a: &A| second.iter().map(move |&b| (a, b));
    first.iter().flat_map(with).collect()
}

// ---- reading

pub fn reading(matches: Vec<usize>) -> Call {
    Call::Read { matches }
}

/// The `count` digits of a number, as matches.
fn digits(mut number: usize, base: usize, count: u32) -> Vec<usize> {
    let mut digits = Vec::new();
    for _ in 0..count {
        digits.push(number % base);
        number /= base;
    }
    digits
}

/// Every list of so many numbers below `base`, as matches.
pub fn each_matches(base: usize, count: u32) -> Vec<Vec<usize>> {
    (0..base.pow(count))
        .map(|number| digits(number, base, count))
        .collect()
}

/// Matches, valid or not.
pub fn any_matches(random: &mut Random, line: &[u8]) -> Vec<usize> {
    match random.below(20) {
        0 => digits(random.below(10_000), 10, 4),
        1 => digits(random.below(1_000), 10, 3),
        _ => generate::matches(random, line),
    }
}

/// Matches or none.
fn some_matches(random: &mut Random, line: &[u8]) -> Vec<usize> {
    if random.percent(50) {
        any_matches(random, line)
    } else {
        Vec::new()
    }
}

// ---- rows and height

pub fn wrapping(call: &str, width: usize, mode: usize) -> Call {
    match call {
        "rows" => Call::Rows { width, mode },
        _ => Call::Height { width, mode },
    }
}

pub fn each_wrapping(call: &str, widths: &[usize], modes: &[usize]) -> Vec<Call> {
    let each = pairs(widths, modes).into_iter();
    each.map(|(width, mode)| wrapping(call, width, mode))
        .collect()
}

pub fn any_rows(random: &mut Random, _: &[u8]) -> Call {
    wrapping("rows", any_width(random), any_mode(random))
}

pub fn any_height(random: &mut Random, _: &[u8]) -> Call {
    wrapping("height", any_width(random), any_mode(random))
}

fn any_width(random: &mut Random) -> usize {
    if random.percent(50) {
        random.pick(&WIDTHS)
    } else {
        generate::width(random)
    }
}

/// The source's modes, and in a third of the cases those that count the columns drawn.
fn any_mode(random: &mut Random) -> usize {
    if random.percent(33) {
        random.pick(&[3, 4])
    } else {
        generate::mode(random)
    }
}

// ---- drawings

fn window((start, end): (usize, usize)) -> Call {
    Call::DrawWindow {
        matches: Vec::new(),
        current: NONE,
        start,
        end,
    }
}

fn row(first: usize, count: usize, width: usize, mode: usize) -> Call {
    Call::DrawRow {
        matches: Vec::new(),
        current: NONE,
        first,
        count,
        width,
        mode,
    }
}

/// The same drawing of the line with matches.
fn with_matches(call: &Call, new_matches: &[usize], new_current: usize) -> Call {
    let mut call = call.clone();
    if let Call::DrawWindow {
        matches, current, ..
    }
    | Call::DrawRow {
        matches, current, ..
    } = &mut call
    {
        (*matches, *current) = (new_matches.to_vec(), new_current);
    }
    call
}

pub fn without_matches(call: &Call) -> Call {
    with_matches(call, &[], NONE)
}

/// Each window up to a column, and some beyond it or turned round.
pub fn each_window(last: usize) -> Vec<Call> {
    let columns: Vec<usize> = (0..=last).collect();
    let mut windows = pairs(&columns, &columns);
    windows.retain(|(start, end)| start <= end);
    windows.extend([(0, 80), (3, 80), (79, 80), (80, 81), (80, 1_000)]);
    windows.extend([(1, 0), (2, 1), (9, 3), (last, last - 1)]);
    windows.into_iter().map(window).collect()
}

/// Each choice of first row and count, beyond the rows too, at each width and mode.
pub fn each_row(rows: &[(usize, usize)], widths: &[usize], modes: &[usize]) -> Vec<Call> {
    let each = pairs(rows, &pairs(widths, modes)).into_iter();
    each.map(|((first, count), (width, mode))| row(first, count, width, mode))
        .collect()
}

/// Each of the drawings with each list of matches, valid or not, and as the current
/// match one of them, one that is none, or none.
pub fn each_search(drawings: &[Call], matches: &[Vec<usize>]) -> Vec<Call> {
    let mut calls = Vec::new();
    for drawing in drawings {
        for matches in matches {
            let currents = [0, 1, 2, NONE - 1, NONE];
            calls.extend(currents.map(|current| with_matches(drawing, matches, current)));
        }
    }
    calls
}

pub fn any_window(random: &mut Random, line: &[u8]) -> Call {
    let matches = some_matches(random, line);
    let current = generate::current(random);
    let (start, end) = generate::window(random, line);
    Call::DrawWindow {
        matches,
        current,
        start,
        end,
    }
}

pub fn any_row(random: &mut Random, line: &[u8]) -> Call {
    Call::DrawRow {
        matches: some_matches(random, line),
        current: generate::current(random),
        first: generate::row_number(random),
        count: generate::row_number(random).saturating_add(usize::from(random.percent(90))),
        width: any_width(random),
        mode: any_mode(random),
    }
}

// ---- any call

/// A few of the calls of a name; drawings of much and of little of a short line.
pub fn few(call: &str) -> Vec<Call> {
    match call {
        "convert" => vec![Call::Convert],
        "read" => vec![reading(Vec::new()), reading(vec![0, 1])],
        "draw_window" => [(0, 80), (1, 3), (2, 9)].map(window).to_vec(),
        "draw_row" => vec![
            row(0, 2, 80, 1),
            row(0, 1, 3, 1),
            row(1, 2, 3, 2),
            row(1, 1, 8, 3),
        ],
        _ => each_wrapping(call, &[3, 80], &MODES),
    }
}

/// The call with each of its numbers at each limit.
pub fn at_limits(call: &str) -> Vec<Call> {
    match call {
        "convert" => vec![Call::Convert],
        "read" => {
            let matches = pairs(&LIMITS, &LIMITS).into_iter();
            matches.map(|(a, b)| reading(vec![a, b])).collect()
        }
        "draw_window" => pairs(&LIMITS, &LIMITS).into_iter().map(window).collect(),
        "draw_row" => each_row(&pairs(&LIMITS, &LIMITS), &LIMITS, &MODE_LIMITS),
        _ => each_wrapping(call, &LIMITS, &MODE_LIMITS),
    }
}
