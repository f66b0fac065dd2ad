//! Random calls, with lent sizes around what is needed.

use super::line::any_line;
use crate::answer::NONE;
use crate::call::{Call, Case};
use crate::drawn;
use crate::random::Random;

/// A size around what is needed, mostly enough.
pub fn size(random: &mut Random, need: usize) -> usize {
    match random.below(20) {
        0 => need.saturating_sub(1),
        1 => need / 2,
        2 => 0,
        3..=8 => need,
        9..=12 => need + 1,
        _ => need + random.below(50),
    }
}

/// A size that is mostly just enough.
fn enough(random: &mut Random, need: usize) -> usize {
    if random.percent(6) {
        size(random, need)
    } else {
        need + random.pick(&[0, 0, 1, 7])
    }
}

fn conv_size(random: &mut Random, line: &[u8]) -> usize {
    enough(random, 8 * line.len())
}

pub fn width(random: &mut Random) -> usize {
    match random.below(30) {
        0 => 65_535,
        1 => 65_536,
        2 => random.pick(&[usize::MAX, (1 << 32) + 4]),
        3..=6 => 80,
        7 => random.between(13, 79),
        _ => random.below(13),
    }
}

pub fn mode(random: &mut Random) -> usize {
    match random.below(40) {
        0 => random.pick(&[3, 4, usize::MAX, 1 << 32]),
        1..=7 => 0,
        8..=22 => 1,
        _ => 2,
    }
}

/// A window, mostly at or beside the edges of what is drawn.
pub fn window(random: &mut Random, line: &[u8]) -> (usize, usize) {
    let largest = 1_048_576;
    match random.below(30) {
        0 => (0, random.pick(&[largest, largest + 1, usize::MAX])),
        1 => (largest, random.pick(&[largest, largest + 1])),
        2 => (
            random.pick(&[largest - 1, largest + 1, usize::MAX]),
            largest,
        ),
        3..=7 => inside_wide(random, line).unwrap_or((0, 1)),
        8..=14 => (0, near_edge(random, line)),
        15..=19 => (near_edge(random, line), near_edge(random, line)),
        _ => {
            let start = near_edge(random, line);
            (start, start + random.pick(&[0, 1, 1, 2, 2, 3, 5, 80]))
        }
    }
}

/// A window between the edges of a wide cluster.
fn inside_wide(random: &mut Random, line: &[u8]) -> Option<(usize, usize)> {
    let mut wide = drawn::clusters(line);
    wide.retain(|(begin, end)| end - begin > 1);
    let (begin, end) = *wide.get(random.below(wide.len().max(1)))?;
    let start = random.between(begin, end - 2);
    Some((start, random.between(start + 1, end - 1)))
}

fn near_edge(random: &mut Random, line: &[u8]) -> usize {
    let clusters = drawn::clusters(line);
    let edge = match clusters.get(random.below(clusters.len() + 1)) {
        Some(cluster) => cluster.0,
        None => clusters.last().map_or(0, |cluster| cluster.1),
    };
    (edge + random.pick(&[0, 0, 1, 2])).saturating_sub(random.pick(&[0, 0, 1, 2]))
}

/// Ranges inside the text searched, or, now and then, not.
pub fn matches(random: &mut Random, line: &[u8]) -> Vec<usize> {
    let len = crate::text_searched_len(line);
    let count = random.between(1, 4);
    let mut points: Vec<usize> = (0..2 * count).map(|_| random.below(len + 1)).collect();
    points.sort_unstable();
    if random.percent(12) {
        match random.below(4) {
            0 => points.push(len),
            1 => points.reverse(),
            2 => points.extend([len, len + 1]),
            _ => points.push(usize::MAX),
        }
    }
    points
}

fn some_matches(random: &mut Random, line: &[u8], with_matches: bool) -> Vec<usize> {
    if with_matches && random.percent(60) {
        matches(random, line)
    } else {
        Vec::new()
    }
}

/// Any of the six calls on a line.
pub fn case_on(random: &mut Random, line: &[u8], with_matches: bool) -> Case {
    let conv = conv_size(random, line);
    match random.below(17) {
        0 => Case::new(line, Call::Convert, [conv, 0, 0, 0]),
        1..=3 => reading(random, line, conv, with_matches),
        4..=6 => rows(random, line, conv),
        7 | 8 => height(random, line, conv),
        9..=12 => draw_window(random, line, conv, with_matches),
        _ => draw_row(random, line, conv, with_matches),
    }
}

/// How many spans an ample reading finds; 0 where it is refused.
fn spans_needed(line: &[u8], matches: &[usize]) -> usize {
    crate::read(line, matches, 8 * line.len(), usize::MAX).count
}

pub fn reading(random: &mut Random, line: &[u8], conv: usize, with_matches: bool) -> Case {
    let matches = some_matches(random, line, with_matches);
    let need = spans_needed(line, &matches);
    let spans = size(random, need);
    Case::new(line, Call::Read { matches }, [conv, spans, 0, 0])
}

fn rows(random: &mut Random, line: &[u8], conv: usize) -> Case {
    let (width, mode) = (width(random), mode(random));
    let need = spans_needed(line, &[]);
    let spans = enough(random, need);
    let need = Call::Height { width, mode }.ample_answer(line).count;
    let rows = size(random, 2 * need);
    Case::new(line, Call::Rows { width, mode }, [conv, spans, rows, 0])
}

fn height(random: &mut Random, line: &[u8], conv: usize) -> Case {
    let need = spans_needed(line, &[]);
    let (width, mode) = (width(random), mode(random));
    let spans = enough(random, need);
    Case::new(line, Call::Height { width, mode }, [conv, spans, 0, 0])
}

pub fn current(random: &mut Random) -> usize {
    random.pick(&[NONE, NONE, 0, 0, 1, 2, 7])
}

fn draw_window(random: &mut Random, line: &[u8], conv: usize, with_matches: bool) -> Case {
    let matches = some_matches(random, line, with_matches);
    let need = spans_needed(line, &matches);
    let spans = enough(random, need);
    let (start, end) = window(random, line);
    let call = Call::DrawWindow {
        matches,
        current: current(random),
        start,
        end,
    };
    drawing(random, line, call, conv, spans)
}

fn draw_row(random: &mut Random, line: &[u8], conv: usize, with_matches: bool) -> Case {
    let matches = some_matches(random, line, with_matches);
    let need = spans_needed(line, &matches);
    let spans = enough(random, need);
    let call = Call::DrawRow {
        matches,
        current: current(random),
        first: row_number(random),
        count: row_number(random) + random.pick(&[0, 1, 1, 1, 1, 1, 1, 1, 1, 1]),
        width: width(random),
        mode: mode(random),
    };
    drawing(random, line, call, conv, spans)
}

fn drawing(random: &mut Random, line: &[u8], call: Call, conv: usize, spans: usize) -> Case {
    let need = call.ample_answer(line).count;
    Case::new(line, call, [conv, spans, 0, size(random, need)])
}

pub fn row_number(random: &mut Random) -> usize {
    match random.below(40) {
        0 => random.pick(&[65_534, 65_535, 65_536]),
        1 => random.pick(&[usize::MAX - 1, 1 << 32]),
        2..=18 => 0,
        19..=22 => 9,
        _ => random.below(6),
    }
}

/// A random case.
pub fn case(random: &mut Random, with_matches: bool) -> Case {
    let line = any_line(random);
    case_on(random, &line, with_matches)
}
