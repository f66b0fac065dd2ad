//! The sample that crates/vectors answers: drawings that name their reader.

use super::sets::{random_pair, READERS};
use super::view::View;
use crate::calls;
use console_lines::raw::{BENCH, CREW};
use oracle::random::Random;
use oracle::{Call, Case, NONE};

const SEED: u64 = 1;
/// Longer lines are not recorded.
const LONGEST: usize = 60;
/// How many random cases are recorded.
const RANDOM: usize = 40;

/// Prints the sample, as lines for crates/vectors.
pub fn print_sample() {
    for view in stated().chain(random()) {
        println!("{}", view.answered());
    }
}

/// A link that causes a change of its own, one in a match, one left open behind a style; each
/// reader, and a line that is too long.
fn stated() -> impl Iterator<Item = View> {
    let lines: [&[u8]; 3] = [
        b"a\x1B]8;;u\x07b",
        b"\x1B]8;i;http\x1B\\a\x1B[1;74mb",
        b"\xFF\x1B]8;;u\x07\xCC\x81c\x1B]8;;\x07d",
    ];
    let mut views = Vec::new();
    for line in lines {
        for (matches, reader) in [(vec![], BENCH), (vec![], CREW), (vec![0, 1], CREW)] {
            let call = Call::DrawWindow {
                matches,
                current: 0,
                start: 0,
                end: 9,
            };
            views.push(snug(line, call, reader));
        }
        let row = calls::few("draw_row").remove(0);
        views.extend(READERS.map(|reader| snug(line, row.clone(), reader)));
    }
    let window = Call::DrawWindow {
        matches: Vec::new(),
        current: NONE,
        start: 0,
        end: 9,
    };
    let long = vec![b'a'; 4_097];
    let refused = [CREW, 2].map(|reader| View {
        case: Case::new(&long, window.clone(), [9, 1, 0, 9]),
        reader,
    });
    views.into_iter().chain(refused)
}

/// Just enough lent.
fn snug(line: &[u8], call: Call, reader: usize) -> View {
    let need = crate::lending::need(&call, line);
    let case = Case::new(line, call, need);
    View { case, reader }
}

/// Of lines with hyperlinks.
fn random() -> impl Iterator<Item = View> {
    let cases = (0..).map(|number| random_pair(&mut Random::of_case(SEED, number)).first);
    let short = cases.filter(|case| case.line.len() <= LONGEST);
    short.take(RANDOM).map(|case| View { case, reader: CREW })
}
