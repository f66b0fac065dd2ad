//! Faults planted in the rows, to see that they are found.

use super::check::check;
use super::Case;
use crate::comparison::Comparison;
use crate::library::Library;
use oracle::noise::Program;
use oracle::{Answer, Case as Asked};

/// Rows as they would be wrong: from the library's, and from those at another width.
struct Fault {
    name: &'static str,
    change: fn(&mut Answer, &mut dyn FnMut(usize) -> Answer, usize),
}

fn replace(answer: &mut Answer, pairs: Vec<usize>) {
    answer.count = pairs.len() / 2;
    answer.pairs = pairs;
}

/// The pairs that are rows, without the zeros behind them.
fn pairs(answer: &Answer) -> Vec<usize> {
    answer.pairs[..2 * answer.count].to_vec()
}

const FAULTS: [Fault; 9] = [
    Fault {
        name: "an empty row stands behind the last",
        change: |answer, _, _| {
            let mut rows = pairs(answer);
            let last = rows[rows.len() - 1];
            rows.extend([last, last]);
            replace(answer, rows);
        },
    },
    Fault {
        name: "an empty row stands before the first",
        change: |answer, _, _| {
            let rows = [vec![0, 0], pairs(answer)].concat();
            replace(answer, rows);
        },
    },
    Fault {
        name: "rows are a column narrower",
        change: |answer, at, width| {
            let other = at(width - 1);
            let other = pairs(&other);
            replace(answer, other);
        },
    },
    Fault {
        name: "rows are a column wider",
        change: |answer, at, width| {
            let other = at(width + 1);
            let other = pairs(&other);
            replace(answer, other);
        },
    },
    Fault {
        name: "the last row is lost",
        change: |answer, _, _| {
            let mut rows = pairs(answer);
            rows.truncate(rows.len() - 2);
            replace(answer, rows);
        },
    },
    Fault {
        name: "the first row is lost",
        change: |answer, _, _| {
            let rows = pairs(answer)[2..].to_vec();
            replace(answer, rows);
        },
    },
    Fault {
        name: "an edge stands inside a unit",
        change: |answer, _, _| {
            let mut rows = pairs(answer);
            if rows.len() > 2 {
                rows[1] -= 1;
                rows[2] -= 1;
            }
            replace(answer, rows);
        },
    },
    Fault {
        name: "a line is refused",
        change: |answer, _, _| {
            *answer = Answer {
                number: 6,
                ..Answer::default()
            }
        },
    },
    Fault {
        name: "all rows are one",
        change: |answer, _, _| {
            let rows = pairs(answer);
            replace(answer, vec![0, rows[rows.len() - 1]]);
        },
    },
];

/// Lines of several rows: letters, wide clusters, marks.
fn cases() -> Vec<Case> {
    let lines: [&[u8]; 4] = [
        b"abcdefgh",
        b"\xE6\xBC\xA2\xE6\xBC\xA2\xE6\xBC\xA2\xE6\xBC\xA2",
        b"a\xFFbc\xFF\xE6\xBC\xA2de",
        b"\xFF\xFF\xFF\xFF",
    ];
    let with = |line: &&[u8]| {
        [4, 5, 6, 7].map(|width| Case {
            line: line.to_vec(),
            width,
        })
    };
    lines.iter().flat_map(with).collect()
}

/// Whether each fault is found in one of the cases at least, and none where there is none.
pub fn try_faults() -> bool {
    let mut library = Library::new();
    let mut found = 0;
    for fault in &FAULTS {
        let mut cases = cases().into_iter();
        let seen = cases.any(|case| {
            let sound = library.hold(|program| check(&case, program)).is_ok();
            assert!(sound, "{case}: broken without a fault");
            let said = library
                .hold(|program| check(&case, &mut |asked| faulty(program, asked, &case, fault)));
            said.is_err()
        });
        if seen {
            found += 1;
        } else {
            println!("fewest rows: not found where {}", fault.name);
        }
    }
    println!(
        "fewest rows: {found} of {} planted faults found",
        FAULTS.len()
    );
    found == FAULTS.len()
}

fn faulty(program: &mut Program, asked: &Asked, case: &Case, fault: &Fault) -> Answer {
    let mut answer = program(asked);
    let mut at = |width| {
        let line = case.line.clone();
        program(&Case { line, width }.rows())
    };
    (fault.change)(&mut answer, &mut at, case.width);
    answer
}
