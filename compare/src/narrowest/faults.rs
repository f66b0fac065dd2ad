//! Faults planted in what the call returns and leaves, to see that they are found.

use super::model::Expected;
use super::{plain, sample, stated, Case, Fitter, NAME};
use crate::comparison::Comparison;
use crate::faults::{faults, Fault};
use console_lines::raw::WidthAnswer;
use oracle::{Answer, Call};

/// Plants each fault; whether all were found.
pub fn try_faults() -> bool {
    try_marks() & try_twists()
}

/// Plants each fault of an answer and of memory in each case of the sample, and another
/// number tried.
fn try_marks() -> bool {
    let mut fitter = Fitter::new();
    let (mut planted, mut found) = (0, 0);
    for case in sample::cases() {
        let tried = [Mark::Tried];
        for mark in faults().into_iter().map(Mark::Answer).chain(tried) {
            let (was_planted, was_found) = try_mark(&mut fitter, &case, mark);
            planted += usize::from(was_planted);
            found += usize::from(was_planted && was_found);
            if was_planted && !was_found {
                println!("{case}: a planted fault is not found");
            }
        }
    }
    println!("{NAME}: {found} of {planted} planted faults found");
    found == planted
}

#[derive(Clone, Copy)]
enum Mark {
    Answer(Fault),
    Tried,
}

/// Whether there is such a place, and whether the mark is found there.
fn try_mark(fitter: &mut Fitter, case: &Case, mark: Mark) -> (bool, bool) {
    let mut answer = fitter.call(case);
    let planted = match mark {
        Mark::Answer(fault) => {
            let mut changed = plain(answer);
            let planted = fitter.library.plant(fault, &mut changed);
            (answer.number, answer.count) = (changed.number, changed.count);
            planted
        }
        Mark::Tried => {
            answer.tried += 1;
            true
        }
    };
    let expected = fitter.model.answer(case);
    let found = fitter.difference(case, &expected, answer).is_some();
    (planted, found)
}

/// A call as it would be wrong: from the right answer, and that of the height at the
/// greatest width, lent enough.
struct Twist {
    name: &'static str,
    change: fn(&Case, &mut Expected),
}

/// The rows that the line takes at a width, lent enough.
fn rows(case: &Case, width: usize) -> usize {
    let mode = case.mode;
    Call::Height { width, mode }.ample_answer(&case.line).count
}

fn is_none(expected: &Expected) -> bool {
    expected.answer.number == 0 && expected.answer.count == 0
}

fn is_found(expected: &Expected) -> bool {
    expected.answer.count > 0
}

fn refuse(expected: &mut Expected, number: usize) {
    expected.tried = 0;
    expected.answer = Answer {
        number,
        ..Answer::default()
    };
}

const TWISTS: [Twist; 12] = [
    Twist {
        name: "none is a refusal",
        change: |_, expected| {
            if is_none(expected) {
                refuse(expected, 5);
            }
        },
    },
    Twist {
        name: "none reports 0 tried",
        change: |_, expected| {
            if is_none(expected) {
                expected.tried = 0;
            }
        },
    },
    Twist {
        name: "none has the greatest width as its count",
        change: |case, expected| {
            if is_none(expected) {
                expected.answer.count = case.greatest;
            }
        },
    },
    Twist {
        name: "none leaves no line and no spans",
        change: |_, expected| {
            if is_none(expected) {
                expected.answer = Answer::default();
            }
        },
    },
    Twist {
        name: "the greatest width is not tried",
        change: |case, expected| {
            if expected.answer.count == case.greatest {
                (expected.answer.count, expected.tried) = (0, case.greatest);
            }
        },
    },
    Twist {
        name: "fewer rows than wanted are looked for",
        change: |case, expected| {
            let count = expected.answer.count;
            if is_found(expected) && rows(case, count) == case.wanted {
                expected.answer.count = count + 1;
                expected.tried = count + 1;
            }
        },
    },
    Twist {
        name: "as many rows as wanted are looked for",
        change: |case, expected| {
            let count = expected.answer.count;
            if is_found(expected) && rows(case, count) < case.wanted {
                (expected.answer.count, expected.tried) = (0, case.greatest);
            }
        },
    },
    Twist {
        name: "width 0 is tried",
        change: |case, expected| {
            if is_found(expected) && rows(case, 0) <= case.wanted {
                (expected.answer.count, expected.tried) = (0, 0);
            }
        },
    },
    Twist {
        name: "the last column is found",
        change: |case, expected| {
            if is_found(expected) && case.wanted == 1 {
                let most = crate::units::last_column(&crate::units::units(&expected.answer)).max(1);
                (expected.answer.count, expected.tried) = (most, most);
            }
        },
    },
    Twist {
        name: "the found width is tried by halves",
        change: |_, expected| {
            if is_found(expected) {
                expected.tried = expected.answer.count.ilog2() as usize + 1;
            }
        },
    },
    Twist {
        name: "mode 3 is admitted",
        change: |case, expected| {
            if case.mode == 3 && expected.answer.number == 5 && case.wanted > 0 && case.greatest > 0
            {
                expected.answer = Call::Read { matches: vec![] }.ample_answer(&case.line);
                (expected.answer.count, expected.tried) = (1, 1);
            }
        },
    },
    Twist {
        name: "5 is asked before 2 and 4",
        change: |case, expected| {
            if matches!(expected.answer.number, 2 | 4) && case.wanted == 0 {
                refuse(expected, 5);
            }
        },
    },
];

/// Leaves each wrong answer in the stead of the library's; whether each is found in one of
/// the stated cases at least.
fn try_twists() -> bool {
    let mut fitter = Fitter::new();
    let mut cases = stated::cases();
    cases.retain(|case| case.line.len() < 1_000);
    let mut found = 0;
    for twist in &TWISTS {
        let mut cases = cases.iter();
        if cases.any(|case| is_seen(&mut fitter, case, twist)) {
            found += 1;
        } else {
            println!("{NAME}: not found where {}", twist.name);
        }
    }
    println!("{NAME}: {found} of {} wrong calls found", TWISTS.len());
    found == TWISTS.len()
}

fn is_seen(fitter: &mut Fitter, case: &Case, twist: &Twist) -> bool {
    let expected = fitter.model.answer(case);
    let mut wrong = expected.clone();
    (twist.change)(case, &mut wrong);
    fitter.call(case);
    fitter.library.leave(&wrong.answer);
    let answer = WidthAnswer {
        number: wrong.answer.number,
        count: wrong.answer.count,
        tried: wrong.tried,
    };
    fitter.difference(case, &expected, answer).is_some()
}
