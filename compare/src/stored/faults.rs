//! Faults planted in what the calls leave, to see that they are found.

use super::lists::shortened;
use super::model::restore;
use super::round_trip::{round_trip, Calls};
use super::{sample, stated, Case, RESTORE, STORE};
use crate::writing::{try_marks, try_twists, Answer, Twist, Writing};
use oracle::changes::places;
use unicode_segmentation::UnicodeSegmentation;
use unicode_width::UnicodeWidthStr;

/// Plants each fault; whether all were found.
pub fn try_faults(call: &str) -> bool {
    let twists = match call {
        STORE => STORING.as_slice(),
        _ => &RESTORING,
    };
    let marks = try_marks(call, &sample::cases(call));
    let twists = try_twists(call, twists, &stated::cases(call));
    marks & twists & (call != RESTORE || try_round_trips())
}

// ---- wrong calls

type Body<'l> = (u16, &'l [u8]);

/// Kind and body of each change, if the list is a whole number of them.
fn bodies(list: &[u8]) -> Vec<Body<'_>> {
    let changes = places(list).unwrap_or_default().into_iter();
    changes.map(|(kind, body)| (kind, &list[body])).collect()
}

fn any(case: &Case, is: fn(&Body) -> bool) -> bool {
    bodies(&case.list).iter().any(is)
}

/// The list with its bodies as they are, if the call is not refused by another number.
fn accepted(case: &Case) -> Answer {
    let stored = shortened(&case.list).filter(|stored| stored.len() <= case.size);
    Answer::of(stored.ok_or(9))
}

/// Another answer where the call is refused by a number and something holds.
fn instead(case: &Case, number: usize, holds: bool, answer: Answer) -> Answer {
    let right = case.answer();
    if right.number == number && holds {
        answer
    } else {
        right
    }
}

fn refused(number: usize) -> Answer {
    Answer::of(Err(number))
}

fn is_old((kind, body): &Body) -> bool {
    *kind == 2 && body.len() == 24
}

fn is_misaligned((kind, body): &Body) -> bool {
    *kind == 2 && body.len() == 25 && body[24] > 2
}

fn is_long((_, body): &Body) -> bool {
    body.len() > 65_535
}

fn is_damaged((kind, body): &Body) -> bool {
    *kind == 1 && std::str::from_utf8(body).is_err()
}

fn has_no_width((kind, body): &Body) -> bool {
    let text = std::str::from_utf8(body).unwrap_or_default();
    *kind == 1 && text.graphemes(true).any(|cluster| cluster.width() == 0)
}

const STORING: [Twist<Case>; 13] = [
    Twist {
        name: "12 is asked before 10",
        answer: |case| instead(case, 10, any(case, is_long), refused(12)),
    },
    Twist {
        name: "9 is asked before 12",
        answer: |case| instead(case, 12, case.size < 65_000, refused(9)),
    },
    Twist {
        name: "9 is asked before 10",
        answer: |case| instead(case, 10, case.size < case.list.len() / 2, refused(9)),
    },
    Twist {
        name: "12 is not asked",
        answer: |case| instead(case, 12, true, accepted(case)),
    },
    Twist {
        name: "12 is asked of 65,535 bytes",
        answer: |case| {
            instead(
                case,
                0,
                any(case, |(_, body)| body.len() == 65_535),
                refused(12),
            )
        },
    },
    Twist {
        name: "a body of 24 bytes stays",
        answer: |case| instead(case, 0, any(case, is_old), accepted(case)),
    },
    Twist {
        name: "a body of 24 bytes is refused",
        answer: |case| instead(case, 0, any(case, is_old), refused(10)),
    },
    Twist {
        name: "bodies of both sizes are refused",
        answer: |case| {
            let new = |(kind, body): &Body| *kind == 2 && body.len() == 25;
            instead(case, 0, any(case, is_old) && any(case, new), refused(10))
        },
    },
    Twist {
        name: "a raised alignment is added",
        answer: |case| {
            let mut answer = case.answer();
            if answer.number == 0 && bodies(&case.list).last().is_some_and(is_old) {
                *answer.out.last_mut().expect("an alignment") = 1;
            }
            answer
        },
    },
    Twist {
        name: "alignments are not asked",
        answer: |case| instead(case, 10, any(case, is_misaligned), accepted(case)),
    },
    Twist {
        name: "UTF-8 is not asked",
        answer: |case| instead(case, 10, any(case, is_damaged), accepted(case)),
    },
    Twist {
        name: "cluster widths are asked",
        answer: |case| instead(case, 0, any(case, has_no_width), refused(10)),
    },
    Twist {
        name: "a kind has one byte",
        answer: |case| {
            let low = |kind: u16| matches!(kind & 0xFF, 1 | 4);
            let cut = bodies(&case.list)
                .iter()
                .all(|(kind, body)| low(*kind) && body.is_empty());
            instead(case, 10, cut, accepted(case))
        },
    },
];

const RESTORING: [Twist<Case>; 6] = [
    Twist {
        name: "a stored body of 24 bytes is accepted",
        answer: |case| {
            let old = case.list.len() == 28 && case.list[0] == 24;
            let mut list = case.list.clone();
            list.push(0);
            list[0] = 25;
            instead(case, 10, old, restore(&list, case.size))
        },
    },
    Twist {
        name: "attributes go back without an alignment",
        answer: |case| {
            let mut answer = case.answer();
            if answer.number == 0
                && bodies(&answer.out)
                    .last()
                    .is_some_and(|(kind, _)| *kind == 2)
            {
                answer.out.pop();
                answer.count -= 1;
            }
            answer
        },
    },
    Twist {
        name: "9 is asked before 10",
        answer: |case| instead(case, 10, case.size < case.list.len(), refused(9)),
    },
    Twist {
        name: "alignments are not asked",
        answer: |case| {
            let mut list = case.list.clone();
            let last = list.last_mut().filter(|last| **last == 3);
            let wrong = last.map(|last| *last = 2).is_some();
            instead(case, 10, wrong, restore(&list, case.size))
        },
    },
    Twist {
        name: "cluster widths are asked",
        answer: |case| {
            let right = case.answer();
            let none = bodies(&right.out).iter().any(has_no_width);
            instead(case, 0, none, refused(10))
        },
    },
    Twist {
        name: "9 is asked for one byte too many",
        answer: |case| instead(case, 0, case.answer().count == case.size, refused(9)),
    },
];

// ---- wrong pairs of calls

struct Pair {
    name: &'static str,
    calls: Calls,
    /// Whether it is seen from a stored list, too.
    seen_back: bool,
}

fn ends_in_attributes(list: &[u8]) -> bool {
    bodies(list).last().is_some_and(|(kind, _)| *kind == 2)
}

/// The last attributes lose their alignment.
fn store_baseline(list: &[u8], out: &mut [u8]) -> console_lines::raw::Answer {
    let answer = console_lines::raw::store(list, out);
    if answer.number == 0 && ends_in_attributes(list) {
        out[answer.count - 1] = 0;
    }
    answer
}

/// The last attributes lose a byte.
fn restore_shorter(stored: &[u8], out: &mut [u8]) -> console_lines::raw::Answer {
    let mut answer = console_lines::raw::restore(stored, out);
    if answer.number == 0 && ends_in_attributes(&out[..answer.count]) {
        answer.count -= 1;
    }
    answer
}

fn copy(list: &[u8], out: &mut [u8]) -> console_lines::raw::Answer {
    let count = list.len();
    out[..count].copy_from_slice(list);
    console_lines::raw::Answer { number: 0, count }
}

const PAIRS: [Pair; 3] = [
    Pair {
        name: "store forgets an alignment",
        calls: Calls {
            store: store_baseline,
            restore: console_lines::raw::restore,
        },
        seen_back: true,
    },
    Pair {
        name: "restore leaves 24 bytes",
        calls: Calls {
            store: console_lines::raw::store,
            restore: restore_shorter,
        },
        seen_back: true,
    },
    Pair {
        name: "both copy",
        calls: Calls {
            store: copy,
            restore: copy,
        },
        seen_back: false,
    },
];

/// Whether each wrong pair is found by the round trip alone.
fn try_round_trips() -> bool {
    let found = PAIRS.iter().filter(|pair| {
        let found = is_broken(STORE, pair) && (is_broken(RESTORE, pair) || !pair.seen_back);
        if !found {
            println!("there and back: not found where {}", pair.name);
        }
        found
    });
    let (found, all) = (found.count(), PAIRS.len());
    println!("there and back: {found} of {all} wrong pairs found");
    found == all
}

/// Whether a round trip from a stated list of the call ends elsewhere.
fn is_broken(call: &str, pair: &Pair) -> bool {
    let cases = stated::cases(call);
    let mut accepted = cases.iter().filter(|case| case.answer().number == 0);
    accepted.any(|case| round_trip(&case.list, case.back, pair.calls).is_err())
}
