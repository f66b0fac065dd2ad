//! Faults planted in the library's answers, to see that the picture finds them.

use super::case::{Case, LARGEST};
use super::check::check;
use super::sets;
use super::shown::shown;
use crate::comparison::Comparison;
use crate::lent::Place;
use crate::library::Library;
use oracle::changes::places;
use oracle::noise::Program;
use oracle::{Answer, Call, Case as Asked};
use std::ops::Range;
use std::str;
use unicode_segmentation::UnicodeSegmentation;

#[derive(Clone, Copy, Debug)]
enum Fault {
    /// A row starts one column late.
    Late(Place),
    /// A row ends one column late, and the next one starts there.
    Moved,
    /// A row stands neither in the list nor in the height.
    Dropped(Place),
    Height,
    /// A drawing is refused by 8.
    Refused(Drawing),
    /// The last cluster of a drawing is lost.
    Lost(Drawing),
    /// The attribute body of that cluster is altered.
    Restyled(Drawing),
    /// The row before is drawn.
    RowBefore,
    /// A row is drawn behind the last.
    Behind,
    /// Modes 3 and 4 wrap as 1 and 2: two lone marks as 8 columns.
    AsSource,
}

/// The drawings that a picture takes.
#[derive(Clone, Copy, Debug)]
enum Drawing {
    Unwrapped,
    Row,
    Rows,
}

fn faults() -> Vec<Fault> {
    let mut faults = vec![Fault::Moved, Fault::Height];
    for place in [Place::First, Place::Last] {
        faults.extend([Fault::Late(place), Fault::Dropped(place)]);
    }
    for drawing in [Drawing::Unwrapped, Drawing::Row, Drawing::Rows] {
        let each = [Fault::Refused, Fault::Lost, Fault::Restyled];
        faults.extend(each.map(|fault| fault(drawing)));
    }
    faults.extend([Fault::RowBefore, Fault::Behind, Fault::AsSource]);
    faults
}

/// Plants each fault in some cases; whether all were found.
pub fn try_faults(seed: u64) -> bool {
    let cases = some_cases(seed);
    let (mut all_planted, mut all_found) = (0, 0);
    let mut each_planted = true;
    for fault in faults() {
        let (planted, found) = try_fault(fault, &cases);
        if found < planted || planted == 0 {
            println!("picture: {fault:?}: only {found} of {planted} found");
        }
        each_planted &= planted > 0;
        all_planted += planted;
        all_found += found;
    }
    println!("picture: {all_found} of {all_planted} planted faults found");
    each_planted && all_found == all_planted
}

/// Cases of each set that have few rows.
fn some_cases(seed: u64) -> Vec<Case> {
    let mut cases = Vec::new();
    for pictures in sets::sets(seed) {
        let set = pictures.set;
        let some = (0..set.count).step_by(set.count / 150 + 1).map(set.case);
        cases.extend(some.filter(|case| case.line.len() <= 200));
    }
    cases
}

/// How often the fault was planted, and how often it was found.
fn try_fault(fault: Fault, cases: &[Case]) -> (usize, usize) {
    let mut library = Library::new();
    let (mut all_planted, mut found) = (0, 0);
    for case in cases {
        let mut planted = false;
        let said = library.hold(|program| {
            check(case, &mut |asked| match fault {
                Fault::RowBefore => row_before(asked, program, &mut planted),
                Fault::AsSource => as_source(asked, program, &mut planted),
                _ => altered(fault, asked, program, &mut planted),
            })
        });
        all_planted += usize::from(planted);
        found += usize::from(planted && said.is_err());
    }
    (all_planted, found)
}

// ---- answers in place of the library's

/// A drawing of the row before, once where it shows something else.
fn row_before(asked: &Asked, program: &mut Program, planted: &mut bool) -> Answer {
    let answer = program(asked);
    let mut call = asked.call.clone();
    match &mut call {
        Call::DrawRow { first, .. } if *first > 0 && !*planted => *first -= 1,
        _ => return answer,
    }
    let before = program(&Asked::new(&asked.line, call, asked.sizes()));
    *planted = shown(&before.list[..before.count]) != shown(&answer.list[..answer.count]);
    if *planted {
        before
    } else {
        answer
    }
}

/// Every answer in modes 3 and 4 is that of modes 1 and 2; it counts where the last row
/// ends elsewhere.
fn as_source(asked: &Asked, program: &mut Program, planted: &mut bool) -> Answer {
    let mut call = asked.call.clone();
    match &mut call {
        Call::Rows { mode, .. } | Call::Height { mode, .. } | Call::DrawRow { mode, .. }
            if *mode > 2 =>
        {
            *mode -= 2;
        }
        _ => return program(asked),
    }
    let answer = program(&Asked::new(&asked.line, call, asked.sizes()));
    if matches!(asked.call, Call::Rows { .. }) {
        let last = |answer: &Answer| answer.pairs[..2 * answer.count].last().copied();
        *planted = last(&answer) != last(&program(asked));
    }
    answer
}

/// The answer with the fault in it, once where it has room; a row is dropped from the
/// height, and then from the list.
fn altered(fault: Fault, asked: &Asked, program: &mut Program, planted: &mut bool) -> Answer {
    let mut answer = program(asked);
    if !*planted || matches!(fault, Fault::Dropped(_)) {
        *planted |= alter(fault, &asked.call, &mut answer).is_some();
    }
    answer
}

/// Plants a fault; none where the call is another or the answer has no room for it.
fn alter(fault: Fault, call: &Call, answer: &mut Answer) -> Option<()> {
    match (fault, call) {
        (Fault::Late(place), Call::Rows { .. }) => {
            answer.pairs[2 * row(place, answer.count)] += 1;
        }
        (Fault::Moved, Call::Rows { .. }) if answer.count > 1 => {
            answer.pairs[1..3].iter_mut().for_each(|edge| *edge += 1);
        }
        (Fault::Dropped(_), Call::Height { .. }) => answer.count -= 1,
        (Fault::Dropped(place), Call::Rows { .. }) => {
            let row = 2 * row(place, answer.count);
            answer.pairs.drain(row..row + 2);
            answer.count -= 1;
        }
        (Fault::Height, Call::Height { .. }) => answer.count += 1,
        (Fault::Refused(drawing), _) if drawing.is(call) => answer.number = 8,
        (Fault::Lost(drawing), _) if drawing.is(call) => lose(answer)?,
        (Fault::Restyled(drawing), _) if drawing.is(call) => restyle(answer)?,
        (Fault::Behind, Call::DrawRow { first: LARGEST, .. }) => {
            answer.list = b"\x01\0\0\0\x01\0a".to_vec();
            answer.count = answer.list.len();
        }
        _ => return None,
    }
    Some(())
}

/// The number of the first or the last of so many rows.
fn row(place: Place, count: usize) -> usize {
    match place {
        Place::First => 0,
        _ => count - 1,
    }
}

impl Drawing {
    fn is(self, call: &Call) -> bool {
        let Call::DrawRow { count, mode, .. } = *call else {
            return false;
        };
        match self {
            Drawing::Unwrapped => mode == 0,
            Drawing::Row => mode != 0 && count == 1,
            Drawing::Rows => mode != 0 && count > 1,
        }
    }
}

/// Takes the last cluster out of the list.
fn lose(answer: &mut Answer) -> Option<()> {
    let changes = places(&answer.list[..answer.count])?;
    let (_, body) = changes.into_iter().rfind(is_shown)?;
    let text = str::from_utf8(&answer.list[body.clone()]).ok()?;
    let cluster = text.graphemes(true).last()?.len();
    let len = (body.len() - cluster) as u32;
    answer.list[body.start - 6..body.start - 2].copy_from_slice(&len.to_le_bytes());
    answer.list.drain(body.end - cluster..body.end);
    answer.count -= cluster;
    Some(())
}

/// Alters the attributes that the last cluster is drawn with.
fn restyle(answer: &mut Answer) -> Option<()> {
    let mut changes = places(&answer.list[..answer.count])?;
    changes.truncate(changes.iter().rposition(is_shown)?);
    let (_, body) = changes.into_iter().rfind(|(kind, _)| *kind == 2)?;
    answer.list[body.start] ^= 1;
    Some(())
}

/// Whether a change is a text that is not empty.
fn is_shown((kind, body): &(u16, Range<usize>)) -> bool {
    *kind == 1 && !body.is_empty()
}
