//! Faults planted in the library's answers, to see that demand 3 finds them.

use super::{check, random_cases};
use crate::comparison::Comparison;
use crate::lent::Place;
use crate::library::Library;
use oracle::noise::{Exchange, Half, Separation};
use oracle::Answer;

#[derive(Clone, Copy, Debug)]
enum Fault {
    Number,
    Count,
    /// An item of a buffer.
    Conv(Place),
    Spans(Place),
    Rows(Place),
    List(Place),
    /// The converted line or the change list of the first call in place of its own.
    FirstConv,
    FirstList,
}

const ENDS: [Place; 2] = [Place::First, Place::Last];

/// A half with the faults that it must find, each with the number of the call in
/// whose answer it is planted.
trait Planted: Half {
    fn faults() -> Vec<(usize, Fault)>;

    /// Whether it says something of this answer.
    fn speaks_of(answer: &Answer) -> bool;
}

/// The calls are reading and converting the line, the same for the first part and for
/// the second, and the other call. Reading the line and the other call may be refused,
/// and the other call's count, rows and changes may be any.
impl Planted for Separation {
    fn faults() -> Vec<(usize, Fault)> {
        let numbers = (1..6).map(|call| (call, Fault::Number));
        let counts = (0..6).map(|call| (call, Fault::Count));
        let mut faults: Vec<_> = numbers.chain(counts).collect();
        for call in 0..7 {
            faults.extend(ENDS.map(|end| (call, Fault::Conv(end))));
            faults.extend(ENDS.map(|end| (call, Fault::Spans(end))));
        }
        faults
    }

    fn speaks_of(answer: &Answer) -> bool {
        answer.number == 0
    }
}

/// The calls are those on the two lines.
impl Planted for Exchange {
    fn faults() -> Vec<(usize, Fault)> {
        let mut faults = vec![(1, Fault::FirstConv), (1, Fault::FirstList)];
        for call in 0..2 {
            faults.extend([(call, Fault::Number), (call, Fault::Count)]);
            for items in [Fault::Conv, Fault::Spans, Fault::Rows, Fault::List] {
                faults.extend(ENDS.map(|end| (call, items(end))));
            }
        }
        faults
    }

    fn speaks_of(_: &Answer) -> bool {
        true
    }
}

/// Plants a fault; whether the answer has room for it.
fn plant(fault: Fault, answer: &mut Answer, first: &Answer) -> bool {
    match fault {
        Fault::Number => {
            answer.number ^= 1;
            true
        }
        Fault::Count => {
            answer.count += 1;
            true
        }
        Fault::Conv(place) => change(&mut answer.conv, place, |byte| *byte ^= 1),
        Fault::Spans(place) => change(&mut answer.records, place, |record| record.place ^= 1),
        Fault::Rows(place) => change(&mut answer.pairs, place, |number| *number ^= 1),
        Fault::List(place) => change(&mut answer.list, place, |byte| *byte ^= 1),
        Fault::FirstConv => replace(&mut answer.conv, &first.conv),
        Fault::FirstList => replace(&mut answer.list, &first.list),
    }
}

fn change<T>(items: &mut [T], place: Place, change: impl Fn(&mut T)) -> bool {
    let item = match place {
        Place::First => items.first_mut(),
        _ => items.last_mut(),
    };
    item.map(change).is_some()
}

fn replace(bytes: &mut Vec<u8>, others: &[u8]) -> bool {
    let differ = bytes != others;
    *bytes = others.to_vec();
    differ
}

/// Plants each fault in some cases of both halves; whether all were found.
pub fn try_faults(seed: u64) -> bool {
    try_half::<Separation>(seed) & try_half::<Exchange>(seed)
}

fn try_half<H: Planted>(seed: u64) -> bool {
    let random = random_cases::<H>(seed, 0..1_000);
    let cases: Vec<H> = random.chain(H::short().step_by(997)).collect();
    let (mut all_planted, mut all_found) = (0, 0);
    for (call, fault) in H::faults() {
        let (planted, found) = try_fault(call, fault, &cases);
        if found < planted {
            println!(
                "demand 3, {}: call {call}, {fault:?}: only {found} of {planted} found",
                H::NAME
            );
        }
        all_planted += planted;
        all_found += found;
    }
    println!(
        "demand 3, {}: {all_found} of {all_planted} planted faults found",
        H::NAME
    );
    all_found == all_planted
}

/// How often the fault was planted, and how often it was found.
fn try_fault<H: Planted>(fault_call: usize, fault: Fault, cases: &[H]) -> (usize, usize) {
    let mut library = Library::new();
    let (mut all_planted, mut found) = (0, 0);
    for case in cases {
        let mut first = Answer::default();
        let mut planted = false;
        let said = check(case, &mut library, &mut |call, answer| {
            if call == 0 {
                first = answer.clone();
            }
            if call == fault_call && H::speaks_of(answer) {
                planted = plant(fault, answer, &first);
            }
        });
        all_planted += usize::from(planted);
        found += usize::from(planted && said.is_err());
    }
    (all_planted, found)
}
