//! Faults planted in what the library left, to see that the comparison finds them.

use crate::comparison::Comparison;
use crate::lent::Place;
use crate::library::{Buffer, Library};
use crate::sets::sample;
use oracle::Case;
use std::fmt;

#[derive(Clone, Copy)]
pub enum Fault {
    Number,
    Count,
    Memory(Buffer, Place),
}

impl fmt::Display for Fault {
    fn fmt(&self, f: &mut fmt::Formatter<'_>) -> fmt::Result {
        match self {
            Fault::Number => write!(f, "the number"),
            Fault::Count => write!(f, "the count"),
            Fault::Memory(buffer, place) => write!(f, "{buffer}, {place}"),
        }
    }
}

/// Each fault of a call's answer and memory.
pub fn faults() -> Vec<Fault> {
    let mut faults = vec![Fault::Number, Fault::Count];
    for buffer in Buffer::ALL {
        faults.extend(Place::ALL.map(|place| Fault::Memory(buffer, place)));
    }
    faults
}

/// Plants each fault in each case of the sample that has room for it; whether all
/// were found.
pub fn try_faults(call: &'static str, seed: u64) -> bool {
    let cases = sample(call, seed);
    let (mut all_planted, mut all_found) = (0, 0);
    for fault in faults() {
        let (planted, found) = try_fault(fault, &cases);
        if found < planted {
            println!("{call}: {fault}: only {found} of {planted} found");
        }
        all_planted += planted;
        all_found += found;
    }
    println!("{call}: {all_found} of {all_planted} planted faults found");
    all_found == all_planted
}

/// How often the fault was planted, and how often it was found.
fn try_fault(fault: Fault, cases: &[Case]) -> (usize, usize) {
    let mut library = Library::new();
    let (mut planted, mut found) = (0, 0);
    for case in cases {
        let mut answer = library.call(case);
        if library.plant(fault, &mut answer) {
            planted += 1;
            let fault = library.difference(case, &case.answer(), answer);
            found += usize::from(fault.is_some());
        } else {
            library.take_back(case);
        }
    }
    (planted, found)
}
