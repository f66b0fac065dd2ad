//! Faults planted in drawings for the crew, to see that they are found.

use super::sets::random_pair;
use super::view::{names_uri, seen_by_crew};
use crate::comparison::Comparison;
use crate::library::Library;
use console_lines::raw::{BENCH, CREW};
use oracle::random::Random;
use oracle::{Answer, Case};

const PAIRS: usize = 2_000;

/// A fault in the answer to one of the four drawings of a pair.
type Fault = fn(&mut Answer, &mut Library, &Case) -> bool;

const FAULTS: [(&str, Fault); 5] = [
    ("the number", |answer, _, _| {
        answer.number ^= 1;
        true
    }),
    ("the count", |answer, _, _| {
        answer.count ^= usize::from(answer.number == 0);
        answer.number == 0
    }),
    ("the last byte of the list", |answer, _, _| {
        let last = answer.list[..answer.count].last_mut();
        last.map(|byte| *byte ^= 1).is_some()
    }),
    ("a span", |answer, _, _| {
        let first = answer.records.first_mut();
        first.map(|record| record.len += 1).is_some()
    }),
    ("a URI that is named", |answer, library, case| {
        let bench = library.answer_for(BENCH, case).expect("the bench's view");
        answer.list.clone_from(&bench.list);
        answer.number == 0 && names_uri(&bench.list[..bench.count])
    }),
];

/// Plants each fault in one of the drawings for the crew of each pair that has room for it,
/// and leaves a URI's length in lists that are compared; whether all were found.
pub fn try_faults(seed: u64) -> bool {
    let mut good = leave_lengths(seed);
    for (name, fault) in FAULTS {
        let (mut planted, mut found) = (0, 0);
        for number in 0..PAIRS {
            let pair = random_pair(&mut Random::of_case(seed, number));
            let (mut library, mut other) = (Library::new(), Library::new());
            let (mut drawings, mut is_planted) = (0, false);
            let said = pair.check(&mut |reader, case| {
                let mut answer = library.answer_for(reader, case)?;
                if reader == CREW && drawings == number % 2 {
                    is_planted = fault(&mut answer, &mut other, case);
                }
                drawings += 1;
                Ok(answer)
            });
            planted += usize::from(is_planted);
            found += usize::from(is_planted && said.is_err());
        }
        println!("readers, {name}: {found} of {planted} planted faults found");
        good &= found == planted && planted > 0;
    }
    good
}

/// The crew's list with one URI's length left.
fn leave_lengths(seed: u64) -> bool {
    let mut library = Library::new();
    let (mut planted, mut found) = (0, 0);
    for number in 0..PAIRS {
        let case = random_pair(&mut Random::of_case(seed, number)).first;
        let bench = case.answer();
        let crew = seen_by_crew(&bench);
        let Some(place) = (0..crew.list.len()).rfind(|&i| crew.list[i] != bench.list[i]) else {
            continue;
        };
        let answer = library.call_for(CREW, &case);
        let mut left = library.whole_answer(answer);
        left.list[place] = bench.list[place];
        library.leave(&left);
        planted += 1;
        found += usize::from(library.difference(&case, &crew, answer).is_some());
    }
    println!("readers, a URI's length left: {found} of {planted} planted faults found");
    found == planted && planted > 0
}
