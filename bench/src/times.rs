//! The times of a call on a line.

use crate::calls;
use crate::memory::{generous, just, Memory};
use crate::timing::{medians, Effort};
use oracle::Call;
use std::hint::black_box;

/// Nanoseconds of the library with just enough memory and with generous memory, and of
/// the source.
#[derive(Clone, Copy)]
pub struct Times {
    pub just: f64,
    pub generous: f64,
    pub source: f64,
}

/// Measures a call. The library's answers are compared with the oracle's first.
pub fn times(call: &Call, line: &[u8], effort: Effort) -> Times {
    let expected = call.ample_answer(line);
    assert_eq!(expected.number, 0, "{call:?} is refused");
    let just = just(line, &expected);
    let generous = generous(just);
    let mut memory = Memory::new(generous);
    for sizes in [generous, just] {
        let answer = memory.call(call, line, sizes);
        assert!(memory.holds(answer, &expected), "{call:?}: a wrong answer");
    }
    let [mut memory, mut other] = [memory, Memory::new(generous)];
    let [just, generous, source] = medians(
        effort,
        [
            &mut || {
                black_box(memory.call(call, black_box(line), just));
            },
            &mut || {
                black_box(other.call(call, black_box(line), generous));
            },
            &mut || calls::source(call, line),
        ],
    );
    Times {
        just,
        generous,
        source,
    }
}

/// The time of copying a line into its conversion buffer and zeroing the rest.
pub fn copying(line: &[u8], effort: Effort) -> f64 {
    let mut conv = vec![0; 8 * line.len()];
    let [time] = medians(
        effort,
        [&mut || {
            let (copy, rest) = conv.split_at_mut(line.len());
            copy.copy_from_slice(black_box(line));
            rest.fill(0);
            black_box(&mut conv);
        }],
    );
    time
}

/// One call of the library, lent just enough: what bench/count counts.
pub fn once(call: &Call, line: &[u8]) {
    let sizes = just(line, &call.ample_answer(line));
    black_box(Memory::new(sizes).call(call, line, sizes));
}
