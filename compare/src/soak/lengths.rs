//! How many calls are on lines of each length.

use crate::lines::LONGEST_ADMITTED;
use crate::tally::grouped;
use std::fmt;

/// Up to these lengths calls are counted together.
const BANDS: [usize; 5] = [8, 24, 100, 400, LONGEST_ADMITTED];

/// The last counts those on longer lines than are admitted.
pub struct Lengths(Vec<usize>);

impl Default for Lengths {
    fn default() -> Lengths {
        Lengths(vec![0; LONGEST_ADMITTED + 2])
    }
}

impl Lengths {
    pub fn count(&mut self, len: usize) {
        self.0[len.min(LONGEST_ADMITTED + 1)] += 1;
    }

    pub fn add(&mut self, other: &Lengths) {
        for (count, more) in self.0.iter_mut().zip(&other.0) {
            *count += more;
        }
    }
}

impl fmt::Display for Lengths {
    fn fmt(&self, f: &mut fmt::Formatter<'_>) -> fmt::Result {
        let (longer, admitted) = self.0.split_last().expect("counts");
        let least = admitted.iter().min().expect("counts");
        write!(f, "calls on lines of")?;
        let mut first = 0;
        for last in BANDS {
            let calls = admitted[first..=last].iter().sum();
            let upto = grouped(last);
            write!(f, " {first} to {upto} bytes: {},", grouped(calls))?;
            first = last + 1;
        }
        write!(f, " more: {}; each length up to ", grouped(*longer))?;
        write!(
            f,
            "{}: at least {}",
            grouped(LONGEST_ADMITTED),
            grouped(*least)
        )
    }
}
