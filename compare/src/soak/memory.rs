//! The resident size of the program.

use crate::tally::grouped;
use std::fmt;
use std::fs;
use std::time::Duration;

/// So many KiB it may grow behind the first size that is kept.
const ADMITTED: usize = 8 * 1_024;

/// Sizes in KiB.
#[derive(Default)]
pub struct Memory {
    /// With the time at which it was taken.
    first: Option<(usize, Duration)>,
    last: usize,
    largest: usize,
    /// The largest one since the first.
    later: usize,
}

impl Memory {
    /// Looks at the size; the first one is kept where the run has settled.
    pub fn look(&mut self, time: Duration, settled: bool) {
        self.last = resident();
        self.largest = self.largest.max(self.last);
        if settled {
            self.first.get_or_insert((self.last, time));
            self.later = self.later.max(self.last);
        }
    }

    fn growth(&self) -> usize {
        let first = self.first.map_or(0, |(size, _)| size);
        self.later.saturating_sub(first)
    }

    pub fn is_constant(&self) -> bool {
        self.first.is_some() && self.growth() <= ADMITTED
    }
}

impl fmt::Display for Memory {
    fn fmt(&self, f: &mut fmt::Formatter<'_>) -> fmt::Result {
        let Some((first, time)) = self.first else {
            return write!(f, "resident KiB: the run was too short");
        };
        let [first, last, largest] = [first, self.last, self.largest].map(grouped);
        let seconds = time.as_secs();
        write!(
            f,
            "resident KiB: {first} after {seconds} s, {last} at the end, {largest} at most; \
             grown by at most {} since, {} are admitted",
            grouped(self.growth()),
            grouped(ADMITTED)
        )
    }
}

/// What Linux says of this program.
fn resident() -> usize {
    let status = fs::read_to_string("/proc/self/status").expect("/proc/self/status");
    let mut fields = status
        .lines()
        .filter_map(|line| line.strip_prefix("VmRSS:"));
    let size = fields
        .next()
        .and_then(|field| field.split_whitespace().next());
    size.and_then(|size| size.parse().ok()).expect("VmRSS")
}
