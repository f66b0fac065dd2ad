//! Fewest rows: no list of rows cut between a line's units has fewer than mode 1 has.

mod case;
mod check;
mod faults;
mod minimum;
mod sets;

pub use faults::try_faults;

use crate::comparison::{each_part, Comparison, Set};
use crate::library::Library;
use crate::options::Options;
use crate::tally::{grouped, Differences};
use case::Case;
use check::{check, Said};
use std::fmt;
use std::time::Instant;

/// Runs all sets, or the given cases; whether no list of rows is shorter.
pub fn run(options: &Options) -> bool {
    let sets = match &options.cases {
        Some(cases) => {
            let cases = cases.calls.iter().filter_map(Case::of).collect();
            vec![Set::of("given cases", cases)]
        }
        None => sets::sets(options.seed),
    };
    let mut whole = Found::default();
    for set in &sets {
        whole.add(run_set(set, options));
    }
    println!("fewest rows: {whole}");
    let broken = whole.broken.count;
    match broken {
        0 if whole.least > 0 => println!("mode 1 has the fewest rows"),
        0 => println!("fewest rows have no case"),
        _ => println!("mode 1 has NOT the fewest rows: {} cases", grouped(broken)),
    }
    broken == 0 && whole.least > 0
}

/// How many cases there are, of how many nothing is said, and what was found.
#[derive(Default)]
struct Found {
    /// Lines at a width at which the rows are the fewest.
    least: usize,
    rows: usize,
    refused: usize,
    with_tabs: usize,
    too_narrow: usize,
    broken: Differences,
}

impl Found {
    fn count(&mut self, result: Result<Said, String>) {
        match result {
            Ok(Said::Least { rows }) => {
                self.least += 1;
                self.rows += rows;
            }
            Ok(Said::Refused) => self.refused += 1,
            Ok(Said::WithTabs) => self.with_tabs += 1,
            Ok(Said::TooNarrow) => self.too_narrow += 1,
            Err(text) => self.broken.push(text),
        }
    }

    fn add(&mut self, other: Found) {
        self.least += other.least;
        self.rows += other.rows;
        self.refused += other.refused;
        self.with_tabs += other.with_tabs;
        self.too_narrow += other.too_narrow;
        self.broken.add(other.broken);
    }
}

impl fmt::Display for Found {
    fn fmt(&self, f: &mut fmt::Formatter<'_>) -> fmt::Result {
        let broken = grouped(self.broken.count);
        let [least, rows] = [self.least, self.rows].map(grouped);
        let [refused, tabs, narrow] = [self.refused, self.with_tabs, self.too_narrow].map(grouped);
        write!(
            f,
            "{least} lines at a width with the fewest rows, {rows} rows, {broken} with more; \
             left out {narrow} where a unit is wider, {tabs} with tabs, {refused} refused"
        )
    }
}

/// Runs a set, and prints what was found.
fn run_set(set: &Set<Case>, options: &Options) -> Found {
    let start = Instant::now();
    let part = |cases: &mut dyn Iterator<Item = Case>| {
        let mut library = Library::new();
        let mut found = Found::default();
        for case in cases {
            found.count(library.hold(|program| check(&case, program)));
        }
        found
    };
    let mut whole = Found::default();
    for found in each_part("fewest rows", set, options, part) {
        whole.add(found);
    }
    let seconds = start.elapsed().as_secs_f64();
    println!("fewest rows, {}: {whole}, {seconds:.1} s", set.name);
    whole.broken.print();
    whole
}
