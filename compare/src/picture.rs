//! The row picture on the library itself: rows together show the line.

mod case;
mod check;
mod faults;
mod sets;
mod shown;

pub use faults::try_faults;

use crate::comparison::{each_part, Comparison, Set};
use crate::library::Library;
use crate::options::Options;
use crate::tally::{grouped, Differences};
use case::Case;
use check::{check, Said};
use sets::Pictures;
use std::fmt;
use std::time::Instant;

/// Runs all sets, or the given cases; whether the picture holds.
pub fn run(options: &Options) -> bool {
    let sets = match &options.cases {
        Some(cases) => {
            let cases = cases.calls.iter().filter_map(Case::of).collect();
            vec![Pictures::of(Set::of("given cases", cases), 1)]
        }
        None => sets::sets(options.seed),
    };
    let mut whole = Found::default();
    for pictures in &sets {
        whole.add(run_set(pictures, options));
    }
    println!("picture: {whole}");
    let broken = whole.broken.count;
    match broken {
        0 if whole.drawings > 0 => println!("the row picture holds"),
        0 => println!("the row picture has no case"),
        _ => println!("the row picture DOES NOT HOLD: {} cases", grouped(broken)),
    }
    broken == 0 && whole.drawings > 0
}

/// How many cases there are, of how many something is said, and what was found.
#[derive(Default)]
struct Found {
    lines: usize,
    cases: usize,
    accepted: usize,
    outside: usize,
    /// Cases in modes 3 and 4 that would be outside in 1 and 2.
    beyond: usize,
    rows: usize,
    drawings: usize,
    broken: Differences,
}

impl Found {
    fn count(&mut self, said: Said) {
        self.cases += 1;
        self.accepted += usize::from(said.accepted);
        self.outside += usize::from(said.outside);
        self.beyond += usize::from(said.beyond && !said.outside);
        self.rows += said.rows;
        self.drawings += said.drawings;
    }

    fn add(&mut self, other: Found) {
        self.lines += other.lines;
        self.cases += other.cases;
        self.accepted += other.accepted;
        self.outside += other.outside;
        self.beyond += other.beyond;
        self.rows += other.rows;
        self.drawings += other.drawings;
        self.broken.add(other.broken);
    }
}

impl fmt::Display for Found {
    fn fmt(&self, f: &mut fmt::Formatter<'_>) -> fmt::Result {
        write!(
            f,
            "{} lines, {} cases, {} broken; {} accepted, {} outside, \
             {} that only modes 3, 4 admit, {} rows, {} drawings",
            grouped(self.lines),
            grouped(self.cases),
            grouped(self.broken.count),
            grouped(self.accepted),
            grouped(self.outside),
            grouped(self.beyond),
            grouped(self.rows),
            grouped(self.drawings)
        )
    }
}

/// Runs a set, and prints what was found.
fn run_set(pictures: &Pictures, options: &Options) -> Found {
    let start = Instant::now();
    let step = options.step(pictures.set.count);
    let mut whole = Found {
        lines: pictures.lines(step),
        ..Found::default()
    };
    for found in each_part("picture", &pictures.set, options, run_part) {
        whole.add(found);
    }
    let seconds = start.elapsed().as_secs_f64();
    println!("picture, {}: {whole}, {seconds:.1} s", pictures.set.name);
    whole.broken.print();
    whole
}

fn run_part(cases: &mut dyn Iterator<Item = Case>) -> Found {
    let mut library = Library::new();
    let mut found = Found::default();
    for case in cases {
        match library.hold(|program| check(&case, program)) {
            Ok(said) => found.count(said),
            Err(text) => {
                found.count(Said::default());
                found.broken.push(text);
            }
        }
    }
    found
}
