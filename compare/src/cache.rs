//! Calls with kept wraps beside their model, and what document 02 says of them.

mod check;
mod faults;
mod forged;
mod line;
mod model;
mod sample;
mod sequence;
mod sets;
mod stated;
mod theorem;
mod twists;

pub use faults::try_faults;
pub use sequence::{Sequence, NAME, RECORDED};

use crate::comparison::{each_part, Set};
use crate::options::Options;
use crate::tally::{grouped, Differences};
use check::{by_library, Checker, Judge, Said};
use model::Use;
use std::fmt;
use std::time::Instant;

/// Runs all sets, or the given sequences; whether all are equal.
pub fn run(options: &Options) -> bool {
    let sets = match &options.cases {
        Some(cases) => vec![Set::of("given sequences", cases.sequences.clone())],
        None => sets::sets(options.seed),
    };
    let start = Instant::now();
    let mut whole = Found::default();
    for set in &sets {
        whole.add(run_set(set, options));
    }
    let seconds = start.elapsed().as_secs_f64();
    println!("kept wraps: {whole}, {seconds:.1} s");
    println!("  {}", whole.numbers());
    let differ = whole.different.count;
    match differ {
        0 if whole.calls > 0 => println!("kept wraps are equal"),
        0 => println!("kept wraps have no case"),
        _ => println!("kept wraps are NOT EQUAL: {} differ", grouped(differ)),
    }
    differ == 0 && whole.calls > 0
}

/// Prints the sample, as lines for crates/vectors.
pub fn print_sample() {
    for sequence in sample::sequences() {
        println!("{}", sample::answered(&sequence));
    }
}

/// How many sequences and calls there are, what they were, and what was found.
#[derive(Default)]
struct Found {
    sequences: usize,
    /// Of so many the theorem speaks.
    theorem: usize,
    calls: usize,
    by_number: [usize; 7],
    /// How many calls were each use.
    uses: [usize; USES.len()],
    different: Differences,
}

const USES: [(Use, &str); 5] = [
    (Use::Again, "answered from what is kept"),
    (Use::New, "kept"),
    (Use::InStead, "kept in another's stead"),
    (Use::NotKept, "with too many rows"),
    (Use::Unwrapped, "for Unwrapped height"),
];

impl Found {
    fn count(&mut self, result: Result<Said, String>) {
        self.sequences += 1;
        match result {
            Ok(said) => {
                self.theorem += usize::from(said.theorem);
                self.calls += said.numbers.len();
                said.numbers.iter().for_each(|&n| self.by_number[n] += 1);
                for (count, (its_use, _)) in self.uses.iter_mut().zip(USES) {
                    *count += said.uses.iter().filter(|said| **said == its_use).count();
                }
            }
            Err(text) => self.different.push(text),
        }
    }

    fn add(&mut self, other: Found) {
        self.sequences += other.sequences;
        self.theorem += other.theorem;
        self.calls += other.calls;
        for (count, more) in self.by_number.iter_mut().zip(other.by_number) {
            *count += more;
        }
        for (count, more) in self.uses.iter_mut().zip(other.uses) {
            *count += more;
        }
        self.different.add(other.different);
    }

    /// How many calls were accepted, refused by each question, and each use.
    fn numbers(&self) -> String {
        let mut text = format!("accepted {}", grouped(self.by_number[0]));
        for (number, &count) in self.by_number.iter().enumerate().skip(1) {
            if count > 0 {
                text += &format!(", refused {number}: {}", grouped(count));
            }
        }
        let uses = self.uses.iter().zip(USES);
        let uses = uses.map(|(&count, (_, name))| format!("{} {name}", grouped(count)));
        format!("{text}; {}", uses.collect::<Vec<_>>().join(", "))
    }
}

impl fmt::Display for Found {
    fn fmt(&self, f: &mut fmt::Formatter<'_>) -> fmt::Result {
        let Found {
            sequences,
            calls,
            theorem,
            ..
        } = *self;
        let [sequences, calls, theorem] = [sequences, calls, theorem].map(grouped);
        let differ = grouped(self.different.count);
        write!(
            f,
            "{sequences} sequences, {theorem} of them the theorem's, {differ} differ; {calls} calls"
        )
    }
}

/// Runs a set, and prints what was found.
fn run_set(set: &Set<Sequence>, options: &Options) -> Found {
    let start = Instant::now();
    let mut whole = Found::default();
    for found in each_part("kept wraps", set, options, run_part) {
        whole.add(found);
    }
    let seconds = start.elapsed().as_secs_f64();
    println!("kept wraps, {}: {whole}, {seconds:.1} s", set.name);
    whole.different.print();
    whole
}

fn run_part(sequences: &mut dyn Iterator<Item = Sequence>) -> Found {
    let mut checker = Checker::new();
    let mut found = Found::default();
    for sequence in sequences {
        found.count(checker.check(&sequence, Judge::Both, &mut by_library));
    }
    found
}
