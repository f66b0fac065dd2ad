//! Compares sets of cases with what is expected, and counts them.

use crate::options::Options;
use crate::tally::Tally;
use crate::threads;
use std::fmt;
use std::time::Instant;

/// Memory that is lent to the library, and what its calls are compared with.
pub trait Comparison {
    type Case: fmt::Display;

    fn new() -> Self;

    /// Makes a call. The number that is expected, and the difference, as text, between
    /// what is expected and what the library returned and left.
    fn compare(&mut self, case: &Self::Case) -> (usize, Option<String>);
}

/// Cases that are made from their numbers.
pub struct Set<C> {
    pub name: &'static str,
    pub count: usize,
    pub case: Box<dyn Fn(usize) -> C + Sync>,
}

impl<C: Clone + Sync + Send + 'static> Set<C> {
    pub fn of(name: &'static str, cases: Vec<C>) -> Set<C> {
        Set {
            name,
            count: cases.len(),
            case: Box::new(move |number| cases[number].clone()),
        }
    }
}

/// Compares the sets of a call, and prints their counts.
pub fn compare_sets<L: Comparison>(call: &str, sets: &[Set<L::Case>], options: &Options) -> Tally {
    let mut whole = Tally::default();
    for set in sets {
        let start = Instant::now();
        let tally = compare_set::<L>(call, set, options);
        let seconds = start.elapsed().as_secs_f64();
        println!("{call}, {}: {tally}, {seconds:.1} s", set.name);
        tally.differences.print();
        whole.add(tally);
    }
    println!("{call}: {whole}; {}", whole.numbers());
    whole
}

/// Compares a set.
fn compare_set<L: Comparison>(call: &str, set: &Set<L::Case>, options: &Options) -> Tally {
    let mut whole = Tally::default();
    for tally in each_part(call, set, options, compare_part::<L>) {
        whole.add(tally);
    }
    whole
}

fn compare_part<L: Comparison>(cases: &mut dyn Iterator<Item = L::Case>) -> Tally {
    let mut library = L::new();
    let mut tally = Tally::default();
    for case in cases {
        let (number, difference) = library.compare(&case);
        tally.count(number, difference);
    }
    tally
}

/// Does the work with the cases of a set, dealt out to the jobs.
pub fn each_part<C: fmt::Display, T: Send>(
    name: &str,
    set: &Set<C>,
    options: &Options,
    work: impl Fn(&mut dyn Iterator<Item = C>) -> T + Sync,
) -> Vec<T> {
    let step = options.step(set.count);
    let progress = options.progress(format!("{name}, {}", set.name), set.count.div_ceil(step));
    threads::each_job(options.jobs, |job| {
        let numbers = (job * step..set.count).step_by(options.jobs * step);
        work(&mut progress.counted(numbers).map(|number| {
            let case = (set.case)(number);
            if options.trace {
                eprintln!("{case}");
            }
            case
        }))
    })
}
