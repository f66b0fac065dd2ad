//! Demand 3 on the library itself: noise separation and noise exchange.

mod faults;

pub use faults::try_faults;

use crate::comparison::Comparison;
use crate::library::Library;
use crate::options::Options;
use crate::tally::{grouped, Differences};
use crate::threads;
use oracle::noise::{Counts, Exchange, Half, Said, Separation};
use oracle::random::Random;
use oracle::Answer;
use std::collections::BTreeMap;
use std::time::Instant;

/// How many random cases each half has.
const RANDOM: usize = 1_500_000;

/// Runs both halves; whether they hold.
pub fn run(options: &Options) -> bool {
    let halves = [
        run_half::<Separation>(options),
        run_half::<Exchange>(options),
    ];
    let broken: usize = halves.iter().map(|half| half.broken.count).sum();
    let accepted = halves.iter().all(|half| half.counts.accepted > 0);
    match broken {
        0 if accepted => println!("demand 3 holds"),
        0 => println!("demand 3 has no case"),
        _ => println!("demand 3 DOES NOT HOLD: {} cases", grouped(broken)),
    }
    broken == 0 && accepted
}

fn run_half<H: Half>(options: &Options) -> Found {
    let step = options.step(RANDOM);
    let random = |job| {
        let numbers = (job * step..RANDOM).step_by(options.jobs * step);
        random_cases::<H>(options.seed, numbers)
    };
    let short = |job| H::short().skip(job * step).step_by(options.jobs * step);
    let mut found = run_cases("random", RANDOM.div_ceil(step), options, random);
    let count = H::short().count().div_ceil(step);
    found.add(run_cases("short", count, options, short));
    found
}

fn random_cases<H: Half>(
    seed: u64,
    numbers: impl Iterator<Item = usize>,
) -> impl Iterator<Item = H> {
    numbers.map(move |number| H::random(&mut Random::of_case(seed, number)))
}

#[derive(Default)]
struct Found {
    counts: Counts,
    /// How many cases have each call.
    calls: BTreeMap<&'static str, usize>,
    broken: Differences,
}

impl Found {
    fn add(&mut self, other: Found) {
        self.counts.add(other.counts);
        for (name, count) in other.calls {
            *self.calls.entry(name).or_default() += count;
        }
        self.broken.add(other.broken);
    }

    fn calls(&self) -> String {
        let calls = self.calls.iter();
        let texts = calls.map(|(name, &count)| format!("{name} {}", grouped(count)));
        texts.collect::<Vec<_>>().join(", ")
    }
}

/// Runs cases, dealt out to the jobs, and prints what was found.
fn run_cases<H: Half, I: Iterator<Item = H>>(
    lines: &str,
    count: usize,
    options: &Options,
    cases: impl Fn(usize) -> I + Sync,
) -> Found {
    let start = Instant::now();
    let mut whole = Found::default();
    let set = format!("demand 3, {}, {lines} lines", H::NAME);
    let progress = options.progress(set.clone(), count);
    let part = |job| check_cases(progress.counted(cases(job)));
    for found in threads::each_job(options.jobs, part) {
        whole.add(found);
    }
    drop(progress);
    let Counts {
        cases,
        accepted,
        further,
    } = whole.counts;
    println!(
        "{set}: {} cases, {} broken; {} accepted, {} {}, {:.1} s",
        grouped(cases),
        grouped(whole.broken.count),
        grouped(accepted),
        grouped(further),
        H::FURTHER,
        start.elapsed().as_secs_f64()
    );
    println!("  cases with each call: {}", whole.calls());
    whole.broken.print();
    whole
}

/// Checks the cases of a job.
fn check_cases<H: Half>(cases: impl Iterator<Item = H>) -> Found {
    let mut library = Library::new();
    let mut found = Found::default();
    for case in cases {
        for name in case.calls() {
            *found.calls.entry(name).or_default() += 1;
        }
        match check(&case, &mut library, &mut |_, _| ()) {
            Ok(said) => found.counts.count(said),
            Err(text) => {
                found.counts.count(Said::default());
                found.broken.push(text);
            }
        }
    }
    found
}

/// Checks a case with the library's answers. `plant` may change each of them before it
/// is looked at; it is told the number of the call.
fn check<H: Half>(
    case: &H,
    library: &mut Library,
    plant: &mut dyn FnMut(usize, &mut Answer),
) -> Result<Said, String> {
    let mut calls = 0;
    library.hold(|program| {
        case.check(&mut |case| {
            let mut answer = program(case);
            plant(calls, &mut answer);
            calls += 1;
            answer
        })
    })
}
