//! A soak: the six calls of document 01 and demand 3 on lines of a seed for some minutes, each
//! call of the library compared with the source's answer, the memory looked at.

mod found;
mod job;
mod lengths;
mod memory;
mod mix;

use crate::options::Options;
use crate::tally::grouped;
use crate::threads;
use found::Found;
use job::Job;
use memory::Memory;
use mix::Mix;
use oracle::progress::{rate, Progress};
use std::sync::atomic::{AtomicUsize, Ordering};
use std::sync::Mutex;
use std::time::{Duration, Instant};

/// The resident size is kept when a run is so old, or half done.
const SETTLED: Duration = Duration::from_secs(60);

/// A soak starts no round after the time, nor more rounds than these.
#[derive(Clone, Copy)]
pub struct Length {
    pub time: Duration,
    pub rounds: usize,
}

/// Runs the soak; whether all is equal, demand 3 holds and the memory is constant.
pub fn run(length: Length, options: &Options) -> bool {
    println!("seed {}, {} jobs", options.seed, options.jobs);
    let soak = Soak::new(length, options);
    let start = Instant::now();
    let mut found = Found::default();
    for part in threads::each_job(options.jobs, |_| soak.part(start)) {
        found.add(part);
    }
    let time = start.elapsed();
    let memory = soak.end();
    found.print();
    println!("{memory}");
    println!(
        "total: {} calls, {} differ, {}, {:.1} s",
        grouped(found.all_calls()),
        grouped(found.differ()),
        rate(found.all_calls(), time),
        time.as_secs_f64()
    );
    let faults = !options.faults || found.print_planted();
    is_good(&found, &memory) && faults
}

fn is_good(found: &Found, memory: &Memory) -> bool {
    let (differ, broken) = (found.differ(), found.broken());
    match (differ, broken) {
        (0, 0) if !found.is_whole() => println!("the soak was too short"),
        (0, 0) if memory.is_constant() => println!("all equal, demand 3 holds, no growth"),
        (0, 0) => println!("the memory GROWS"),
        (0, _) => println!("demand 3 DOES NOT HOLD: {} lines", grouped(broken)),
        _ => println!("NOT EQUAL: {} differ", grouped(differ)),
    }
    differ + broken == 0 && found.is_whole() && memory.is_constant()
}

struct Soak {
    length: Length,
    seed: u64,
    faults: bool,
    mix: Mix,
    /// The next round.
    next: AtomicUsize,
    memory: Mutex<Memory>,
    progress: Progress,
}

impl Soak {
    fn new(length: Length, options: &Options) -> Soak {
        Soak {
            length,
            seed: options.seed,
            faults: options.faults,
            mix: Mix::new(options.seed),
            next: AtomicUsize::new(0),
            memory: Mutex::default(),
            progress: progress(length),
        }
    }

    /// Does rounds that no other job does, until the end.
    fn part(&self, start: Instant) -> Found {
        let mut job = Job::new(&self.mix, self.seed, &self.progress);
        let Length { time, rounds } = self.length;
        while start.elapsed() < time {
            let round = self.next.fetch_add(1, Ordering::Relaxed);
            if round >= rounds {
                break;
            }
            job.round(round, self.faults);
            let now = start.elapsed();
            let settled = now >= SETTLED || now >= time / 2 || round >= rounds / 2;
            self.memory.lock().expect("memory").look(now, settled);
        }
        job.found()
    }

    fn end(self) -> Memory {
        self.memory.into_inner().expect("memory")
    }
}

fn progress(length: Length) -> Progress {
    let upto = match length.time {
        Duration::MAX => String::new(),
        time => format!(" of {}", grouped(time.as_secs() as usize)),
    };
    Progress::told(move |calls, time| {
        let seconds = grouped(time.as_secs() as usize);
        let rate = rate(calls, time);
        format!("soak: {} calls, {rate}, {seconds}{upto} s", grouped(calls))
    })
}
