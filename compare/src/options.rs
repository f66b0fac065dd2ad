//! The program's options.

use crate::soak::Length;
use crate::{cache, cells, narrowest, readers, screen, stored};
use oracle::progress::Progress;
use oracle::{Call, Case};
use std::fs;
use std::hash::{BuildHasher, RandomState};
use std::thread;
use std::time::Duration;

pub const USAGE: &str = "usage: compare [--call NAME]... [--quick] [--jobs N] [--seed N] [--trace]
       compare --demand3 [--quick] [--jobs N] [--seed N]
       compare --picture [--quick] [--jobs N] [--seed N] [--trace]
       compare --cache [--quick] [--jobs N] [--seed N] [--trace]
       compare --fewest [--quick] [--jobs N] [--seed N] [--trace]
       compare --readers [--quick] [--jobs N] [--seed N] [--trace]
       compare [--picture | --cache | --fewest | --readers] --cases FILE [--trace]
       compare --faults [--cache | --fewest | --readers | --call NAME]...
       compare --minutes N | --rounds N [--jobs N] [--seed N] [--faults]
       compare --sample [--cache]";

/// A quick run takes one case of so many.
const QUICK_STEP: usize = 41;
/// Sets up to this size are compared whole in a quick run too.
const SMALL: usize = 10_000;

pub struct Options {
    calls: Vec<String>,
    quick: bool,
    pub jobs: usize,
    pub seed: u64,
    /// Prints each case before its call.
    pub trace: bool,
    /// Plants faults, to see that they are found.
    pub faults: bool,
    /// Runs demand 3 alone.
    pub demand3: bool,
    /// Runs the row picture alone.
    pub picture: bool,
    /// Runs the calls with kept wraps alone.
    pub cache: bool,
    /// Runs fewest rows alone.
    pub fewest: bool,
    /// Runs the crew's view alone.
    pub readers: bool,
    /// Soaks for so long.
    pub soak: Option<Length>,
    /// Prints the samples of the calls that the source has not, and of drawings for readers.
    pub sample: bool,
    /// Cases to compare in place of the sets.
    pub cases: Option<Cases>,
}

#[derive(Default)]
pub struct Cases {
    /// Of the six calls of document 01.
    pub calls: Vec<Case>,
    pub screen_rows: Vec<screen::Case>,
    /// Of store and restore.
    pub stored: Vec<stored::Case>,
    pub cells: Vec<cells::Case>,
    pub narrowest: Vec<narrowest::Case>,
    /// Of calls with kept wraps.
    pub sequences: Vec<cache::Sequence>,
    /// Drawings that name their reader.
    pub views: Vec<readers::View>,
}

/// The names of the calls that are compared.
pub fn names() -> impl Iterator<Item = &'static str> {
    let [store, restore] = stored::NAMES;
    let further = [screen::NAME, store, restore, cells::NAME, narrowest::NAME];
    Call::NAMES.into_iter().chain(further)
}

impl Options {
    pub fn of(mut arguments: impl Iterator<Item = String>) -> Result<Options, String> {
        let mut options = Options {
            calls: Vec::new(),
            quick: false,
            jobs: 1,
            seed: 1,
            trace: false,
            faults: false,
            demand3: false,
            picture: false,
            cache: false,
            fewest: false,
            readers: false,
            soak: None,
            sample: false,
            cases: None,
        };
        let (mut jobs, mut seed) = (None, None);
        while let Some(argument) = arguments.next() {
            let mut value = || arguments.next().ok_or(format!("{argument} what?"));
            match argument.as_str() {
                "--call" => options.calls.push(call(value()?)?),
                "--quick" => options.quick = true,
                "--jobs" => jobs = Some(number(&value()?)?.max(1) as usize),
                "--seed" => seed = Some(number(&value()?)?),
                "--minutes" => options.soaks().time = minutes(number(&value()?)?),
                "--rounds" => options.soaks().rounds = number(&value()?)? as usize,
                "--trace" => options.trace = true,
                "--faults" => options.faults = true,
                "--demand3" => options.demand3 = true,
                "--picture" => options.picture = true,
                "--cache" => options.cache = true,
                "--fewest" => options.fewest = true,
                "--readers" => options.readers = true,
                "--sample" => options.sample = true,
                "--cases" => options.cases = Some(cases(&value()?)?),
                _ => return Err(format!("no option {argument}")),
            }
        }
        let soaks = options.soak.is_some();
        options.jobs = jobs.unwrap_or(if soaks { cores() } else { 1 });
        options.seed = seed.unwrap_or_else(|| if soaks { fresh_seed() } else { 1 });
        Ok(options)
    }

    /// How long to soak, at first without end.
    fn soaks(&mut self) -> &mut Length {
        self.soak.get_or_insert(Length {
            time: Duration::MAX,
            rounds: usize::MAX,
        })
    }

    pub fn wants(&self, name: &str) -> bool {
        self.calls.is_empty() || self.calls.iter().any(|call| call == name)
    }

    /// Whether no call or case is singled out.
    pub fn is_whole(&self) -> bool {
        self.calls.is_empty() && self.cases.is_none()
    }

    /// Of a set of so many cases; not told where each case is printed.
    pub fn progress(&self, set: String, all: usize) -> Progress {
        if self.trace {
            Progress::none()
        } else {
            Progress::of(set, all)
        }
    }

    /// The step from one case of a set to the next.
    pub fn step(&self, count: usize) -> usize {
        if self.quick && count > SMALL {
            QUICK_STEP
        } else {
            1
        }
    }
}

fn call(name: String) -> Result<String, String> {
    if names().any(|known| known == name) {
        return Ok(name);
    }
    let names: Vec<&str> = names().collect();
    Err(format!("no call {name}; there are {}", names.join(", ")))
}

fn number(text: &str) -> Result<u64, String> {
    text.parse().map_err(|_| format!("not a number: {text}"))
}

fn minutes(count: u64) -> Duration {
    Duration::from_secs(count.saturating_mul(60))
}

fn cores() -> usize {
    thread::available_parallelism().map_or(1, usize::from)
}

/// Another one in each run.
fn fresh_seed() -> u64 {
    RandomState::new().hash_one(0) >> 32
}

/// Lines of the oracle's text format, with or without answers.
fn cases(file: &str) -> Result<Cases, String> {
    let text = fs::read_to_string(file).map_err(|e| format!("{file}: {e}"))?;
    let lines = text.lines().filter(|line| !line.starts_with(['#', ' ']));
    let questions = lines.map(|line| line.split(" = ").next().unwrap_or(line));
    let mut cases = Cases::default();
    for question in questions {
        match question.split(' ').next() {
            Some(screen::NAME) => cases.screen_rows.push(question.parse()?),
            Some(stored::STORE | stored::RESTORE) => cases.stored.push(question.parse()?),
            Some(cells::NAME) => cases.cells.push(question.parse()?),
            Some(narrowest::NAME) => cases.narrowest.push(question.parse()?),
            Some(cache::NAME | cache::RECORDED) => cases.sequences.push(question.parse()?),
            Some(name) if readers::NAMES.contains(&name) => cases.views.push(question.parse()?),
            _ => cases.calls.push(question.parse()?),
        }
    }
    Ok(cases)
}
