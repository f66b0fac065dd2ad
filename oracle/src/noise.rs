//! Demand 3 by document 01's words ("Noise separation"), said of any program that
//! answers the calls: of the source, and of the library.

mod exchange;
mod separation;

pub use exchange::Exchange;
pub use separation::Separation;

use crate::answer::{Answer, NONE};
use crate::call::{Call, Case};
use crate::generate::NOISE;
use crate::random::Random;

/// The kind of a damaged byte's span.
const INVALID: usize = 4;

/// Answers calls. The buffers may stand without the zeros behind what was written.
pub type Program<'p> = dyn FnMut(&Case) -> Answer + 'p;

/// A case of one half of the demand.
pub trait Half: Sized {
    const NAME: &'static str;
    /// What `Said::further` counts.
    const FURTHER: &'static str;

    fn random(random: &mut Random) -> Self;

    /// Every case of short lines.
    fn short() -> impl Iterator<Item = Self>;

    /// The names of the calls that it makes.
    fn calls(&self) -> Vec<&'static str>;

    /// What the program's answers say of it, or what is wrong with them.
    fn check(&self, program: &mut Program) -> Result<Said, String>;
}

/// What was said of a case.
#[derive(Clone, Copy, Default)]
pub struct Said {
    /// Separation: the reading was accepted. Exchange: the calls were.
    pub accepted: bool,
    /// Separation: another accepted call's records were compared. Exchange: the
    /// change lists have other digits.
    pub further: bool,
}

/// How many cases were run, and of how many something was said.
#[derive(Clone, Copy, Default)]
pub struct Counts {
    pub cases: usize,
    pub accepted: usize,
    pub further: usize,
}

impl Counts {
    pub fn count(&mut self, said: Said) {
        self.cases += 1;
        self.accepted += usize::from(said.accepted);
        self.further += usize::from(said.further);
    }

    pub fn add(&mut self, other: Counts) {
        self.cases += other.cases;
        self.accepted += other.accepted;
        self.further += other.further;
    }
}

fn is_noise(byte: &u8) -> bool {
    NOISE.contains(byte)
}

/// What short lines are made of.
type Symbols = &'static [&'static [u8]];

/// All lines of at most `most` symbols, shorter ones first.
fn short_lines(symbols: Symbols, most: usize) -> Vec<Vec<u8>> {
    let mut lines = vec![Vec::new()];
    let mut begin = 0;
    for _ in 0..most {
        let end = lines.len();
        for index in begin..end {
            for symbol in symbols {
                lines.push([&lines[index][..], symbol].concat());
            }
        }
        begin = end;
    }
    lines
}

/// A drawing without matches.
fn window(start: usize, end: usize) -> Call {
    Call::DrawWindow {
        matches: Vec::new(),
        current: NONE,
        start,
        end,
    }
}

fn row(first: usize, count: usize, width: usize, mode: usize) -> Call {
    Call::DrawRow {
        matches: Vec::new(),
        current: NONE,
        first,
        count,
        width,
        mode,
    }
}

fn reading() -> Call {
    Call::Read {
        matches: Vec::new(),
    }
}
