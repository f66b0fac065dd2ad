//! What a soak has found.

use super::lengths::Lengths;
use crate::tally::{grouped, Differences, Tally};
use console_lines::raw::Answer;
use oracle::noise::{Counts, Exchange, Half, Said, Separation};
use oracle::{Call, Case};
use std::hash::{DefaultHasher, Hash, Hasher};

#[derive(Default)]
pub struct Found {
    pub rounds: usize,
    /// Of each of the six calls.
    calls: [Tally; Call::NAMES.len()],
    lengths: Lengths,
    pub separation: Noisy,
    pub exchange: Noisy,
    /// How many faults were planted, and those that were not found.
    planted: usize,
    missed: Differences,
    /// Of all calls and what they returned, in whatever order.
    checksum: u64,
}

impl Found {
    /// Counts a call that returned this; `expected` is the number of the source's answer.
    pub fn count(
        &mut self,
        case: &Case,
        answer: Answer,
        expected: usize,
        difference: Option<String>,
    ) {
        let name = case.call.name();
        if let Some(call) = Call::NAMES.iter().position(|known| *known == name) {
            self.calls[call].count(expected, difference);
        }
        self.lengths.count(case.line.len());
        let mut hasher = DefaultHasher::new();
        (case, answer.number, answer.count).hash(&mut hasher);
        self.checksum = self.checksum.wrapping_add(hasher.finish());
    }

    /// Counts a fault, told by a text, and whether it was found.
    pub fn count_planted(&mut self, fault: String, found: bool) {
        self.planted += 1;
        if !found {
            self.missed.push(fault);
        }
    }

    pub fn add(&mut self, other: Found) {
        self.rounds += other.rounds;
        for (tally, more) in self.calls.iter_mut().zip(other.calls) {
            tally.add(more);
        }
        self.lengths.add(&other.lengths);
        self.separation.add(other.separation);
        self.exchange.add(other.exchange);
        self.planted += other.planted;
        self.missed.add(other.missed);
        self.checksum = self.checksum.wrapping_add(other.checksum);
    }

    /// How many calls of the library there are.
    pub fn all_calls(&self) -> usize {
        self.calls.iter().map(|tally| tally.cases).sum()
    }

    /// How many of them differ.
    pub fn differ(&self) -> usize {
        let differences = self.calls.iter().map(|tally| tally.differences.count);
        differences.sum()
    }

    /// How many lines break demand 3.
    pub fn broken(&self) -> usize {
        self.separation.broken.count + self.exchange.broken.count
    }

    /// Whether each call was made and accepted, and something said of each half.
    pub fn is_whole(&self) -> bool {
        let halves = [&self.separation, &self.exchange];
        self.calls.iter().all(|tally| tally.cases > 0)
            && halves.iter().all(|half| half.counts.accepted > 0)
    }

    pub fn print(&self) {
        for (name, tally) in Call::NAMES.iter().zip(&self.calls) {
            let [calls, differ] = [tally.cases, tally.differences.count].map(grouped);
            println!(
                "{name}: {calls} calls, {differ} differ; {}",
                tally.numbers()
            );
            tally.differences.print();
        }
        self.separation.print::<Separation>();
        self.exchange.print::<Exchange>();
        println!("{}", self.lengths);
        let rounds = self.rounds;
        println!("checksum of {rounds} rounds: {:016x}", self.checksum);
    }

    /// Prints how many faults were planted and found; whether all were.
    pub fn print_planted(&self) -> bool {
        self.missed.print();
        let found = self.planted - self.missed.count;
        let [found, planted] = [found, self.planted].map(grouped);
        println!("{found} of {planted} planted faults found");
        self.planted > 0 && self.missed.count == 0
    }
}

/// What was found of one half of demand 3.
#[derive(Default)]
pub struct Noisy {
    counts: Counts,
    broken: Differences,
}

impl Noisy {
    pub fn count(&mut self, said: Result<Said, String>) {
        self.counts
            .count(*said.as_ref().unwrap_or(&Said::default()));
        if let Err(text) = said {
            self.broken.push(text);
        }
    }

    fn add(&mut self, other: Noisy) {
        self.counts.add(other.counts);
        self.broken.add(other.broken);
    }

    fn print<H: Half>(&self) {
        let Counts {
            cases,
            accepted,
            further,
        } = self.counts;
        let [lines, accepted, further] = [cases, accepted, further].map(grouped);
        let (half, what, broken) = (H::NAME, H::FURTHER, grouped(self.broken.count));
        println!("demand 3, {half}: {lines} lines, {broken} broken; {accepted} accepted, {further} {what}");
        self.broken.print();
    }
}
