//! The calls of the library that one job makes, each compared with the source's answer.

use super::found::Found;
use super::mix::{Mix, NOISY};
use crate::comparison::Comparison;
use crate::faults::faults;
use crate::lending;
use crate::library::Library;
use crate::readers::seen_by_crew;
use console_lines::raw::{Answer as Returned, CREW};
use oracle::noise::{Exchange, Half, Said, Separation};
use oracle::progress::Progress;
use oracle::random::Random;
use oracle::{Answer, Case};

/// One of so many calls has a fault planted, where faults are.
const PLANTED_ONE_IN: usize = 1_000;

pub struct Job<'s> {
    library: Library,
    found: Found,
    mix: &'s Mix,
    seed: u64,
    progress: &'s Progress,
}

impl<'s> Job<'s> {
    pub fn new(mix: &'s Mix, seed: u64, progress: &'s Progress) -> Job<'s> {
        Job {
            library: Library::new(),
            found: Found::default(),
            mix,
            seed,
            progress,
        }
    }

    pub fn found(self) -> Found {
        self.found
    }

    /// Makes the calls of a round, with or without faults planted.
    pub fn round(&mut self, round: usize, faults: bool) {
        let mut random = Random::of_case(self.seed, round);
        let mut planted = faults.then(|| Random::of_case(!self.seed, round));
        for (set, number) in self.mix.numbers(round) {
            let (just, answer) = set.just(&mut random, number);
            self.compare(&just, &answer, planted.as_mut());
            let around = lending::around_just(&mut random, &just);
            if around != just {
                self.compare(&around, &around.answer(), planted.as_mut());
            }
        }
        for _ in 0..NOISY {
            let said = self.check(&Separation::random(&mut random));
            self.found.separation.count(said);
            let said = self.check(&Exchange::random(&mut random));
            self.found.exchange.count(said);
        }
        self.found.rounds += 1;
    }

    /// Makes a call, and a drawing for the crew, too.
    fn compare(&mut self, case: &Case, expected: &Answer, mut planted: Option<&mut Random>) {
        let answer = self.library.call(case);
        self.judge(case, expected, answer, planted.as_deref_mut());
        if case.call.is_drawing() {
            let answer = self.library.call_for(CREW, case);
            self.judge(case, &seen_by_crew(expected), answer, planted);
        }
    }

    /// Checks a line of demand 3. Each call is compared with the source's answer, too.
    fn check<H: Half>(&mut self, line: &H) -> Result<Said, String> {
        line.check(&mut |case| {
            let answer = self.library.call(case);
            let whole = self.library.whole_answer(answer);
            self.judge(case, &case.answer(), answer, None);
            whole
        })
    }

    /// Compares what the last call returned and left with what is expected.
    fn judge(
        &mut self,
        case: &Case,
        expected: &Answer,
        mut answer: Returned,
        planted: Option<&mut Random>,
    ) {
        let fault = planted.and_then(|random| self.plant(random, &mut answer));
        let mut difference = self.library.difference(case, expected, answer);
        if let Some(fault) = fault {
            let found = difference.take().is_some();
            self.found.count_planted(format!("{case}: {fault}"), found);
        }
        self.found.count(case, answer, expected.number, difference);
        self.progress.advance(1);
    }

    /// Plants a fault now and then, where there is room for it; which one.
    fn plant(&mut self, random: &mut Random, answer: &mut Returned) -> Option<String> {
        if random.below(PLANTED_ONE_IN) > 0 {
            return None;
        }
        let fault = random.pick(&faults());
        let planted = self.library.plant(fault, answer);
        planted.then(|| fault.to_string())
    }
}
