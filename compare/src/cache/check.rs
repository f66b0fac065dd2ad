//! Makes the calls of a sequence, and compares what each of them leaves.

use super::model::{Key, Model, Use, Wraps, NUMBERS};
use super::sequence::{Ask, Sequence, Step};
use super::theorem::Theorem;
use crate::comparison::Comparison;
use crate::lent::Lent;
use crate::library::{Library, NUMBER};
use oracle::{Answer, Case};

/// The memory that calls are handed.
pub struct Memory {
    pub library: Library,
    pub wraps: Lent<usize>,
}

impl Memory {
    /// Makes a call of the library, lent the kept wraps as they are.
    pub fn call(&mut self, case: &Case) -> console_lines::raw::Answer {
        let wraps = self.wraps.lent_again();
        let wraps = wraps.try_into().expect("an array of kept wraps");
        self.library.call_by(case, |call, line, _, lent| {
            library_calls::make_cached(call, line, wraps, lent)
        })
    }
}

/// A call: the memory, what is asked, and the same without kept wraps.
pub struct Asked<'a> {
    pub memory: &'a mut Memory,
    pub ask: &'a Ask,
    pub case: &'a Case,
}

/// Answers calls: the library or, where faults are planted, something worse.
pub type Answerer<'a> = dyn FnMut(&mut Asked) -> console_lines::raw::Answer + 'a;

pub fn by_library(asked: &mut Asked) -> console_lines::raw::Answer {
    asked.memory.call(asked.case)
}

/// What a sequence is judged by.
#[derive(Clone, Copy, Debug, PartialEq, Eq)]
pub enum Judge {
    /// The model, and the theorem where it speaks of the sequence.
    Both,
    Model,
    /// The theorem alone, of a sequence that it speaks of.
    Theorem,
}

/// What the calls of a sequence were.
#[derive(Default)]
pub struct Said {
    pub numbers: Vec<usize>,
    pub uses: Vec<Use>,
    /// Whether the theorem was asked, too.
    pub theorem: bool,
}

/// A sequence on its way.
struct Trial<'a> {
    judge: Judge,
    answerer: &'a mut Answerer<'a>,
    theorem: Option<Theorem>,
    said: Said,
}

pub struct Checker {
    memory: Memory,
    model: Model,
}

impl Checker {
    pub fn new() -> Checker {
        Checker {
            memory: Memory {
                library: Library::new(),
                wraps: Lent::new(NUMBER),
            },
            model: Model::new(b""),
        }
    }

    /// Makes all steps; what differs, as text.
    pub fn check<'a>(
        &mut self,
        sequence: &Sequence,
        judge: Judge,
        answerer: &'a mut Answerer<'a>,
    ) -> Result<Said, String> {
        self.memory.wraps.lend(NUMBERS).fill(0);
        self.model.begin(&sequence.line);
        let theorem = judge != Judge::Model && sequence.is_of_calls();
        let mut trial = Trial {
            judge,
            answerer,
            theorem: theorem.then(Theorem::default),
            said: Said {
                theorem,
                ..Said::default()
            },
        };
        let mut steps = sequence.steps.iter().enumerate();
        let steps = steps.try_for_each(|(number, step)| {
            let differs = |text: String| {
                let text = text.replace('\n', "\n  ");
                format!("{}\n  {text}", sequence.up_to(number))
            };
            self.step(step, &mut trial).map_err(differs)
        });
        let around = self.take_back(sequence);
        steps.and(around).map(|()| trial.said)
    }

    fn step(&mut self, step: &Step, trial: &mut Trial) -> Result<(), String> {
        match step {
            Step::Call(ask) => return self.call(ask, trial),
            Step::Line(line) => self.model.set_line(line),
            _ => {
                step.write(self.memory.wraps.lent_again());
                step.write(&mut self.model.array);
            }
        }
        Ok(())
    }

    fn call(&mut self, ask: &Ask, trial: &mut Trial) -> Result<(), String> {
        let case = self.model.case(ask);
        let answer = (trial.answerer)(&mut Asked {
            memory: &mut self.memory,
            ask,
            case: &case,
        });
        let sizes = case.sizes();
        let (modelled, its_use) = self.model.answer(ask, sizes);
        trial.said.numbers.push(modelled.number);
        trial.said.uses.push(its_use);
        if trial.judge != Judge::Theorem {
            self.compare(&case, &modelled, answer)?;
            same_numbers(self.memory.wraps.lent(), &self.model.array)?;
        }
        let Some(theorem) = &mut trial.theorem else {
            return Ok(());
        };
        let unasked = self.model.line.answer(ask, sizes).clone();
        if trial.judge == Judge::Theorem {
            self.compare(&case, &unasked, answer)?;
        } else if modelled != unasked {
            return Err(format!("{case} has another answer where nothing is kept"));
        }
        theorem.call(ask, &unasked);
        same_keys(&Wraps::of(self.memory.wraps.lent()), &theorem.keys())
    }

    /// Compares what the last call returned and left but for the kept wraps.
    fn compare(
        &mut self,
        case: &Case,
        expected: &Answer,
        answer: console_lines::raw::Answer,
    ) -> Result<(), String> {
        let library = &mut self.memory.library;
        match library.difference(case, expected, answer) {
            Some(difference) => Err(difference),
            None if self.memory.wraps.guarded() => Ok(()),
            None => Err("memory around the kept wraps is written".to_string()),
        }
    }

    /// Fills the kept wraps with the pattern again; whether all memory around them has it.
    fn take_back(&mut self, sequence: &Sequence) -> Result<(), String> {
        let wraps = &mut self.memory.wraps;
        wraps.take_back();
        if wraps.untouched() {
            return Ok(());
        }
        wraps.restore();
        Err(format!(
            "{sequence}\n  memory around the kept wraps is written"
        ))
    }
}

fn same_numbers(left: &[usize], expected: &[usize]) -> Result<(), String> {
    if left == expected {
        return Ok(());
    }
    let differs = |place: &usize| left[*place] != expected[*place];
    let places: Vec<usize> = (0..NUMBERS).filter(differs).collect();
    let first = places[0];
    Err(format!(
        "kept wraps: number {first} is {}, not {}; {} of {NUMBERS} differ",
        left[first],
        expected[first],
        places.len()
    ))
}

fn same_keys(left: &Wraps, expected: &[Key]) -> Result<(), String> {
    let keys = left.keys();
    if keys == expected {
        return Ok(());
    }
    Err(format!("keys kept are {keys:?}, not {expected:?}"))
}
