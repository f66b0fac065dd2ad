//! narrowest beside its model.

mod case;
mod faults;
mod model;
mod sample;
mod sets;
mod stated;

pub use case::Case;
pub use faults::try_faults;
pub use sets::sets;

use crate::comparison::Comparison;
use crate::library::Library;
use console_lines::raw::WidthAnswer;
use library_calls::Lent;
use model::{Expected, Model};

pub const NAME: &str = "narrowest";

/// Prints the recorded sample, as lines for crates/vectors.
pub fn print_sample() {
    for case in sample::cases() {
        println!("{}", case.answered());
    }
}

/// The memory that the call is handed, and the model of its last line.
pub struct Fitter {
    library: Library,
    model: Model,
}

impl Comparison for Fitter {
    type Case = Case;

    fn new() -> Fitter {
        Fitter {
            library: Library::new(),
            model: Model::new(b""),
        }
    }

    fn compare(&mut self, case: &Case) -> (usize, Option<String>) {
        let expected = self.model.answer(case);
        let answer = self.call(case);
        let difference = self.difference(case, &expected, answer);
        let broken = || self.broken(case, answer);
        (expected.answer.number, difference.or_else(broken))
    }
}

impl Fitter {
    fn call(&mut self, case: &Case) -> WidthAnswer {
        let mut answer = None;
        self.library.call_by(&case.lending(), |_, line, _, lent| {
            let Lent { conv, spans, .. } = lent;
            let Case {
                mode,
                wanted,
                greatest,
                ..
            } = *case;
            let made = console_lines::raw::narrowest(line, mode, wanted, greatest, conv, spans);
            answer = Some(made);
            plain(made)
        });
        answer.expect("an answer")
    }

    /// The difference, as text, between what the last call returned and left and what
    /// is expected. All memory is taken back.
    fn difference(
        &mut self,
        case: &Case,
        expected: &Expected,
        answer: WidthAnswer,
    ) -> Option<String> {
        let same = answer.number == expected.answer.number
            && answer.count == expected.answer.count
            && answer.tried == expected.tried
            && self.library.buffers_hold(&expected.answer);
        let mut faults = Vec::new();
        if !same {
            let left = Expected {
                answer: self.library.whole_answer(plain(answer)),
                tried: answer.tried,
            };
            faults.push(format!("= {left}"));
        }
        faults.extend(self.library.take_back(&case.lending()));
        if faults.is_empty() {
            return None;
        }
        let faults = faults.join("; ");
        Some(format!("{case} = {expected}\n  library: {faults}"))
    }

    /// So many widths are tried at most. What is not so, as text.
    fn broken(&self, case: &Case, answer: WidthAnswer) -> Option<String> {
        let most = self.model.most_tried();
        let within = answer.tried <= most;
        (!within).then(|| format!("{case}\n  {} tried, above {most}", answer.tried))
    }
}

fn plain(answer: WidthAnswer) -> console_lines::raw::Answer {
    let WidthAnswer { number, count, .. } = answer;
    console_lines::raw::Answer { number, count }
}
