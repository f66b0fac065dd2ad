//! screen_row beside its model.

mod case;
pub mod changes;
pub mod drawn;
pub mod lists;
mod model;
mod sample;
mod sets;
mod stated;

pub use case::Case;
pub use sets::sets;

use crate::writing::{try_marks, Writing};

pub const NAME: &str = "screen_row";

/// Prints the recorded sample, as lines for crates/vectors.
pub fn print_sample() {
    for case in sample::cases() {
        println!("{}", case.answered());
    }
}

/// Plants faults in the cases of the recorded sample; whether all were found.
pub fn try_faults() -> bool {
    try_marks(NAME, &sample::cases())
}
