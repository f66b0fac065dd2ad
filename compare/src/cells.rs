//! write_cells beside its model, and what converting gives back.

mod case;
mod faults;
mod model;
mod sample;
mod sets;
mod stated;

pub use case::Case;
pub use faults::try_faults;
pub use sets::sets;

use crate::writing::Writing;

pub const NAME: &str = "write_cells";

/// Prints the recorded sample, as lines for crates/vectors.
pub fn print_sample() {
    for case in sample::cases() {
        println!("{}", case.answered());
    }
}
