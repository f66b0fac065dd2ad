//! store and restore beside their model.

mod case;
mod faults;
mod lists;
mod model;
mod round_trip;
mod sample;
mod sets;
mod stated;

pub use case::Case;
pub use faults::try_faults;
pub use sets::sets;

use crate::writing::Writing;

pub const STORE: &str = "store";
pub const RESTORE: &str = "restore";

/// The calls that a round trip takes.
pub const NAMES: [&str; 2] = [STORE, RESTORE];

/// Prints the recorded sample, as lines for crates/vectors.
pub fn print_sample() {
    for name in NAMES {
        for case in sample::cases(name) {
            println!("{}", case.answered());
        }
    }
}
