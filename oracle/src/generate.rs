//! Random lines and calls, for programs that compare answers.

mod call;
mod line;

pub use call::{case, case_on, reading};
pub use call::{current, matches, mode, row_number, size, width, window};
pub use line::{any_line, boundaries, line, utf8, NOISE, SINGLE_PARAMETERS};
