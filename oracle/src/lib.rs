//! Answers the six calls of document 01 with the unchanged Rust source. The
//! questions are put by document 01's words; question 8's words are compared
//! with the source's panic in every drawing, and a difference is a panic here.

mod answer;
mod call;
pub mod changes;
pub mod coverage;
pub mod drawn;
pub mod format;
pub mod generate;
pub mod noise;
pub mod progress;
pub mod random;
pub mod sample;
pub mod statements;

pub use answer::{check_constructors, check_last_clusters, text_searched_len};
pub use answer::{convert, draw_row, draw_window, height, read, rows};
pub use answer::{Answer, NONE};
pub use call::{ample, Call, Case, Sizes};
pub use streampager::probe::{clip, line_drawn, Record};

/// The source's own functions, without questions, records and checks around them.
pub mod source {
    pub use streampager::probe::{convert, SourceLine};
}
