//! The unchanged source files of sapling-streampager 0.12.0 with the least that
//! they need beside them, and a probe for what they keep private.

include!(concat!(env!("OUT_DIR"), "/source.rs"));

#[path = "stand_ins/bindings.rs"]
mod bindings;
#[path = "stand_ins/error.rs"]
mod error;
#[path = "stand_ins/event.rs"]
mod event;
#[path = "stand_ins/file.rs"]
mod file;
#[path = "stand_ins/keymaps.rs"]
mod keymaps;
#[path = "stand_ins/spanset.rs"]
mod spanset;

pub use line::probe;

/// The columns that the source draws for an Unprintable span, by `Span::render`'s format.
fn columns_drawn(grapheme: &str) -> usize {
    use unicode_width::UnicodeWidthStr;
    let mark = |c: char| format!("<U+{:04X}>", c as u32).width();
    grapheme.chars().map(mark).sum()
}
