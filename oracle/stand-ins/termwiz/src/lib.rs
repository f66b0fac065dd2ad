//! Stands in for termwiz: the types that the source names, and the sequences of
//! document 01, "Spans".

pub mod cell;
pub mod color;
pub mod escape;
pub mod hyperlink;
pub mod surface;
