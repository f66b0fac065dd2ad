//! src/config.rs names a keymap.

#[derive(Clone, Debug, PartialEq, Eq)]
pub struct Keymap;
