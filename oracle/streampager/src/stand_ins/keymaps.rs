//! src/config.rs loads a keymap by its name.

#![allow(dead_code)]

use crate::bindings::Keymap;
use crate::error::Result;

pub fn load(_name: &str) -> Result<Keymap> {
    Ok(Keymap)
}
