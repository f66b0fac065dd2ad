//! src/search.rs searches a file; here files are left out, and there is only an
//! empty one.

#![allow(dead_code)]

use std::borrow::Cow;

pub type FileIndex = usize;

pub const DEFAULT_NEEDED_LINES: usize = 5000;

pub trait FileInfo {
    fn index(&self) -> FileIndex;
    fn loaded(&self) -> bool;
    fn lines(&self) -> usize;
    fn with_line<T, F>(&self, index: usize, call: F) -> Option<T>
    where
        F: FnMut(Cow<'_, [u8]>) -> T;
}

#[derive(Clone)]
pub struct File;

impl FileInfo for File {
    fn index(&self) -> FileIndex {
        0
    }

    fn loaded(&self) -> bool {
        true
    }

    fn lines(&self) -> usize {
        0
    }

    fn with_line<T, F>(&self, _index: usize, _call: F) -> Option<T>
    where
        F: FnMut(Cow<'_, [u8]>) -> T,
    {
        None
    }
}
