//! Notes what the source hands to the stand-ins while it reads a line. The
//! source's spans hold no byte places; the probe finds them from these notes.

use std::cell::RefCell;

/// A stretch of memory: its address and its length in bytes.
#[derive(Clone, Copy, Debug, PartialEq, Eq)]
pub struct Stretch {
    pub address: usize,
    pub len: usize,
}

impl Stretch {
    pub fn of(bytes: &[u8]) -> Stretch {
        Stretch {
            address: bytes.as_ptr() as usize,
            len: bytes.len(),
        }
    }
}

#[derive(Clone, Debug, Default)]
pub struct Notes {
    /// The valid runs read, in order.
    pub runs: Vec<Stretch>,
    /// The sequences recognised at ESC, in order.
    pub sequences: Vec<Stretch>,
    /// The converted line without its final newline, as the search was given it.
    pub trimmed: Option<Stretch>,
    /// The length of the text searched.
    pub searched: Option<usize>,
}

thread_local! {
    static NOTES: RefCell<Option<Notes>> = const { RefCell::new(None) };
}

/// Runs `work` and returns what it did with the notes taken meanwhile.
pub fn noting<T>(work: impl FnOnce() -> T) -> (T, Notes) {
    NOTES.set(Some(Notes::default()));
    let done = work();
    (done, NOTES.take().unwrap_or_default())
}

fn note(add: impl FnOnce(&mut Notes)) {
    NOTES.with_borrow_mut(|notes| {
        if let Some(notes) = notes {
            add(notes);
        }
    });
}

pub fn run(text: &[u8]) {
    note(|notes| notes.runs.push(Stretch::of(text)));
}

pub fn sequence(bytes: &[u8]) {
    note(|notes| notes.sequences.push(Stretch::of(bytes)));
}

pub fn trimmed(bytes: &[u8]) {
    note(|notes| notes.trimmed = Some(Stretch::of(bytes)));
}

pub fn searched(bytes: &[u8]) {
    note(|notes| notes.searched = Some(bytes.len()));
}
