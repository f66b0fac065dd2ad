//! A call of store or restore, in the oracle's text format.

use super::model::{restore, store};
use super::round_trip::{round_trip, Calls};
use super::{RESTORE, STORE};
use crate::writing::{Answer, Writing};
use oracle::format::{bytes, hex, number};
use std::fmt;
use std::str::FromStr;

#[derive(Clone, Debug, PartialEq, Eq)]
pub struct Case {
    /// Whether a stored list is restored.
    pub back: bool,
    /// The change list, or the stored one.
    pub list: Vec<u8>,
    /// How many bytes are lent for the result.
    pub size: usize,
}

impl Case {
    pub fn store(list: &[u8], size: usize) -> Case {
        let (back, list) = (false, list.to_vec());
        Case { back, list, size }
    }

    pub fn restore(list: &[u8], size: usize) -> Case {
        let (back, list) = (true, list.to_vec());
        Case { back, list, size }
    }

    pub fn name(&self) -> &'static str {
        if self.back {
            RESTORE
        } else {
            STORE
        }
    }

    /// The same lent just enough; where it is refused whatever is lent, as before.
    pub fn snug(self) -> Case {
        let ample = self.clone().lent(usize::MAX).answer();
        match ample.number {
            0 => self.lent(ample.count),
            _ => self,
        }
    }

    pub fn lent(self, size: usize) -> Case {
        Case { size, ..self }
    }
}

impl Writing for Case {
    fn input(&self) -> &[u8] {
        &self.list
    }

    fn size(&self) -> usize {
        self.size
    }

    fn answer(&self) -> Answer {
        if self.back {
            restore(&self.list, self.size)
        } else {
            store(&self.list, self.size)
        }
    }

    fn call(&self, input: &[u8], out: &mut [u8]) -> console_lines::raw::Answer {
        if self.back {
            console_lines::raw::restore(input, out)
        } else {
            console_lines::raw::store(input, out)
        }
    }

    fn broken(&self, answer: &Answer) -> Option<String> {
        if answer.number != 0 {
            return None;
        }
        let broken = round_trip(&self.list, self.back, Calls::LIBRARY).err()?;
        Some(format!("{self}\n  there and back: {broken}"))
    }
}

impl fmt::Display for Case {
    fn fmt(&self, f: &mut fmt::Formatter<'_>) -> fmt::Result {
        write!(f, "{} {} {}", self.name(), hex(&self.list), self.size)
    }
}

impl FromStr for Case {
    type Err = String;

    /// Reads a case, without ` = ` and the answer.
    fn from_str(text: &str) -> Result<Case, String> {
        let fields: Vec<&str> = text.split(' ').collect();
        match fields[..] {
            [STORE, list, size] => Ok(Case::store(&bytes(list)?, number(size)?)),
            [RESTORE, list, size] => Ok(Case::restore(&bytes(list)?, number(size)?)),
            _ => Err(format!("not a case of {STORE} or {RESTORE}: {text:?}")),
        }
    }
}
