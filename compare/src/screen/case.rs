//! A call of screen_row, in the oracle's text format.

use super::model::screen_row;
use super::{drawn, NAME};
use crate::writing::{Answer, Writing};
use oracle::format::{bytes, hex, number};
use std::fmt;
use std::str::FromStr;

#[derive(Clone, Debug, PartialEq, Eq)]
pub struct Case {
    pub list: Vec<u8>,
    pub width: usize,
    /// How many bytes are lent for the row.
    pub size: usize,
    /// Whether the list is known to be a drawing's.
    pub drawn: bool,
}

impl Case {
    pub fn new(list: &[u8], width: usize, size: usize) -> Case {
        let (list, drawn) = (list.to_vec(), false);
        Case {
            list,
            width,
            size,
            drawn,
        }
    }

    /// The call lent just enough; where it is refused whatever is lent, so much.
    pub fn snug(list: &[u8], width: usize, size: usize) -> Case {
        let answer = screen_row(list, width, usize::MAX);
        let size = if answer.number == 0 {
            answer.count
        } else {
            size
        };
        Case::new(list, width, size)
    }
}

impl Writing for Case {
    fn input(&self) -> &[u8] {
        &self.list
    }

    fn size(&self) -> usize {
        self.size
    }

    fn answer(&self) -> Answer {
        screen_row(&self.list, self.width, self.size)
    }

    fn call(&self, input: &[u8], out: &mut [u8]) -> console_lines::raw::Answer {
        console_lines::raw::screen_row(input, self.width, out)
    }

    fn broken(&self, answer: &Answer) -> Option<String> {
        drawn::broken(self, answer.number)
    }
}

impl fmt::Display for Case {
    fn fmt(&self, f: &mut fmt::Formatter<'_>) -> fmt::Result {
        write!(f, "{NAME} {} {} {}", hex(&self.list), self.width, self.size)
    }
}

impl FromStr for Case {
    type Err = String;

    /// Reads a case, without ` = ` and the answer.
    fn from_str(text: &str) -> Result<Case, String> {
        let fields: Vec<&str> = text.split(' ').collect();
        match fields[..] {
            [NAME, list, width, size] => {
                Ok(Case::new(&bytes(list)?, number(width)?, number(size)?))
            }
            _ => Err(format!("not a case of {NAME}: {text:?}")),
        }
    }
}
