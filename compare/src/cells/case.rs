//! A call of write_cells, in the oracle's text format.

use super::model::{styled, write_cells};
use super::NAME;
use crate::writing::{Answer, Writing};
use oracle::format::{bytes, hex, number};
use oracle::source;
use std::fmt;
use std::str::FromStr;

#[derive(Clone, Debug, PartialEq, Eq)]
pub struct Case {
    pub cells: Vec<u8>,
    /// How many bytes are lent for what is written.
    pub size: usize,
}

impl Case {
    pub fn new(cells: &[u8], size: usize) -> Case {
        let cells = cells.to_vec();
        Case { cells, size }
    }

    /// The call lent just enough; where it is refused whatever is lent, so much.
    pub fn snug(cells: &[u8], size: usize) -> Case {
        let answer = write_cells(cells, usize::MAX);
        match answer.number {
            0 => Case::new(cells, answer.count),
            _ => Case::new(cells, size),
        }
    }
}

impl Writing for Case {
    fn input(&self) -> &[u8] {
        &self.cells
    }

    fn size(&self) -> usize {
        self.size
    }

    fn answer(&self) -> Answer {
        write_cells(&self.cells, self.size)
    }

    fn call(&self, input: &[u8], out: &mut [u8]) -> console_lines::raw::Answer {
        console_lines::raw::write_cells(input, out)
    }

    fn broken(&self, answer: &Answer) -> Option<String> {
        if answer.number != 0 {
            return None;
        }
        let broken = not_converted(&self.cells, &answer.out)?;
        Some(format!("{self}\n  {broken}"))
    }
}

/// Converting what was written gives the cells' bytes with the orders of their styles, by
/// the source and by the library lent just enough. What is not so, as text.
pub fn not_converted(cells: &[u8], written: &[u8]) -> Option<String> {
    let styled = styled(cells);
    let by_source = source::convert(written);
    if *by_source != styled[..] {
        return Some(format!("the source converts it to {}", hex(&by_source)));
    }
    let mut conv = vec![0xA7; 8 * written.len()];
    let answer = console_lines::raw::convert(written, &mut conv);
    let (line, rest) = conv.split_at(answer.count.min(conv.len()));
    let zeros = rest.iter().all(|&byte| byte == 0);
    if answer.number == 0 && line == styled && zeros {
        return None;
    }
    let console_lines::raw::Answer { number, count } = answer;
    Some(format!(
        "console_convert gives {number} {count} {}",
        hex(&conv)
    ))
}

impl fmt::Display for Case {
    fn fmt(&self, f: &mut fmt::Formatter<'_>) -> fmt::Result {
        write!(f, "{NAME} {} {}", hex(&self.cells), self.size)
    }
}

impl FromStr for Case {
    type Err = String;

    /// Reads a case, without ` = ` and the answer.
    fn from_str(text: &str) -> Result<Case, String> {
        let fields: Vec<&str> = text.split(' ').collect();
        match fields[..] {
            [NAME, cells, size] => Ok(Case::new(&bytes(cells)?, number(size)?)),
            _ => Err(format!("not a case of {NAME}: {text:?}")),
        }
    }
}
