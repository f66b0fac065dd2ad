//! A call of narrowest, in the oracle's text format.

use super::model::Model;
use super::NAME;
use oracle::format::{bytes, hex, number};
use oracle::{Call, Case as Asked};
use std::fmt;
use std::str::FromStr;

#[derive(Clone, Debug, PartialEq, Eq)]
pub struct Case {
    pub line: Vec<u8>,
    pub mode: usize,
    pub wanted: usize,
    pub greatest: usize,
    /// Bytes of the conversion buffer and places of the span list that are lent.
    pub lent: [usize; 2],
}

impl Case {
    /// The call lent just enough.
    pub fn snug(line: &[u8], mode: usize, wanted: usize, greatest: usize) -> Case {
        Case {
            line: line.to_vec(),
            mode,
            wanted,
            greatest,
            lent: need(line),
        }
    }

    /// The call for the height, which reads the line alike and is lent the same.
    pub fn lending(&self) -> Asked {
        let (width, mode) = (self.greatest, self.mode);
        let [conv, spans] = self.lent;
        Asked::new(
            &self.line,
            Call::Height { width, mode },
            [conv, spans, 0, 0],
        )
    }

    /// The whole line of text.
    pub fn answered(&self) -> String {
        format!("{self} = {}", Model::new(&self.line).answer(self))
    }
}

/// What reading the line needs; a line that is too long is not read.
pub fn need(line: &[u8]) -> [usize; 2] {
    let matches = Vec::new();
    let reading = Call::Read { matches }.ample_answer(line);
    [8 * line.len(), reading.count]
}

impl fmt::Display for Case {
    fn fmt(&self, f: &mut fmt::Formatter<'_>) -> fmt::Result {
        let Case {
            line,
            mode,
            wanted,
            greatest,
            lent: [conv, spans],
        } = self;
        let line = hex(line);
        write!(f, "{NAME} {line} {mode} {wanted} {greatest} {conv} {spans}")
    }
}

impl FromStr for Case {
    type Err = String;

    /// Reads a case, without ` = ` and the answer.
    fn from_str(text: &str) -> Result<Case, String> {
        let fields: Vec<&str> = text.split(' ').collect();
        match fields[..] {
            [NAME, line, mode, wanted, greatest, conv, spans] => Ok(Case {
                line: bytes(line)?,
                mode: number(mode)?,
                wanted: number(wanted)?,
                greatest: number(greatest)?,
                lent: [number(conv)?, number(spans)?],
            }),
            _ => Err(format!("not a case of {NAME}: {text:?}")),
        }
    }
}
