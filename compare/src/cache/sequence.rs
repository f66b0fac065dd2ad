//! Calls in turn with the same kept wraps, as text.

use super::model::Key;
use oracle::format::{bytes, hex, number};
use oracle::random::Random;
use oracle::Call;
use std::fmt;
use std::str::FromStr;

/// What a sequence's text begins with, and what that of a recorded one does.
pub const NAME: &str = "sequence";
pub const RECORDED: &str = "cached";

/// A call for rows or for height.
#[derive(Clone, Copy, Debug, PartialEq, Eq)]
pub struct Ask {
    /// Whether the rows are asked for, or the height.
    pub rows: bool,
    pub width: usize,
    pub mode: usize,
    /// How much is lent above the need, or below it: bytes, spans and numbers.
    pub lent: [isize; 3],
}

impl Ask {
    /// Lent just enough.
    pub fn new(rows: bool, width: usize, mode: usize) -> Ask {
        let lent = [0; 3];
        Ask {
            rows,
            width,
            mode,
            lent,
        }
    }

    pub fn key(&self) -> Key {
        [0, self.width, self.mode]
    }

    pub fn is_unwrapped_height(&self) -> bool {
        !self.rows && self.mode == 0
    }

    /// The same asked without kept wraps.
    pub fn call(&self) -> Call {
        let (width, mode) = (self.width, self.mode);
        match self.rows {
            true => Call::Rows { width, mode },
            false => Call::Height { width, mode },
        }
    }
}

#[derive(Clone, Debug, PartialEq, Eq)]
pub enum Step {
    Call(Ask),
    /// Another line from here on.
    Line(Vec<u8>),
    /// Something else writes numbers from a place on.
    Write(usize, Vec<usize>),
    /// Something else writes one number everywhere.
    Fill(usize),
    /// Something else writes any numbers, made from a seed.
    Any(u64),
}

impl Step {
    /// What something else writes.
    pub fn write(&self, array: &mut [usize]) {
        match self {
            Step::Call(_) | Step::Line(_) => (),
            Step::Write(place, numbers) => {
                array[*place..][..numbers.len()].copy_from_slice(numbers)
            }
            Step::Fill(number) => array.fill(*number),
            Step::Any(seed) => {
                let mut random = Random::new(*seed);
                array.fill_with(|| random.number() as usize)
            }
        }
    }
}

/// Steps that begin with none kept.
#[derive(Clone, Debug, PartialEq, Eq)]
pub struct Sequence {
    pub line: Vec<u8>,
    pub steps: Vec<Step>,
}

impl Sequence {
    pub fn of_calls(line: &[u8], calls: impl IntoIterator<Item = Ask>) -> Sequence {
        Sequence {
            line: line.to_vec(),
            steps: calls.into_iter().map(Step::Call).collect(),
        }
    }

    /// Whether it has one line, and nothing else writes the kept wraps.
    pub fn is_of_calls(&self) -> bool {
        let mut steps = self.steps.iter();
        steps.all(|step| matches!(step, Step::Call(_)))
    }

    /// The calls.
    pub fn calls(&self) -> impl Iterator<Item = &Ask> {
        self.steps.iter().filter_map(|step| match step {
            Step::Call(ask) => Some(ask),
            _ => None,
        })
    }

    /// The same up to the step of a number.
    pub fn up_to(&self, number: usize) -> Sequence {
        Sequence {
            line: self.line.clone(),
            steps: self.steps[..=number].to_vec(),
        }
    }

    /// The text of a recorded one, which has calls only, each lent just enough.
    pub fn recorded(&self) -> String {
        let name = |ask: &Ask| if ask.rows { "rows" } else { "height" };
        let calls = self.calls();
        let calls = calls.map(|ask| format!(" {} {} {}", name(ask), ask.width, ask.mode));
        format!(
            "{RECORDED} {}{}",
            hex(&self.line),
            calls.collect::<String>()
        )
    }
}

// ---- text

impl fmt::Display for Sequence {
    fn fmt(&self, f: &mut fmt::Formatter<'_>) -> fmt::Result {
        write!(f, "{NAME} {}", hex(&self.line))?;
        for step in &self.steps {
            write!(f, " {step}")?;
        }
        Ok(())
    }
}

impl fmt::Display for Step {
    fn fmt(&self, f: &mut fmt::Formatter<'_>) -> fmt::Result {
        match self {
            Step::Call(ask) => ask.fmt(f),
            Step::Line(line) => write!(f, "l{}", hex(line)),
            Step::Write(place, numbers) => {
                let numbers = numbers.iter().copied();
                write!(f, "w{}", list([*place].into_iter().chain(numbers)))
            }
            Step::Fill(number) => write!(f, "f{number}"),
            Step::Any(seed) => write!(f, "s{seed}"),
        }
    }
}

impl fmt::Display for Ask {
    fn fmt(&self, f: &mut fmt::Formatter<'_>) -> fmt::Result {
        let name = if self.rows { 'r' } else { 'h' };
        write!(f, "{name}{},{}", self.width, self.mode)?;
        if self.lent != [0; 3] {
            let [conv, spans, rows] = self.lent;
            write!(f, ",{conv},{spans},{rows}")?;
        }
        Ok(())
    }
}

/// Numbers parted by commas; `-` for none.
pub fn list(numbers: impl Iterator<Item = usize>) -> String {
    let texts: Vec<String> = numbers.map(|number| number.to_string()).collect();
    match texts[..] {
        [] => "-".to_string(),
        _ => texts.join(","),
    }
}

fn numbers(field: &str) -> Result<Vec<usize>, String> {
    match field {
        "-" => Ok(Vec::new()),
        _ => field.split(',').map(number).collect(),
    }
}

impl FromStr for Sequence {
    type Err = String;

    /// Reads a sequence, or a recorded one without ` = ` and the answers.
    fn from_str(text: &str) -> Result<Sequence, String> {
        let fields: Vec<&str> = text.split(' ').collect();
        match fields[..] {
            [NAME, line, ref steps @ ..] => {
                let steps = steps.iter().map(|step| step.parse());
                Ok(Sequence {
                    line: bytes(line)?,
                    steps: steps.collect::<Result<_, _>>()?,
                })
            }
            [RECORDED, line, ref calls @ ..] => {
                let calls = calls.chunks(3).map(|call| match *call {
                    ["rows", width, mode] => Ok(Ask::new(true, number(width)?, number(mode)?)),
                    ["height", width, mode] => Ok(Ask::new(false, number(width)?, number(mode)?)),
                    _ => Err(format!("not a call: {call:?}")),
                });
                let calls: Vec<Ask> = calls.collect::<Result<_, _>>()?;
                Ok(Sequence::of_calls(&bytes(line)?, calls))
            }
            _ => Err(format!("not a sequence: {text:?}")),
        }
    }
}

impl FromStr for Step {
    type Err = String;

    fn from_str(text: &str) -> Result<Step, String> {
        let bad = || format!("not a step: {text:?}");
        let (kind, rest) = text.split_at_checked(1).ok_or_else(bad)?;
        match kind {
            "r" | "h" => Ok(Step::Call(asked(kind == "r", rest).ok_or_else(bad)?)),
            "l" => Ok(Step::Line(bytes(rest)?)),
            "w" => match numbers(rest)?[..] {
                [place, ref numbers @ ..] => Ok(Step::Write(place, numbers.to_vec())),
                [] => Err(bad()),
            },
            "f" => Ok(Step::Fill(number(rest)?)),
            "s" => Ok(Step::Any(number(rest)? as u64)),
            _ => Err(bad()),
        }
    }
}

/// Width and mode, and how much is lent.
fn asked(rows: bool, text: &str) -> Option<Ask> {
    let fields: Vec<&str> = text.split(',').collect();
    let [width, mode, ref lent @ ..] = fields[..] else {
        return None;
    };
    let mut ask = Ask::new(rows, width.parse().ok()?, mode.parse().ok()?);
    if let [conv, spans, rows] = *lent {
        ask.lent = [conv.parse().ok()?, spans.parse().ok()?, rows.parse().ok()?];
        return Some(ask);
    }
    lent.is_empty().then_some(ask)
}
