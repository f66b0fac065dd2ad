//! Cases as lines of text: a call with its arguments and lent sizes, ` = `, and
//! its answer.

use crate::answer::{Answer, NONE};
use crate::call::{Call, Case};
use std::fmt;
use std::str::FromStr;

// ---- writing

impl fmt::Display for Case {
    fn fmt(&self, f: &mut fmt::Formatter<'_>) -> fmt::Result {
        write!(f, "{} {}", self.call.name(), hex(&self.line))?;
        for argument in arguments(&self.call) {
            write!(f, " {argument}")?;
        }
        for (size, lent) in self.sizes().iter().zip(self.call.is_lent()) {
            if lent {
                write!(f, " {size}")?;
            }
        }
        Ok(())
    }
}

fn arguments(call: &Call) -> Vec<String> {
    match call {
        Call::Convert => vec![],
        Call::Read { matches } => vec![numbers(matches)],
        Call::Rows { width, mode } | Call::Height { width, mode } => {
            vec![width.to_string(), mode.to_string()]
        }
        Call::DrawWindow {
            matches,
            current,
            start,
            end,
        } => vec![
            numbers(matches),
            current_text(*current),
            start.to_string(),
            end.to_string(),
        ],
        Call::DrawRow {
            matches,
            current,
            first,
            count,
            width,
            mode,
        } => vec![
            numbers(matches),
            current_text(*current),
            first.to_string(),
            count.to_string(),
            width.to_string(),
            mode.to_string(),
        ],
    }
}

impl Case {
    /// The whole line of text.
    pub fn answered(&self) -> String {
        format!("{self} = {}", answer_text(&self.call, &self.answer()))
    }
}

/// An answer as the text behind ` = `; the call tells which buffers were lent.
pub fn answer_text(call: &Call, answer: &Answer) -> String {
    let records = answer.records.iter();
    let records: Vec<usize> = records
        .flat_map(|record| [record.kind, record.place, record.len, record.matched])
        .collect();
    let buffers = [
        buffer(&answer.conv),
        numbers(without_zeros(&records)),
        numbers(without_zeros(&answer.pairs)),
        buffer(&answer.list),
    ];
    let mut text = format!("{} {}", answer.number, answer.count);
    for (buffer, lent) in buffers.iter().zip(call.is_lent()) {
        if lent {
            text += &format!(" {buffer}");
        }
    }
    text
}

fn without_zeros<T: PartialEq + Default>(items: &[T]) -> &[T] {
    let zero = T::default();
    let len = items
        .iter()
        .rposition(|item| *item != zero)
        .map_or(0, |i| i + 1);
    &items[..len]
}

/// The bytes of a buffer, without its trailing zeros.
pub fn buffer(bytes: &[u8]) -> String {
    hex(without_zeros(bytes))
}

pub fn hex(bytes: &[u8]) -> String {
    if bytes.is_empty() {
        return "-".to_string();
    }
    bytes.iter().map(|byte| format!("{byte:02x}")).collect()
}

fn numbers(numbers: &[usize]) -> String {
    if numbers.is_empty() {
        return "-".to_string();
    }
    let texts: Vec<String> = numbers.iter().map(usize::to_string).collect();
    texts.join(",")
}

fn current_text(current: usize) -> String {
    if current == NONE {
        "-".to_string()
    } else {
        current.to_string()
    }
}

// ---- reading

impl FromStr for Case {
    type Err = String;

    /// Reads a case, without ` = ` and the answer.
    fn from_str(text: &str) -> Result<Case, String> {
        let mut fields = Fields(text.split(' '));
        let name = fields.next()?;
        let line = fields.hex()?;
        let call = fields.call(name)?;
        let mut sizes = [0; 4];
        for (size, lent) in sizes.iter_mut().zip(call.is_lent()) {
            if lent {
                *size = fields.number()?;
            }
        }
        match fields.0.next() {
            None => Ok(Case::new(&line, call, sizes)),
            Some(field) => Err(format!("a field too many: {field:?}")),
        }
    }
}

struct Fields<'t>(std::str::Split<'t, char>);

impl<'t> Fields<'t> {
    fn next(&mut self) -> Result<&'t str, String> {
        self.0
            .next()
            .ok_or_else(|| "a field is missing".to_string())
    }

    fn call(&mut self, name: &str) -> Result<Call, String> {
        Ok(match name {
            "convert" => Call::Convert,
            "read" => Call::Read {
                matches: self.numbers()?,
            },
            "rows" => Call::Rows {
                width: self.number()?,
                mode: self.number()?,
            },
            "height" => Call::Height {
                width: self.number()?,
                mode: self.number()?,
            },
            "draw_window" => Call::DrawWindow {
                matches: self.numbers()?,
                current: self.current()?,
                start: self.number()?,
                end: self.number()?,
            },
            "draw_row" => Call::DrawRow {
                matches: self.numbers()?,
                current: self.current()?,
                first: self.number()?,
                count: self.number()?,
                width: self.number()?,
                mode: self.number()?,
            },
            _ => return Err(format!("no call {name:?}")),
        })
    }

    fn hex(&mut self) -> Result<Vec<u8>, String> {
        bytes(self.next()?)
    }

    fn number(&mut self) -> Result<usize, String> {
        number(self.next()?)
    }

    fn numbers(&mut self) -> Result<Vec<usize>, String> {
        match self.next()? {
            "-" => Ok(Vec::new()),
            field => field.split(',').map(number).collect(),
        }
    }

    fn current(&mut self) -> Result<usize, String> {
        match self.next()? {
            "-" => Ok(NONE),
            field => number(field),
        }
    }
}

/// The bytes of a hexadecimal field.
pub fn bytes(field: &str) -> Result<Vec<u8>, String> {
    if field == "-" {
        return Ok(Vec::new());
    }
    let bad = || format!("not bytes: {field:?}");
    let digit = |c: u8| match c {
        b'0'..=b'9' => Ok(c - b'0'),
        b'a'..=b'f' => Ok(c - b'a' + 10),
        _ => Err(bad()),
    };
    let pairs = field.as_bytes().chunks(2);
    pairs
        .map(|pair| match *pair {
            [high, low] => Ok(digit(high)? * 16 + digit(low)?),
            _ => Err(bad()),
        })
        .collect()
}

pub fn number(field: &str) -> Result<usize, String> {
    field
        .parse()
        .map_err(|_| format!("not a number: {field:?}"))
}
