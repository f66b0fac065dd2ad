//! Answers that are stated in words: document 01's bench lines, and the corners
//! that docs/DECISIONS.md settles. Each is compared with the source's answer.

mod bench_lines;
mod corners;

pub use bench_lines::{bench_lines, CLIPPINGS};
pub use corners::corners;

use crate::answer::{Answer, NONE};
use crate::call::{Call, Case};
use crate::changes;

/// A case and what is stated of its answer.
pub struct Statement {
    /// Where it stands: "bench", or what the corner is about.
    pub about: &'static str,
    pub case: Case,
    pub says: Says,
}

pub enum Says {
    /// The converted line.
    Converted(Vec<u8>),
    /// The kinds of the spans.
    Kinds(Vec<usize>),
    /// The whole records, flat.
    Records(Vec<usize>),
    /// The rows, flat.
    Rows(Vec<usize>),
    /// The return number.
    Number(usize),
    /// Accepted, with this count.
    Count(usize),
    /// The change list in the short form of `shown`.
    Changes(&'static str),
    /// The same answer as another case gets.
    SameAs(Box<Case>),
}

impl Statement {
    /// What is wrong with the answer, if anything is.
    pub fn fault(&self) -> Option<String> {
        let answer = self.case.answer();
        if self.says.holds(&answer) {
            return None;
        }
        Some(format!("{}: {}", self.about, self.case.answered()))
    }
}

impl Says {
    fn holds(&self, answer: &Answer) -> bool {
        let accepted = answer.number == 0;
        match self {
            Says::Converted(bytes) => accepted && answer.conv == *bytes,
            Says::Kinds(kinds) => {
                accepted
                    && answer
                        .records
                        .iter()
                        .map(|r| r.kind)
                        .eq(kinds.iter().copied())
            }
            Says::Records(flat) => {
                let records = answer.records.iter();
                let numbers = records.flat_map(|r| [r.kind, r.place, r.len, r.matched]);
                accepted && numbers.eq(flat.iter().copied())
            }
            Says::Rows(pairs) => accepted && answer.pairs == *pairs,
            Says::Number(number) => answer.number == *number,
            Says::Count(count) => accepted && answer.count == *count,
            Says::Changes(text) => accepted && shown(&answer.list) == *text,
            Says::SameAs(other) => *answer == other.answer(),
        }
    }
}

/// A change list in short: `t` and the text's bytes, `d` for default attributes,
/// `a` and the attributes' bytes up to the last that is not 0, and behind them `^`
/// where they are raised, `_` where they are lowered, `c` and the colour, `r` for
/// cursor right.
pub fn shown(list: &[u8]) -> String {
    let changes = changes::decode(list).into_iter();
    let texts = changes.map(|(kind, body)| match kind {
        1 => format!("t{}", hex(body)),
        2 => shown_attributes(body),
        3 => format!("c{}", hex(trimmed(body))),
        _ => "r".to_string(),
    });
    texts.collect::<Vec<_>>().join(" ")
}

fn shown_attributes(body: &[u8]) -> String {
    if trimmed(body).is_empty() {
        return "d".to_string();
    }
    let (&alignment, fields) = body.split_last().expect("25 bytes");
    let mark = ["", "^", "_"][usize::from(alignment)];
    format!("a{}{mark}", hex(trimmed(fields)))
}

/// The bytes up to the last that is not 0.
fn trimmed(bytes: &[u8]) -> &[u8] {
    let last = bytes.iter().rposition(|&byte| byte != 0);
    &bytes[..last.map_or(0, |last| last + 1)]
}

fn hex(bytes: &[u8]) -> String {
    bytes.iter().map(|byte| format!("{byte:02X}")).collect()
}

/// Bytes from hexadecimal digits; spaces part them, and the text in quotes
/// stands for its bytes.
pub fn bytes(text: &str) -> Vec<u8> {
    let mut out = Vec::new();
    for (index, part) in text.split('\'').enumerate() {
        if index % 2 == 1 {
            out.extend_from_slice(part.as_bytes());
            continue;
        }
        let digits: Vec<u8> = part.bytes().filter(|b| *b != b' ').collect();
        out.extend(digits.chunks(2).map(|pair| {
            let pair = std::str::from_utf8(pair).expect("digits");
            u8::from_str_radix(pair, 16).expect("digits")
        }));
    }
    out
}

// ---- ample calls

/// Lends more than any line needs.
const AMPLE: usize = 1 << 20;

pub fn convert(line: &[u8]) -> Case {
    Case::new(line, Call::Convert, [8 * line.len(), 0, 0, 0])
}

pub fn read(line: &[u8], matches: &[usize]) -> Case {
    let matches = matches.to_vec();
    let sizes = [8 * line.len(), line.len() + 4, 0, 0];
    Case::new(line, Call::Read { matches }, sizes)
}

pub fn rows(line: &[u8], width: usize, mode: usize) -> Case {
    let sizes = [8 * line.len(), line.len() + 1, 4 * line.len() + 2, 0];
    Case::new(line, Call::Rows { width, mode }, sizes)
}

pub fn height(line: &[u8], width: usize, mode: usize) -> Case {
    let sizes = [8 * line.len(), line.len() + 1, 0, 0];
    Case::new(line, Call::Height { width, mode }, sizes)
}

fn drawing(line: &[u8], call: Call) -> Case {
    Case::new(line, call, [8 * line.len(), line.len() + 4, 0, AMPLE])
}

pub fn draw_window(line: &[u8], start: usize, end: usize) -> Case {
    draw_window_with(line, &[], NONE, start, end)
}

pub fn draw_window_with(
    line: &[u8],
    matches: &[usize],
    current: usize,
    start: usize,
    end: usize,
) -> Case {
    let call = Call::DrawWindow {
        matches: matches.to_vec(),
        current,
        start,
        end,
    };
    drawing(line, call)
}

pub fn draw_row(line: &[u8], first: usize, count: usize, width: usize, mode: usize) -> Case {
    draw_row_with(line, &[], NONE, first, count, width, mode)
}

pub fn draw_row_with(
    line: &[u8],
    matches: &[usize],
    current: usize,
    first: usize,
    count: usize,
    width: usize,
    mode: usize,
) -> Case {
    let call = Call::DrawRow {
        matches: matches.to_vec(),
        current,
        first,
        count,
        width,
        mode,
    };
    drawing(line, call)
}

// ---- saying what is stated

// kinds of spans
const TEXT: usize = 1;
const MATCH: usize = 2;
const CONTROL: usize = 3;
const INVALID: usize = 4;
const UNPRINTABLE: usize = 5;
const STYLE: usize = 6;
const LINK: usize = 7;
const LINE_DRAWING: usize = 8;
const IGNORE: usize = 9;
const TAB: usize = 10;
const CRLF: usize = 11;
const LF: usize = 12;
const ERASE: usize = 13;

/// Gathers statements about one thing.
struct About<'a> {
    about: &'static str,
    list: &'a mut Vec<Statement>,
}

impl About<'_> {
    fn say(&mut self, case: Case, says: Says) {
        let about = self.about;
        self.list.push(Statement { about, case, says });
    }

    fn converts(&mut self, raw: &str, to: &str) {
        self.say(convert(&bytes(raw)), Says::Converted(bytes(to)));
    }

    fn reads(&mut self, raw: &str, kinds: &[usize]) {
        self.matching(raw, &[], kinds);
    }

    fn matching(&mut self, raw: &str, matches: &[usize], kinds: &[usize]) {
        self.say(read(&bytes(raw), matches), Says::Kinds(kinds.to_vec()));
    }

    fn records(&mut self, raw: &str, matches: &[usize], records: &[[usize; 4]]) {
        self.say(read(&bytes(raw), matches), Says::Records(records.concat()));
    }

    fn rows(&mut self, raw: &str, width: usize, mode: usize, pairs: &[(usize, usize)]) {
        let flat = pairs
            .iter()
            .flat_map(|&(start, end)| [start, end])
            .collect();
        self.say(rows(&bytes(raw), width, mode), Says::Rows(flat));
    }

    fn refuses(&mut self, case: Case, number: usize) {
        self.say(case, Says::Number(number));
    }

    fn accepts(&mut self, case: Case) {
        self.say(case, Says::Number(0));
    }

    fn draws(&mut self, raw: &str, start: usize, end: usize, changes: &'static str) {
        self.say(draw_window(&bytes(raw), start, end), Says::Changes(changes));
    }

    /// Drawn in one column.
    fn draws_as(&mut self, raw: &str, changes: &'static str) {
        self.draws(raw, 0, 1, changes);
    }

    fn draws_row(
        &mut self,
        raw: &str,
        [first, count, width, mode]: [usize; 4],
        changes: &'static str,
    ) {
        let case = draw_row(&bytes(raw), first, count, width, mode);
        self.say(case, Says::Changes(changes));
    }
}

fn about<'a>(list: &'a mut Vec<Statement>, about: &'static str) -> About<'a> {
    About { about, list }
}
