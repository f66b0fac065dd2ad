//! A drawing for a reader, and what is expected of it.

use console_lines::raw::{BENCH, CREW};
use oracle::changes::places;
use oracle::format::answer_text;
use oracle::{Answer, Case};
use std::fmt;
use std::ops::Range;
use std::str::FromStr;

/// The names of recorded cases: those of the calls, with another beginning.
pub const NAMES: [&str; 2] = ["view_window", "view_row"];

/// Where the place and length of the URI stand in an attribute body.
const URI: Range<usize> = 16..24;

#[derive(Clone)]
pub struct View {
    pub case: Case,
    pub reader: usize,
}

impl View {
    /// By the oracle's answer for the bench.
    pub fn answer(&self) -> Answer {
        match self.reader {
            BENCH => self.case.answer(),
            CREW => seen_by_crew(&self.case.answer()),
            _ => Answer {
                number: 18,
                ..Answer::default()
            },
        }
    }

    /// The whole line of text.
    pub fn answered(&self) -> String {
        let answer = answer_text(&self.case.call, &self.answer());
        format!("{self} = {answer}")
    }
}

/// What the crew is answered where the bench is answered this.
pub fn seen_by_crew(bench: &Answer) -> Answer {
    let mut answer = bench.clone();
    for body in bodies(&answer.list) {
        answer.list[body][URI].fill(0);
    }
    answer
}

/// Whether a list names a URI.
pub fn names_uri(list: &[u8]) -> bool {
    let mut bodies = bodies(list).into_iter();
    bodies.any(|body| list[body][URI].iter().any(|&byte| byte > 0))
}

/// Where the attribute bodies of a drawing's list stand.
fn bodies(list: &[u8]) -> Vec<Range<usize>> {
    let changes = places(list).expect("a drawing's list").into_iter();
    let attributes = changes.filter(|(kind, _)| *kind == 2);
    attributes.map(|(_, body)| body).collect()
}

impl fmt::Display for View {
    fn fmt(&self, f: &mut fmt::Formatter<'_>) -> fmt::Result {
        let case = self.case.to_string();
        write!(f, "{} {}", case.replacen("draw_", "view_", 1), self.reader)
    }
}

impl FromStr for View {
    type Err = String;

    fn from_str(text: &str) -> Result<View, String> {
        let (case, reader) = text.rsplit_once(' ').ok_or("no reader")?;
        let case = case.replacen("view_", "draw_", 1).parse()?;
        let reader = reader.parse().map_err(|_| format!("no reader: {text}"))?;
        Ok(View { case, reader })
    }
}
