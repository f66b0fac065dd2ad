//! Another URI of the same length in a URI's stead: nothing that is sent changes.

use super::view::names_uri;
use console_lines::raw::{BENCH, CREW};
use oracle::{Answer, Case};
use std::fmt;

/// A drawing of two lines, alike in all but the URI of a hyperlink.
#[derive(Clone)]
pub struct Pair {
    pub first: Case,
    pub second: Case,
    /// Place and length of the URI.
    pub place: usize,
    pub len: usize,
}

/// The parts of a line with a hyperlink; the URI stands between `opening` and `behind`.
pub struct Line {
    pub before: Vec<u8>,
    pub id: Vec<u8>,
    pub end: &'static [u8],
    pub behind: Vec<u8>,
}

/// Of a pair: whether the drawing is accepted, and names a URI to the bench.
#[derive(Clone, Copy)]
pub struct Said {
    pub accepted: bool,
    pub named: bool,
}

/// Answers a drawing for a reader.
pub type Answers<'a> = dyn FnMut(usize, &Case) -> Result<Answer, String> + 'a;

impl Line {
    pub fn with(&self, uri: &[u8]) -> Vec<u8> {
        let parts = [&self.opening(), uri, self.end, &self.behind];
        parts.concat()
    }

    /// Up to the URI.
    fn opening(&self) -> Vec<u8> {
        [&self.before, &b"\x1B]8;"[..], &self.id, b";"].concat()
    }

    /// A drawing of this line with each of the URIs.
    pub fn pair(&self, uri: &[u8], other: &[u8], draw: impl FnOnce(&[u8]) -> Case) -> Pair {
        let first = draw(&self.with(uri));
        Pair {
            second: first.on(&self.with(other)),
            first,
            place: self.opening().len(),
            len: uri.len(),
        }
    }
}

impl Pair {
    pub fn check(&self, answers: &mut Answers) -> Result<Said, String> {
        let crew = self.check_for(CREW, answers)?;
        let bench = self.check_for(BENCH, answers)?;
        if names_uri(&crew.list[..crew.count]) {
            return Err("# a URI is named to the crew".to_string());
        }
        Ok(Said {
            accepted: bench.number == 0,
            named: names_uri(&bench.list[..bench.count]),
        })
    }

    fn check_for(&self, reader: usize, answers: &mut Answers) -> Result<Answer, String> {
        let (first, second) = (
            answers(reader, &self.first)?,
            answers(reader, &self.second)?,
        );
        let same = [
            ("numbers", first.number == second.number),
            ("counts", first.count == second.count),
            ("spans", first.records == second.records),
            ("change lists", first.list == second.list),
            ("converted lines", self.conv_alike(&first, &second)),
        ];
        match same.iter().find(|(_, same)| !same) {
            Some((what, _)) => Err(format!("# reader {reader}: the {what} differ")),
            None => Ok(first),
        }
    }

    /// Converted lines differ in the URI alone; an accepted drawing holds each line's own.
    fn conv_alike(&self, first: &Answer, second: &Answer) -> bool {
        let places = first.conv.iter().zip(&second.conv).enumerate();
        let uri = self.place..self.place + self.len;
        let alike = places
            .filter(|(place, _)| !uri.contains(place))
            .all(|(_, (a, b))| a == b);
        let own = |answer: &Answer, case: &Case| {
            answer.number > 0 || answer.conv[uri.clone()] == case.line[uri.clone()]
        };
        alike && own(first, &self.first) && own(second, &self.second)
    }
}

impl fmt::Display for Pair {
    fn fmt(&self, f: &mut fmt::Formatter<'_>) -> fmt::Result {
        write!(f, "{}\n{}", self.first, self.second)
    }
}
