//! Stands in for regex: ESCAPE_SEQUENCE, that one pattern written by hand, and
//! the search, whose matches come from the caller (document 01, "Match ranges
//! come from the caller").

#[derive(Debug)]
pub struct Error;

pub mod bytes {
    use super::Error;
    use std::borrow::Cow;

    /// The pattern of src/search.rs, ESCAPE_SEQUENCE.
    const ESCAPE_SEQUENCE: &str = "\x1B\\[[0123456789:;\\[?!\"'#%()*+ ]{0,32}m";
    const CLASS: &[u8] = b"0123456789:;[?!\"'#%()*+ ";

    #[derive(Clone, Debug)]
    pub enum Regex {
        EscapeSequence,
        Search(Vec<(usize, usize)>),
    }

    #[derive(Clone, Copy, Debug)]
    pub struct Match {
        start: usize,
        end: usize,
    }

    impl Match {
        pub fn start(&self) -> usize {
            self.start
        }

        pub fn end(&self) -> usize {
            self.end
        }
    }

    pub struct NoExpand<'t>(pub &'t [u8]);

    impl Regex {
        pub fn new(pattern: &str) -> Result<Regex, Error> {
            match pattern {
                ESCAPE_SEQUENCE => Ok(Regex::EscapeSequence),
                _ => Err(Error),
            }
        }

        /// The source asks this of ESCAPE_SEQUENCE only.
        pub fn is_match(&self, text: &[u8]) -> bool {
            trace::trimmed(text);
            self.find_iter(text).next().is_some()
        }

        pub fn find_iter(&self, text: &[u8]) -> std::vec::IntoIter<Match> {
            match self {
                Regex::EscapeSequence => escapes(text).into_iter(),
                Regex::Search(ranges) => {
                    trace::searched(text);
                    let matches = ranges.iter().map(|&(start, end)| Match { start, end });
                    matches.collect::<Vec<_>>().into_iter()
                }
            }
        }

        pub fn replace_all<'t>(&self, text: &'t [u8], by: NoExpand<'_>) -> Cow<'t, [u8]> {
            let mut out = Vec::with_capacity(text.len());
            let mut place = 0;
            for found in self.find_iter(text) {
                out.extend_from_slice(&text[place..found.start]);
                out.extend_from_slice(by.0);
                place = found.end;
            }
            out.extend_from_slice(&text[place..]);
            Cow::Owned(out)
        }
    }

    /// The ESCAPE_SEQUENCE matches, leftmost first, none overlapping another.
    fn escapes(text: &[u8]) -> Vec<Match> {
        let mut matches = Vec::new();
        let mut start = 0;
        while start < text.len() {
            match escape_len(&text[start..]) {
                Some(len) => {
                    let end = start + len;
                    matches.push(Match { start, end });
                    start = end;
                }
                None => start += 1,
            }
        }
        matches
    }

    /// The length of the ESCAPE_SEQUENCE match at the start of `text`. As `m` is
    /// not in the class, taking fewer than the most of it never helps.
    fn escape_len(text: &[u8]) -> Option<usize> {
        let rest = text.strip_prefix(b"\x1B[")?;
        let taken = rest
            .iter()
            .take(32)
            .take_while(|b| CLASS.contains(b))
            .count();
        (rest.get(taken) == Some(&b'm')).then_some(2 + taken + 1)
    }
}
