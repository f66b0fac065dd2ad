//! The six calls: the questions in their order, and what an accepted call leaves.

use crate::changes;
use crate::drawn::{self, Window};
use streampager::probe::{self, Reading, Record};
use termwiz::surface::change::Change;
use unicode_segmentation::{GraphemeCursor, UnicodeSegmentation};

/// Stands for "no current match".
pub const NONE: usize = usize::MAX;

const LONGEST_LINE: usize = 4_096;
const LARGEST_WIDTH: usize = 65_535;
const LARGEST_WINDOW: usize = 1_048_576;

/// What a call returns and leaves in the memory lent to it: each buffer without
/// the zeros behind what was written. A refusal leaves all of them empty.
#[derive(Clone, Debug, Default, PartialEq, Eq)]
pub struct Answer {
    pub number: usize,
    pub count: usize,
    pub conv: Vec<u8>,
    pub records: Vec<Record>,
    /// Start and end of each row, one behind the other.
    pub pairs: Vec<usize>,
    pub list: Vec<u8>,
}

impl Answer {
    fn of(result: Result<Answer, usize>) -> Answer {
        result.unwrap_or_else(|number| Answer {
            number,
            ..Answer::default()
        })
    }
}

/// A question: "no" gives its number.
fn ask(number: usize, yes: bool) -> Result<(), usize> {
    if yes {
        Ok(())
    } else {
        Err(number)
    }
}

pub fn convert(line: &[u8], conv: usize) -> Answer {
    Answer::of(converted(line, conv).map(|conv| Answer {
        count: conv.len(),
        conv,
        ..Answer::default()
    }))
}

pub fn read(line: &[u8], matches: &[usize], conv: usize, spans: usize) -> Answer {
    Answer::of(reading(line, matches, conv, spans).map(|(conv, reading)| {
        let records = reading.records().to_vec();
        Answer {
            count: records.len(),
            conv,
            records,
            ..Answer::default()
        }
    }))
}

pub fn rows(
    line: &[u8],
    width: usize,
    mode: usize,
    conv: usize,
    spans: usize,
    rows: usize,
) -> Answer {
    Answer::of((|| {
        let (conv, reading) = reading(line, &[], conv, spans)?;
        ask(5, mode <= 4 && width <= LARGEST_WIDTH)?;
        let pairs = reading.rows(width, mode);
        ask(6, pairs.len() <= rows / 2)?;
        Ok(Answer {
            count: pairs.len(),
            conv,
            records: reading.records().to_vec(),
            pairs: pairs
                .into_iter()
                .flat_map(|(start, end)| [start, end])
                .collect(),
            ..Answer::default()
        })
    })())
}

pub fn height(line: &[u8], width: usize, mode: usize, conv: usize, spans: usize) -> Answer {
    Answer::of((|| {
        let (conv, reading) = reading(line, &[], conv, spans)?;
        ask(5, mode <= 4 && width <= LARGEST_WIDTH)?;
        Ok(Answer {
            count: reading.height(width, mode),
            conv,
            records: reading.records().to_vec(),
            ..Answer::default()
        })
    })())
}

#[allow(clippy::too_many_arguments)]
pub fn draw_window(
    line: &[u8],
    matches: &[usize],
    current: usize,
    start: usize,
    end: usize,
    conv: usize,
    spans: usize,
    list: usize,
) -> Answer {
    Answer::of((|| {
        let (conv, reading) = reading(line, matches, conv, spans)?;
        ask(5, start <= LARGEST_WINDOW && end <= LARGEST_WINDOW)?;
        // start + 1 is at most end
        ask(7, start == 0 || start < end)?;
        let window = Window::of_columns(start, end);
        let changes = reading.draw_window(start, end, current_match(current));
        drawing(conv, &reading, window, changes, list)
    })())
}

#[allow(clippy::too_many_arguments)]
pub fn draw_row(
    line: &[u8],
    matches: &[usize],
    current: usize,
    first: usize,
    count: usize,
    width: usize,
    mode: usize,
    conv: usize,
    spans: usize,
    list: usize,
) -> Answer {
    Answer::of((|| {
        let (conv, reading) = reading(line, matches, conv, spans)?;
        let largest = width.max(count).max(first);
        ask(5, mode <= 4 && largest <= LARGEST_WIDTH && count >= 1)?;
        let window = Window::of_rows(&reading.rows(width, mode), first, count);
        let changes = reading.draw_row(first, count, width, mode, current_match(current));
        drawing(conv, &reading, window, changes, list)
    })())
}

fn current_match(current: usize) -> Option<usize> {
    (current != NONE).then_some(current)
}

/// Questions 1 and 2.
fn converted(line: &[u8], conv: usize) -> Result<Vec<u8>, usize> {
    ask(1, line.len() <= LONGEST_LINE)?;
    ask(2, conv >= 8 * line.len())?;
    Ok(probe::convert(line).into_owned())
}

/// Questions 1 to 4.
fn reading(
    line: &[u8],
    matches: &[usize],
    conv: usize,
    spans: usize,
) -> Result<(Vec<u8>, Reading), usize> {
    let conv = converted(line, conv)?;
    let ranges = match_ranges(matches, &conv)?;
    let reading = Reading::new(line, &ranges);
    ask(4, reading.records().len() <= spans)?;
    Ok((conv, reading))
}

/// Question 3.
fn match_ranges(matches: &[usize], conv: &[u8]) -> Result<Vec<(usize, usize)>, usize> {
    if matches.is_empty() {
        return Ok(Vec::new());
    }
    ask(3, matches.len().is_multiple_of(2))?;
    let searched = probe::text_searched(conv).len();
    let mut previous_end = 0;
    let mut ranges = Vec::with_capacity(matches.len() / 2);
    for pair in matches.chunks_exact(2) {
        let (start, end) = (pair[0], pair[1]);
        ask(3, previous_end <= start && start <= end && end <= searched)?;
        ranges.push((start, end));
        previous_end = end;
    }
    Ok(ranges)
}

/// Questions 8 and 9. Question 8's words must agree with the source's panic.
fn drawing(
    conv: Vec<u8>,
    reading: &Reading,
    window: Window,
    changes: Option<Vec<Change>>,
    list: usize,
) -> Result<Answer, usize> {
    let straddles = drawn::straddles(&conv, reading.records(), window);
    assert_eq!(
        straddles,
        changes.is_none(),
        "question 8 and the source's panic disagree: converted line {conv:02X?}, {window:?}"
    );
    let changes = changes.ok_or(8_usize)?;
    let bytes = changes::encode(&changes, &conv, reading);
    ask(9, bytes.len() <= list)?;
    Ok(Answer {
        count: bytes.len(),
        conv,
        records: reading.records().to_vec(),
        list: bytes,
        ..Answer::default()
    })
}

/// How many bytes the text searched has.
pub fn text_searched_len(line: &[u8]) -> usize {
    probe::text_searched(&probe::convert(line)).len()
}

/// `Line::new` and `Line::new_search` without a match must read alike.
pub fn check_constructors(line: &[u8]) {
    let (plain, searched) = (Reading::new(line, &[]), Reading::searched(line, &[]));
    assert!(plain.same_spans(&searched) && plain.records() == searched.records());
}

/// The last cluster found from the end of a text, as overstrike erases it, must
/// be the last one found from its start.
pub fn check_last_clusters(line: &[u8]) {
    for run in line.utf8_chunks() {
        let text = run.valid();
        let from_start = text.grapheme_indices(true).last().map(|(place, _)| place);
        let mut cursor = GraphemeCursor::new(text.len(), text.len(), true);
        let from_end = cursor.prev_boundary(text, 0).ok().flatten();
        assert_eq!(from_start, from_end, "last cluster of {text:?}");
    }
}
