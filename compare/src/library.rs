//! Makes a call of the library and compares what it leaves with the oracle's answer.

use crate::comparison::Comparison;
use crate::faults::Fault;
use crate::lent::Lent;
use crate::readers::seen_by_crew;
use console_lines::raw::{SpanRecord, CREW};
use oracle::format::answer_text;
use oracle::noise::Program;
use oracle::{Answer, Call, Case, Record};
use std::fmt;

/// What lent bytes hold before a call.
pub const BYTE: u8 = 0xA7;
pub const NUMBER: usize = usize::from_ne_bytes([BYTE; 8]);
const SPAN: SpanRecord = SpanRecord {
    kind: NUMBER,
    place: NUMBER,
    len: NUMBER,
    matched: NUMBER,
};

/// After so many calls all of the memory is looked at, not the guard zones only.
pub const CALLS_BETWEEN_WHOLE_CHECKS: usize = 1_024;

/// The memory that a call is handed.
#[derive(Clone, Copy)]
pub enum Buffer {
    Line,
    Matches,
    Conv,
    Spans,
    Rows,
    List,
}

impl Buffer {
    pub const ALL: [Buffer; 6] = [
        Buffer::Line,
        Buffer::Matches,
        Buffer::Conv,
        Buffer::Spans,
        Buffer::Rows,
        Buffer::List,
    ];
}

impl fmt::Display for Buffer {
    fn fmt(&self, f: &mut fmt::Formatter<'_>) -> fmt::Result {
        f.write_str(match self {
            Buffer::Line => "the line",
            Buffer::Matches => "the matches",
            Buffer::Conv => "the conversion buffer",
            Buffer::Spans => "the span list",
            Buffer::Rows => "the row list",
            Buffer::List => "the change list",
        })
    }
}

pub struct Library {
    line: Lent<u8>,
    matches: Lent<usize>,
    conv: Lent<u8>,
    spans: Lent<SpanRecord>,
    rows: Lent<usize>,
    list: Lent<u8>,
    calls: usize,
}

impl Comparison for Library {
    type Case = Case;

    fn new() -> Library {
        Library {
            line: Lent::new(BYTE),
            matches: Lent::new(NUMBER),
            conv: Lent::new(BYTE),
            spans: Lent::new(SPAN),
            rows: Lent::new(NUMBER),
            list: Lent::new(BYTE),
            calls: 0,
        }
    }

    fn compare(&mut self, case: &Case) -> (usize, Option<String>) {
        let expected = case.answer();
        let answer = self.call(case);
        let difference = self.difference(case, &expected, answer);
        let difference = difference.or_else(|| self.crew_difference(case, &expected));
        (expected.number, difference)
    }
}

impl Library {
    /// The difference, as text, between what the last call returned and left and
    /// what is expected. All memory is taken back.
    pub fn difference(
        &mut self,
        case: &Case,
        expected: &Answer,
        answer: console_lines::raw::Answer,
    ) -> Option<String> {
        let same = answer.number == expected.number
            && answer.count == expected.count
            && self.buffers_hold(expected);
        let mut faults = Vec::new();
        if !same {
            let answer = answer_text(&case.call, &self.whole_answer(answer));
            faults.push(format!("= {answer}"));
        }
        faults.extend(self.take_back(case));
        if faults.is_empty() {
            return None;
        }
        let expected = answer_text(&case.call, expected);
        Some(format!(
            "{case} = {expected}\n  library: {}",
            faults.join("; ")
        ))
    }

    /// The difference between what a drawing for the crew returns and leaves and the
    /// bench's answer without URIs.
    fn crew_difference(&mut self, case: &Case, bench: &Answer) -> Option<String> {
        if !case.call.is_drawing() {
            return None;
        }
        let answer = self.call_for(CREW, case);
        let difference = self.difference(case, &seen_by_crew(bench), answer)?;
        Some(format!("# for the crew\n{difference}"))
    }

    pub fn call(&mut self, case: &Case) -> console_lines::raw::Answer {
        self.call_by(case, library_calls::make)
    }

    pub fn call_for(&mut self, reader: usize, case: &Case) -> console_lines::raw::Answer {
        self.call_by(case, |call, line, matches, lent| {
            library_calls::make_for(reader, call, line, matches, lent)
        })
    }

    /// What the library returns to a reader and leaves; an error where the call writes to
    /// memory that is not lent for writing.
    pub fn answer_for(&mut self, reader: usize, case: &Case) -> Result<Answer, String> {
        let answer = self.call_for(reader, case);
        let answer = self.whole_answer(answer);
        let faults = self.take_back(case);
        if faults.is_empty() {
            Ok(answer)
        } else {
            Err(format!("# {}", faults.join("; ")))
        }
    }

    /// Makes a call by another function than that of its name.
    pub fn call_by(
        &mut self,
        case: &Case,
        make: impl FnOnce(&Call, &[u8], &[usize], library_calls::Lent) -> console_lines::raw::Answer,
    ) -> console_lines::raw::Answer {
        let [conv, spans, rows, list] = case.sizes();
        let line = self.line.lend_copy(&case.line);
        let matches = self.matches.lend_copy(case.call.matches());
        let lent = library_calls::Lent {
            conv: self.conv.lend(conv),
            spans: self.spans.lend(spans),
            rows: self.rows.lend(rows),
            list: self.list.lend(list),
        };
        make(&case.call, line, matches, lent)
    }

    /// What a check says of the library's answers; it fails, too, where a call writes to
    /// memory that is not lent for writing.
    pub fn hold<T>(
        &mut self,
        check: impl FnOnce(&mut Program) -> Result<T, String>,
    ) -> Result<T, String> {
        let mut written = None;
        let said = check(&mut |case| {
            let answer = self.call(case);
            let answer = self.whole_answer(answer);
            let faults = self.take_back(case);
            if !faults.is_empty() {
                written = Some(format!("# {}\n{case}", faults.join("; ")));
            }
            answer
        });
        written.map_or(said, Err)
    }

    /// Whether what was lent holds an answer.
    pub fn buffers_hold(&self, expected: &Answer) -> bool {
        self.conv.holds(expected.conv.iter().copied())
            && self.spans.holds(expected.records.iter().map(span))
            && self.rows.holds(expected.pairs.iter().copied())
            && self.list.holds(expected.list.iter().copied())
    }

    /// What was done to memory that is not lent for writing.
    fn memory_faults(&self, case: &Case) -> Vec<String> {
        let touched = Buffer::ALL.iter().filter(|buffer| !self.guarded(**buffer));
        let mut faults: Vec<String> = touched
            .map(|buffer| format!("memory around {buffer} is written"))
            .collect();
        if self.line.lent() != case.line || self.matches.lent() != case.call.matches() {
            faults.push("the line or the matches are written".to_string());
        }
        faults
    }

    fn guarded(&self, buffer: Buffer) -> bool {
        match buffer {
            Buffer::Line => self.line.guarded(),
            Buffer::Matches => self.matches.guarded(),
            Buffer::Conv => self.conv.guarded(),
            Buffer::Spans => self.spans.guarded(),
            Buffer::Rows => self.rows.guarded(),
            Buffer::List => self.list.guarded(),
        }
    }

    /// Plants a fault in what the last call returned and left; whether it has room.
    pub fn plant(&mut self, fault: Fault, answer: &mut console_lines::raw::Answer) -> bool {
        let (buffer, place) = match fault {
            Fault::Number => {
                answer.number ^= 1;
                return true;
            }
            Fault::Count => {
                answer.count += 1;
                return true;
            }
            Fault::Memory(buffer, place) => (buffer, place),
        };
        match buffer {
            Buffer::Line => self.line.damage(place),
            Buffer::Matches => self.matches.damage(place),
            Buffer::Conv => self.conv.damage(place),
            Buffer::Spans => self.spans.damage(place),
            Buffer::Rows => self.rows.damage(place),
            Buffer::List => self.list.damage(place),
        }
    }

    /// Leaves another answer in what was lent, as far as there is room.
    pub fn leave(&mut self, answer: &Answer) {
        self.conv.leave(answer.conv.iter().copied());
        self.spans.leave(answer.records.iter().map(span));
        self.rows.leave(answer.pairs.iter().copied());
        self.list.leave(answer.list.iter().copied());
    }

    /// What the library returned and left, zeros included.
    pub fn whole_answer(&self, answer: console_lines::raw::Answer) -> Answer {
        Answer {
            number: answer.number,
            count: answer.count,
            conv: self.conv.lent().to_vec(),
            records: self.spans.lent().iter().map(record).collect(),
            pairs: self.rows.lent().to_vec(),
            list: self.list.lent().to_vec(),
        }
    }

    /// Fills what was lent with the pattern again. What the call did to memory that is
    /// not lent for writing is returned, as text.
    pub fn take_back(&mut self, case: &Case) -> Vec<String> {
        let mut faults = self.memory_faults(case);
        self.line.take_back();
        self.matches.take_back();
        self.conv.take_back();
        self.spans.take_back();
        self.rows.take_back();
        self.list.take_back();
        self.calls += 1;
        if self.calls.is_multiple_of(CALLS_BETWEEN_WHOLE_CHECKS) && !self.untouched() {
            faults.push("memory far outside was written by this call or one before".to_string());
        }
        if !faults.is_empty() {
            self.restore();
        }
        faults
    }

    /// Whether all of the memory holds the pattern.
    fn untouched(&self) -> bool {
        self.line.untouched()
            && self.matches.untouched()
            && self.conv.untouched()
            && self.spans.untouched()
            && self.rows.untouched()
            && self.list.untouched()
    }

    fn restore(&mut self) {
        self.line.restore();
        self.matches.restore();
        self.conv.restore();
        self.spans.restore();
        self.rows.restore();
        self.list.restore();
    }
}

fn span(record: &Record) -> SpanRecord {
    SpanRecord {
        kind: record.kind,
        place: record.place,
        len: record.len,
        matched: record.matched,
    }
}

fn record(span: &SpanRecord) -> Record {
    Record {
        kind: span.kind,
        place: span.place,
        len: span.len,
        matched: span.matched,
    }
}
