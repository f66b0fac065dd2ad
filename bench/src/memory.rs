//! Memory that is lent to the library.

use console_lines::raw::{Answer, SpanRecord, WRAPS};
use library_calls::Lent;
use oracle::{Call, Sizes};

/// It is not cleared between calls.
pub struct Memory {
    pub conv: Vec<u8>,
    spans: Vec<SpanRecord>,
    rows: Vec<usize>,
    list: Vec<u8>,
}

impl Memory {
    pub fn new([conv, spans, rows, list]: Sizes) -> Memory {
        Memory {
            conv: vec![0; conv],
            spans: vec![SpanRecord::default(); spans],
            rows: vec![0; rows],
            list: vec![0; list],
        }
    }

    /// Makes a call of the library, lent so much of the memory.
    pub fn call(&mut self, call: &Call, line: &[u8], sizes: Sizes) -> Answer {
        library_calls::make(call, line, call.matches(), self.lend(sizes))
    }

    /// The same with kept wraps.
    pub fn cached(
        &mut self,
        call: &Call,
        line: &[u8],
        sizes: Sizes,
        wraps: &mut [usize; WRAPS],
    ) -> Answer {
        library_calls::make_cached(call, line, wraps, self.lend(sizes))
    }

    fn lend(&mut self, [conv, spans, rows, list]: Sizes) -> Lent<'_> {
        Lent {
            conv: &mut self.conv[..conv],
            spans: &mut self.spans[..spans],
            rows: &mut self.rows[..rows],
            list: &mut self.list[..list],
        }
    }

    /// Whether the library left what the oracle says.
    pub fn holds(&self, answer: Answer, expected: &oracle::Answer) -> bool {
        let spans = &self.spans[..expected.records.len()];
        let spans = spans.iter().map(|s| [s.kind, s.place, s.len, s.matched]);
        let records = expected.records.iter();
        let records = records.map(|r| [r.kind, r.place, r.len, r.matched]);
        answer.number == expected.number
            && answer.count == expected.count
            && self.conv.starts_with(&expected.conv)
            && spans.eq(records)
            && self.rows.starts_with(&expected.pairs)
            && self.list.starts_with(&expected.list)
    }
}

/// The sizes that a call with this answer needs.
pub fn just(line: &[u8], expected: &oracle::Answer) -> Sizes {
    [
        8 * line.len(),
        expected.records.len(),
        expected.pairs.len(),
        expected.list.len(),
    ]
}

/// At least what a program lends that takes any line: the sizes of document 01's
/// rows program, and a change list of 64 KiB.
pub fn generous(just: Sizes) -> Sizes {
    let [conv, spans, rows, list] = just;
    [
        conv.max(32_768),
        spans.max(2_048),
        rows.max(8_192),
        list.max(65_536),
    ]
}
