// A child module of line.rs: reads and draws with the source, and finds the byte
// place and length of each span, which the source does not keep.

use std::borrow::Cow;
use std::cell::RefCell;
use std::panic::{self, AssertUnwindSafe};
use std::str;
use std::sync::Once;

use regex::bytes::{NoExpand, Regex};
use termwiz::hyperlink::Hyperlink;
use termwiz::surface::change::Change;
use trace::{Notes, Stretch};
use unicode_segmentation::UnicodeSegmentation;

use super::{Line, Span};
use crate::config::WrappingMode;
use crate::line_drawn;
use crate::search::{trim_trailing_newline, ESCAPE_SEQUENCE};
use crate::{line_drawing, overstrike, util};

/// Document 01's record of a span.
#[derive(Clone, Copy, Debug, Default, PartialEq, Eq)]
pub struct Record {
    pub kind: usize,
    pub place: usize,
    pub len: usize,
    pub matched: usize,
}

pub fn convert(raw: &[u8]) -> Cow<'_, [u8]> {
    overstrike::convert_overstrike(raw)
}

/// The converted line without its final newline and without escape sequences.
pub fn text_searched(converted: &[u8]) -> Cow<'_, [u8]> {
    let len = trim_trailing_newline(converted);
    ESCAPE_SEQUENCE.replace_all(&converted[..len], NoExpand(b""))
}

pub fn line_drawn(text: &str) -> String {
    line_drawing::convert_line_drawing(text)
}

/// `truncate_string`; none where it panics.
pub fn clip(text: &str, offset: usize, width: usize) -> Option<String> {
    unless_torn(|| util::truncate_string(text, offset, width))
}

/// A line read by the source.
pub struct Reading {
    line: Line,
    raw: Vec<u8>,
    matches: Vec<(usize, usize)>,
    records: Vec<Record>,
    /// The address at which the source read the converted line.
    address: usize,
}

impl Reading {
    /// `Line::new`, or `Line::new_search` where there are matches.
    pub fn new(raw: &[u8], matches: &[(usize, usize)]) -> Reading {
        match matches {
            [] => Reading::noted(raw, matches, || Line::new(0, raw)),
            _ => Reading::searched(raw, matches),
        }
    }

    /// `Line::new_search`.
    pub fn searched(raw: &[u8], matches: &[(usize, usize)]) -> Reading {
        let search = Regex::Search(matches.to_vec());
        Reading::noted(raw, matches, || Line::new_search(0, raw, &search))
    }

    fn noted(raw: &[u8], matches: &[(usize, usize)], read: impl FnOnce() -> Line) -> Reading {
        let (line, notes) = trace::noting(read);
        let converted = convert(raw);
        let address = address(&line.spans, &notes);
        if let Some(trimmed) = notes.trimmed {
            assert_eq!(trimmed.len, trim_trailing_newline(&converted));
            assert!(address == trimmed.address || notes.runs.iter().all(is_empty));
        }
        if let Some(len) = notes.searched {
            assert_eq!(len, text_searched(&converted).len());
        }
        let records = place(&converted, &line.spans, address, &notes);
        Reading {
            line,
            raw: raw.to_vec(),
            matches: matches.to_vec(),
            records,
            address,
        }
    }

    pub fn records(&self) -> &[Record] {
        &self.records
    }

    /// Whether the source's own spans are the same.
    pub fn same_spans(&self, other: &Reading) -> bool {
        self.line.spans == other.line.spans
    }

    /// Modes 3 and 4 are the source's 1 and 2, wrapped by the columns drawn.
    pub fn rows(&self, width: usize, mode: usize) -> Vec<(usize, usize)> {
        match mode {
            3 | 4 => self.wrapped_as_drawn().rows(width, wrapping(mode - 2)),
            _ => self.line.make_wrap(width, wrapping(mode)),
        }
    }

    /// The same line, where an Unprintable span is wrapped by the columns that it draws.
    fn wrapped_as_drawn(&self) -> line_drawn::Line {
        match &self.matches[..] {
            [] => line_drawn::Line::new(0, &self.raw),
            matches => {
                let search = Regex::Search(matches.to_vec());
                line_drawn::Line::new_search(0, &self.raw, &search)
            }
        }
    }

    pub fn height(&self, width: usize, mode: usize) -> usize {
        match mode {
            3 | 4 => self.rows(width, mode).len(),
            _ => self.line.height(width, wrapping(mode)),
        }
    }

    /// The changes of `Line::render`; none where `truncate_string` panics.
    pub fn draw_window(
        &self,
        start: usize,
        end: usize,
        current: Option<usize>,
    ) -> Option<Vec<Change>> {
        unless_torn(|| {
            let mut changes = Vec::new();
            self.line.render(&mut changes, start, end, current);
            changes
        })
    }

    /// The changes of `Line::render_wrapped`; none where `truncate_string` panics.
    pub fn draw_row(
        &self,
        first: usize,
        count: usize,
        width: usize,
        mode: usize,
        current: Option<usize>,
    ) -> Option<Vec<Change>> {
        if mode > 2 {
            return self.draw_drawn_row(first, count, width, mode, current);
        }
        unless_torn(|| {
            let mut changes = Vec::new();
            let mode = wrapping(mode);
            self.line
                .render_wrapped(&mut changes, first, count, width, mode, current);
            changes
        })
    }

    /// The same in modes 3 and 4: their rows stand in the source's cache while it draws.
    fn draw_drawn_row(
        &self,
        first: usize,
        count: usize,
        width: usize,
        mode: usize,
        current: Option<usize>,
    ) -> Option<Vec<Change>> {
        let kept = |rows| {
            let mut wraps = self.line.wraps.lock().unwrap();
            wraps.put((width, wrapping(mode - 2)), rows);
        };
        kept(self.rows(width, mode));
        let changes = self.draw_row(first, count, width, mode - 2, current);
        kept(self.rows(width, mode - 2));
        changes
    }

    /// The byte place of a hyperlink's URI in the converted line.
    pub fn uri_place(&self, link: &Hyperlink) -> usize {
        link.address() - self.address
    }
}

fn wrapping(mode: usize) -> WrappingMode {
    match mode {
        0 => WrappingMode::Unwrapped,
        1 => WrappingMode::GraphemeBoundary,
        2 => WrappingMode::WordBoundary,
        _ => panic!("question 5 admits no mode {mode}"),
    }
}

// ---- byte places

fn is_empty(run: &Stretch) -> bool {
    run.len == 0
}

/// Where the converted line stood: each byte before the first run is an Invalid span.
fn address(spans: &[Span], notes: &Notes) -> usize {
    let damaged = |span: &&Span| matches!(span, Span::Invalid(_));
    let before = spans.iter().take_while(damaged).count();
    let first = notes.runs.iter().find(|run| !is_empty(run));
    first.map_or(0, |run| run.address - before)
}

/// A record for each span. A span's length is that of its content or of the
/// sequence noted at its place; the next begins at the first cluster behind it.
fn place(converted: &[u8], spans: &[Span], address: usize, notes: &Notes) -> Vec<Record> {
    let mut records = Vec::with_capacity(spans.len());
    let mut spans = spans.iter();
    let mut sequences = notes.sequences.iter().peekable();
    let mut add = |at: usize, sequence: Option<usize>| {
        let span = spans.next().expect("a span for each place");
        let len = sequence.unwrap_or_else(|| content_len(span));
        check(span, &converted[at..at + len]);
        records.push(record(span, at, len));
        at + len
    };

    let mut end = 0;
    for run in notes.runs.iter().filter(|run| !is_empty(run)) {
        let start = run.address - address;
        while end < start {
            end = add(end, None);
        }
        assert_eq!(end, start);
        let run_end = start + run.len;
        let text = str::from_utf8(&converted[start..run_end]).expect("a valid run");
        for (index, _) in text.grapheme_indices(true) {
            let at = start + index;
            if at < end {
                continue;
            }
            let sequence = sequences.next_if(|s| s.address - address == at);
            end = add(at, sequence.map(|s| s.len));
        }
        end = run_end;
    }
    while end < converted.len() {
        end = add(end, None);
    }
    assert!(spans.next().is_none(), "a place for each span");
    assert!(sequences.next().is_none(), "a span for each sequence");
    records
}

fn record(span: &Span, place: usize, len: usize) -> Record {
    let matched = match span {
        Span::Match(_, number) => *number,
        _ => 0,
    };
    Record {
        kind: kind(span),
        place,
        len,
        matched,
    }
}

/// Kinds 1-13 follow the order of `Span`.
fn kind(span: &Span) -> usize {
    match span {
        Span::Text(_) => 1,
        Span::Match(..) => 2,
        Span::Control(_) => 3,
        Span::Invalid(_) => 4,
        Span::Unprintable(_) => 5,
        Span::SgrSequence(_) => 6,
        Span::Hyperlink(_) => 7,
        Span::LineDrawing(_) => 8,
        Span::Ignore(_) => 9,
        Span::Tab => 10,
        Span::CrLf => 11,
        Span::Lf => 12,
        Span::EraseToEndOfLine => 13,
    }
}

/// The length of a span that is no sequence.
fn content_len(span: &Span) -> usize {
    match span {
        Span::Text(text) | Span::Match(text, _) | Span::Unprintable(text) => text.len(),
        Span::Control(_) | Span::Invalid(_) | Span::Tab | Span::Lf => 1,
        Span::CrLf => 2,
        _ => panic!("no sequence noted for {span:?}"),
    }
}

/// The bytes that the record names must be what the span holds.
fn check(span: &Span, bytes: &[u8]) {
    let agrees = match span {
        Span::Text(text) | Span::Match(text, _) | Span::Unprintable(text) => {
            text.as_bytes() == bytes
        }
        Span::Control(byte) | Span::Invalid(byte) => [*byte] == bytes,
        Span::SgrSequence(_) => bytes.starts_with(b"\x1B[") && bytes.ends_with(b"m"),
        Span::Hyperlink(link) => is_link(bytes, link.as_ref().map_or(b"", |link| link.uri())),
        Span::LineDrawing(true) => bytes == b"\x1B(0",
        Span::LineDrawing(false) => bytes == b"\x1B(B",
        Span::Ignore(ignored) => ignored[..] == *bytes,
        Span::Tab => bytes == b"\t",
        Span::CrLf => bytes == b"\r\n",
        Span::Lf => bytes == b"\n",
        Span::EraseToEndOfLine => bytes == b"\x1B[K" || bytes == b"\x1B[0K",
    };
    assert!(agrees, "{span:?} was not read from {bytes:02X?}");
}

fn is_link(bytes: &[u8], uri: &[u8]) -> bool {
    let ended = [&b"\x07"[..], b"\x1B\\"].into_iter().any(|end| {
        let rest = bytes.strip_suffix(end);
        rest.is_some_and(|rest| rest.ends_with(&[b";", uri].concat()))
    });
    bytes.starts_with(b"\x1B]8;") && ended
}

// ---- panics

thread_local! {
    /// While a panic is awaited: the file in which it happened, once it has.
    static AWAITED: RefCell<Option<String>> = const { RefCell::new(None) };
}

/// What `work` returns, or none where `truncate_string` panics, which is not
/// printed. A panic anywhere else goes on.
fn unless_torn<T>(work: impl FnOnce() -> T) -> Option<T> {
    static HOOK: Once = Once::new();
    HOOK.call_once(keep_awaited_panics_silent);
    AWAITED.set(Some(String::new()));
    let result = panic::catch_unwind(AssertUnwindSafe(work));
    let file = AWAITED.take().unwrap_or_default();
    match result {
        Ok(done) => Some(done),
        Err(_) if file.ends_with("util.rs") => None,
        Err(other) => {
            eprintln!("the source panicked in {file}");
            panic::resume_unwind(other)
        }
    }
}

fn keep_awaited_panics_silent() {
    let usual = panic::take_hook();
    panic::set_hook(Box::new(move |info| {
        let file = info.location().map_or("", |place| place.file());
        let awaited = AWAITED.with_borrow_mut(|awaited| {
            awaited.as_mut().map(|name| name.push_str(file)).is_some()
        });
        if !awaited {
            usual(info);
        }
    }));
}

// ---- the source alone

/// A line read by the source, and nothing else done: for measuring its speed.
pub struct SourceLine(Line);

impl SourceLine {
    pub fn read(raw: &[u8]) -> SourceLine {
        SourceLine(Line::new(0, raw))
    }

    pub fn rows(&self, width: usize, mode: usize) -> Vec<(usize, usize)> {
        self.0.make_wrap(width, wrapping(mode))
    }

    pub fn height(&self, width: usize, mode: usize) -> usize {
        self.0.height(width, wrapping(mode))
    }

    /// The changes of `Line::render`; it panics where `truncate_string` does.
    pub fn draw_window(&self, start: usize, end: usize) -> Vec<Change> {
        let mut changes = Vec::new();
        self.0.render(&mut changes, start, end, None);
        changes
    }

    /// The changes of `Line::render_wrapped`; it panics where `truncate_string` does.
    pub fn draw_row(&self, first: usize, count: usize, width: usize, mode: usize) -> Vec<Change> {
        let mut changes = Vec::new();
        let mode = wrapping(mode);
        self.0
            .render_wrapped(&mut changes, first, count, width, mode, None);
        changes
    }
}
