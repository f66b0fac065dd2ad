//! The recorded cases of crates/vectors/stdout, one a line: oracle/README.md has their form.

use console_lines::{Reader, SpanRecord, Wrapping, WrappingMode};

/// What lent memory holds before a call, so that each zero found was written.
const PATTERN: u8 = 0xA7;
const NUMBER: usize = usize::from_ne_bytes([PATTERN; size_of::<usize>()]);
const RECORD: SpanRecord = SpanRecord {
    kind: NUMBER,
    place: NUMBER,
    len: NUMBER,
    matched: NUMBER,
};

/// The numbers of a call, as the header has them.
#[derive(Clone, Copy, Debug)]
pub enum Call {
    Convert,
    Read,
    Rows {
        width: usize,
        mode: usize,
    },
    Height {
        width: usize,
        mode: usize,
    },
    Narrowest {
        mode: usize,
        wanted: usize,
        greatest: usize,
    },
    Draw {
        reader: usize,
        current: usize,
        part: Part,
    },
    ScreenRow {
        width: usize,
    },
    Store,
    Restore,
    WriteCells,
}

/// What is drawn of a line.
#[derive(Clone, Copy, Debug)]
pub enum Part {
    Window {
        start: usize,
        end: usize,
    },
    Rows {
        first: usize,
        count: usize,
        width: usize,
        mode: usize,
    },
}

/// A call on a line, or on other bytes that it reads, with the sizes that it is lent.
#[derive(Clone, Debug)]
pub struct Case {
    pub call: Call,
    pub input: Vec<u8>,
    pub matches: Vec<usize>,
    /// Bytes, spans, numbers, bytes; none for what the call is not lent. What a call writes that
    /// starts from no line is lent as the last.
    pub sizes: [Option<usize>; 4],
}

/// Calls for rows or height on one line in turn, with the same kept wraps.
#[derive(Clone, Debug)]
pub struct Sequence {
    pub line: Vec<u8>,
    /// Whether rows are asked for, and not the height alone; width and mode.
    pub calls: Vec<(bool, usize, usize)>,
}

/// What a line of the file records.
pub enum Recorded {
    Case(Case),
    Sequence(Sequence),
    /// A case of something else than a call of the library.
    Other,
}

/// The recorded cases, each with its text before and behind ` = `.
pub fn cases(file: &str) -> impl Iterator<Item = (&str, &str, Recorded)> {
    file.lines()
        .filter_map(|line| line.split_once(" = "))
        .map(|(case, answer)| (case, answer, recorded(case)))
}

fn recorded(case: &str) -> Recorded {
    let mut fields = Fields(case.split(' '));
    let name = fields.next();
    if name == "cached" {
        return Recorded::Sequence(fields.sequence());
    }
    if ["scalars", "clusters", "program"].contains(&name) {
        return Recorded::Other;
    }
    let input = bytes(fields.next());
    let (has_matches, lent) = form(name);
    let matches = if has_matches {
        numbers(fields.next())
    } else {
        Vec::new()
    };
    let mut call = fields.call(name);
    let sizes = lent.map(|lent| lent.then(|| number(fields.next())));
    if name.starts_with("view_") {
        call = call.for_reader(number(fields.next()));
    }
    assert_eq!(fields.0.next(), None, "a field too many in {case}");
    Recorded::Case(Case {
        call,
        input,
        matches,
        sizes,
    })
}

/// Whether a call has matches, and which memory it is lent.
fn form(name: &str) -> (bool, [bool; 4]) {
    match name {
        "convert" => (false, [true, false, false, false]),
        "read" => (true, [true, true, false, false]),
        "rows" => (false, [true, true, true, false]),
        "height" | "narrowest" => (false, [true, true, false, false]),
        "draw_window" | "draw_row" | "view_window" | "view_row" => {
            (true, [true, true, false, true])
        }
        _ => (false, [false, false, false, true]),
    }
}

impl Call {
    /// A drawing for another reader.
    fn for_reader(self, reader: usize) -> Call {
        match self {
            Call::Draw { current, part, .. } => Call::Draw {
                reader,
                current,
                part,
            },
            call => call,
        }
    }
}

struct Fields<'t>(std::str::Split<'t, char>);

impl<'t> Fields<'t> {
    fn next(&mut self) -> &'t str {
        self.0.next().expect("a field is missing")
    }

    fn number(&mut self) -> usize {
        number(self.next())
    }

    fn current(&mut self) -> usize {
        match self.next() {
            "-" => usize::MAX,
            field => number(field),
        }
    }

    fn call(&mut self, name: &str) -> Call {
        match name {
            "convert" => Call::Convert,
            "read" => Call::Read,
            "rows" => Call::Rows {
                width: self.number(),
                mode: self.number(),
            },
            "height" => Call::Height {
                width: self.number(),
                mode: self.number(),
            },
            "narrowest" => Call::Narrowest {
                mode: self.number(),
                wanted: self.number(),
                greatest: self.number(),
            },
            "draw_window" | "view_window" | "draw_row" | "view_row" => Call::Draw {
                reader: 0,
                current: self.current(),
                part: self.part(name.ends_with("_window")),
            },
            "screen_row" => Call::ScreenRow {
                width: self.number(),
            },
            "store" => Call::Store,
            "restore" => Call::Restore,
            "write_cells" => Call::WriteCells,
            _ => panic!("no call {name:?}"),
        }
    }

    fn part(&mut self, window: bool) -> Part {
        if window {
            return Part::Window {
                start: self.number(),
                end: self.number(),
            };
        }
        Part::Rows {
            first: self.number(),
            count: self.number(),
            width: self.number(),
            mode: self.number(),
        }
    }

    fn sequence(mut self) -> Sequence {
        let line = bytes(self.next());
        let mut calls = Vec::new();
        while let Some(name) = self.0.next() {
            calls.push((name == "rows", self.number(), self.number()));
        }
        Sequence { line, calls }
    }
}

fn number(field: &str) -> usize {
    field.parse().expect("a number")
}

fn numbers(field: &str) -> Vec<usize> {
    match field {
        "-" => Vec::new(),
        _ => field.split(',').map(number).collect(),
    }
}

fn bytes(field: &str) -> Vec<u8> {
    if field == "-" {
        return Vec::new();
    }
    let pairs = field.as_bytes().chunks(2);
    let byte = |pair| {
        let digits = std::str::from_utf8(pair).ok();
        digits.and_then(|digits| u8::from_str_radix(digits, 16).ok())
    };
    pairs.map(|pair| byte(pair).expect("a byte")).collect()
}

// ---- the types of a call; none where they cannot say its numbers

pub fn pairs<T: Copy>(items: &[T]) -> Option<Box<[[T; 2]]>> {
    let pairs = items.chunks(2).map(|pair| pair.try_into().ok());
    pairs.collect()
}

pub fn wrapping(width: usize, mode: usize) -> Option<Wrapping> {
    let mode = WrappingMode::from_number(mode)?;
    Some(Wrapping { width, mode })
}

pub fn reader(number: usize) -> Option<Reader> {
    let readers = [Reader::Bench, Reader::Crew];
    readers.get(number).copied()
}

// ---- lent memory

/// Memory that is lent, each buffer an allocation of just its size.
pub struct Lent {
    pub conv: Box<[u8]>,
    pub spans: Box<[SpanRecord]>,
    pub rows: Box<[usize]>,
    pub list: Box<[u8]>,
}

impl Lent {
    pub fn new(sizes: [usize; 4]) -> Lent {
        let [conv, spans, rows, list] = sizes;
        Lent {
            conv: vec![PATTERN; conv].into(),
            spans: vec![RECORD; spans].into(),
            rows: vec![NUMBER; rows].into(),
            list: vec![PATTERN; list].into(),
        }
    }

    /// What each buffer holds, as text.
    pub fn texts(&self) -> [String; 4] {
        let records = self.spans.iter();
        let records: Vec<usize> = records
            .flat_map(|span| [span.kind, span.place, span.len, span.matched])
            .collect();
        [
            byte_text(&self.conv),
            number_text(&records),
            number_text(&self.rows),
            byte_text(&self.list),
        ]
    }
}

fn without_zeros<T: PartialEq + Default>(items: &[T]) -> &[T] {
    let zero = T::default();
    let last = items.iter().rposition(|item| *item != zero);
    &items[..last.map_or(0, |last| last + 1)]
}

pub fn byte_text(bytes: &[u8]) -> String {
    let bytes = without_zeros(bytes).iter();
    or_none(bytes.map(|byte| format!("{byte:02x}")).collect())
}

pub fn number_text(numbers: &[usize]) -> String {
    let numbers = without_zeros(numbers).iter();
    let numbers: Vec<String> = numbers.map(usize::to_string).collect();
    or_none(numbers.join(","))
}

fn or_none(text: String) -> String {
    if text.is_empty() {
        return "-".to_string();
    }
    text
}
