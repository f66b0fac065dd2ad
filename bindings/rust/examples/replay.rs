//! Replays the recorded cases through the calls that are lent their memory, and compares number,
//! count and every buffer. What a call reads and writes are allocations of just their sizes, for
//! tools that look at each access to memory.
//!
//!     replay [--short] < crates/vectors/stdout
//!
//! oracle/README.md has the form of a case. Each is made of the raw call, and of the one with
//! types where they can say its numbers; what is of no call is left out, and counted. Exit status
//! 1 where an answer differs. `--short` plants a fault, which such a tool must see.

mod recorded;

use console_lines::raw::{self, Answer, WRAPS};
use console_lines::{
    convert_into, draw_row_into, draw_window_into, height_into, narrowest_into, read_into,
    restore_into, rows_into, screen_row_into, store_into, write_cells_into, Refusal, View,
    WrappingMode,
};
use recorded::{number_text, pairs, wrapping, Call, Case, Lent, Part, Recorded, Sequence};
use std::process::ExitCode;
use std::{env, io, slice};

/// The numbers of the kept wraps that are recorded.
const HEADS: usize = 20;

#[derive(Default)]
struct Counts {
    cases: usize,
    typed: usize,
    others: usize,
    different: usize,
}

impl Counts {
    /// The answers, of which the first is the raw call's, beside the recorded one.
    fn count(&mut self, case: &str, expected: &str, answers: &[Option<String>]) {
        self.cases += usize::from(!answers.is_empty());
        self.others += usize::from(answers.is_empty());
        self.typed += answers.iter().skip(1).flatten().count();
        for answer in answers.iter().flatten().filter(|text| *text != expected) {
            println!("{case} = {expected}\n  library: = {answer}");
            self.different += 1;
        }
    }
}

fn main() -> ExitCode {
    let arguments: Vec<String> = env::args().skip(1).collect();
    if arguments == ["--short"] {
        write_behind();
    } else if !arguments.is_empty() {
        eprintln!("replay [--short] < crates/vectors/stdout");
        return ExitCode::from(2);
    }
    let file = match io::read_to_string(io::stdin()) {
        Ok(file) => file,
        Err(error) => {
            eprintln!("replay: {error}");
            return ExitCode::from(2);
        }
    };
    let mut counts = Counts::default();
    for (text, expected, recorded) in recorded::cases(&file) {
        let answers = match &recorded {
            Recorded::Case(case) => vec![Some(raw_answer(case)), typed_answer(case)],
            Recorded::Sequence(sequence) => vec![Some(kept_answer(sequence))],
            Recorded::Other => Vec::new(),
        };
        counts.count(text, expected, &answers);
    }
    let Counts {
        cases,
        typed,
        others,
        different,
    } = counts;
    println!("{typed} made with types too, {others} of no call left out");
    println!("{cases} cases, {different} differ");
    if different == 0 && cases > 0 {
        ExitCode::SUCCESS
    } else {
        ExitCode::FAILURE
    }
}

/// The planted fault: a call is told of a byte more than its conversion buffer has.
fn write_behind() {
    let mut conv: Box<[u8]> = vec![0; 7].into();
    // SAFETY: there is none: the call writes the byte behind the buffer.
    let told = unsafe { slice::from_raw_parts_mut(conv.as_mut_ptr(), 8) };
    raw::convert(b"a", told);
}

/// The text behind ` = `: number, count, what was lent, and how many widths were tried.
fn answer_text(case: &Case, answer: Answer, lent: &Lent, tried: Option<usize>) -> String {
    let mut text = format!("{} {}", answer.number, answer.count);
    for (buffer, size) in lent.texts().iter().zip(case.sizes) {
        if size.is_some() {
            text += &format!(" {buffer}");
        }
    }
    tried.map_or(text.clone(), |tried| format!("{text} {tried}"))
}

fn lend(case: &Case) -> Lent {
    Lent::new(case.sizes.map(Option::unwrap_or_default))
}

// ---- raw calls

fn raw_answer(case: &Case) -> String {
    let mut lent = lend(case);
    let line: Box<[u8]> = case.input.clone().into();
    let matches: Box<[usize]> = case.matches.clone().into();
    let (conv, spans, list) = (&mut lent.conv, &mut lent.spans, &mut lent.list);
    let mut tried = None;
    let answer = match case.call {
        Call::Convert => raw::convert(&line, conv),
        Call::Read => raw::read(&line, &matches, conv, spans),
        Call::Rows { width, mode } => raw::rows(&line, width, mode, conv, spans, &mut lent.rows),
        Call::Height { width, mode } => raw::height(&line, width, mode, conv, spans),
        Call::Narrowest {
            mode,
            wanted,
            greatest,
        } => {
            let answer = raw::narrowest(&line, mode, wanted, greatest, conv, spans);
            tried = Some(answer.tried);
            let (number, count) = (answer.number, answer.count);
            Answer { number, count }
        }
        Call::Draw {
            reader,
            current,
            part,
        } => raw_drawing(reader, &line, &matches, current, part, &mut lent),
        Call::ScreenRow { width } => raw::screen_row(&line, width, list),
        Call::Store => raw::store(&line, list),
        Call::Restore => raw::restore(&line, list),
        Call::WriteCells => raw::write_cells(&line, list),
    };
    answer_text(case, answer, &lent, tried)
}

fn raw_drawing(
    reader: usize,
    line: &[u8],
    matches: &[usize],
    current: usize,
    part: Part,
    lent: &mut Lent,
) -> Answer {
    let (conv, spans, list) = (&mut lent.conv, &mut lent.spans, &mut lent.list);
    match part {
        Part::Window { start, end } => raw::draw_window(
            reader, line, matches, current, start, end, conv, spans, list,
        ),
        Part::Rows {
            first,
            count,
            width,
            mode,
        } => raw::draw_row(
            reader, line, matches, current, first, count, width, mode, conv, spans, list,
        ),
    }
}

/// The answers of a sequence, and the first numbers of the kept wraps.
fn kept_answer(sequence: &Sequence) -> String {
    let line: Box<[u8]> = sequence.line.clone().into();
    let mut wraps: Box<[usize; WRAPS]> = vec![0; WRAPS].try_into().expect("kept wraps");
    let mut text = String::new();
    for &(rows, width, mode) in &sequence.calls {
        let sizes = needed(&line, width, mode, rows);
        let mut lent = Lent::new(sizes);
        let (conv, spans) = (&mut lent.conv, &mut lent.spans);
        let answer = if rows {
            raw::cached_rows(&line, width, mode, &mut wraps, conv, spans, &mut lent.rows)
        } else {
            raw::cached_height(&line, width, mode, &mut wraps, conv, spans)
        };
        text += &format!("{} {} ", answer.number, answer.count);
        if rows {
            text += &format!("{} ", lent.texts()[2]);
        }
    }
    text + &number_text(&wraps[..HEADS])
}

/// The sizes that a call for rows or height needs, by the calls without kept wraps.
fn needed(line: &[u8], width: usize, mode: usize, rows: bool) -> [usize; 4] {
    let mut lent = Lent::new([8 * line.len(), line.len(), 0, 0]);
    let spans = raw::read(line, &[], &mut lent.conv, &mut lent.spans).count;
    let height = raw::height(line, width, mode, &mut lent.conv, &mut lent.spans).count;
    let numbers = if rows { 2 * height } else { 0 };
    [8 * line.len(), spans, numbers, 0]
}

// ---- calls with types

/// None where the types cannot say the call's numbers.
fn typed_answer(case: &Case) -> Option<String> {
    let mut lent = lend(case);
    let line: Box<[u8]> = case.input.clone().into();
    let (conv, spans, list) = (&mut lent.conv, &mut lent.spans, &mut lent.list);
    let mut tried = None;
    let result = match case.call {
        Call::Convert => convert_into(&line, conv).map(<[u8]>::len),
        Call::Read => {
            let reading = read_into(&line, &pairs(&case.matches)?, conv, spans);
            reading.map(|reading| reading.spans().count())
        }
        Call::Rows { width, mode } => {
            let wrapped = rows_into(&line, wrapping(width, mode)?, conv, spans, &mut lent.rows);
            wrapped.map(|wrapped| wrapped.rows().count())
        }
        Call::Height { width, mode } => {
            height_into(&line, wrapping(width, mode)?, conv, spans).map(|(height, _)| height)
        }
        Call::Narrowest {
            mode,
            wanted,
            greatest,
        } => {
            let mode = WrappingMode::from_number(mode)?;
            let found = narrowest_into(&line, mode, wanted, greatest, conv, spans);
            tried = Some(found.as_ref().map_or(0, |(found, _)| found.tried));
            found.map(|(found, _)| found.width.unwrap_or(0))
        }
        Call::Draw { .. } => drawn(&line, case, &mut lent)?,
        Call::ScreenRow { width } => printed(&line, width, list),
        Call::Store => store_into(&line, list).map(<[u8]>::len),
        Call::Restore => restore_into(&line, list).map(<[u8]>::len),
        Call::WriteCells => write_cells_into(&pairs(&line)?, list).map(<[u8]>::len),
    };
    Some(answer_text(case, answer(result), &lent, tried))
}

fn drawn(line: &[u8], case: &Case, lent: &mut Lent) -> Option<Result<usize, Refusal>> {
    let Call::Draw {
        reader,
        current,
        part,
    } = case.call
    else {
        return None;
    };
    let view = &View {
        reader: recorded::reader(reader)?,
        matches: &pairs(&case.matches)?,
        current: Some(current),
    };
    let (conv, spans, list) = (&mut lent.conv, &mut lent.spans, &mut lent.list);
    let drawing = match part {
        Part::Window { start, end } => draw_window_into(line, view, start..end, conv, spans, list),
        Part::Rows {
            first,
            count,
            width,
            mode,
        } => {
            let rows = first..first.checked_add(count)?;
            draw_row_into(line, view, rows, wrapping(width, mode)?, conv, spans, list)
        }
    };
    Some(drawing.map(|drawing| drawing.list().len()))
}

/// The bytes of a screen row; no count of a call's where there is not a cell for each column.
fn printed(list: &[u8], width: usize, out: &mut [u8]) -> Result<usize, Refusal> {
    let cells = screen_row_into(list, width, out)?;
    let bytes = cells.as_bytes().len();
    Ok(if cells.count() == width {
        bytes
    } else {
        usize::MAX
    })
}

fn answer(result: Result<usize, Refusal>) -> Answer {
    match result {
        Ok(count) => Answer { number: 0, count },
        Err(refusal) => Answer {
            number: refusal.number(),
            count: 0,
        },
    }
}
