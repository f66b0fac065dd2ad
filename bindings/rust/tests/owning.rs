//! The calls that own their memory: on the recorded cases they answer as recorded, and none of
//! them is refused for want of memory, on hostile lines either.

mod random;
#[path = "../examples/recorded/mod.rs"]
#[allow(dead_code)]
mod recorded;

use console_lines::*;
use random::Random;
use recorded::{byte_text, number_text, pairs, wrapping, Call, Case, Part, Recorded};

const RECORDED: &str = include_str!("../../../crates/vectors/stdout");

/// What a call gives, in the recorded form: count, and what the buffers hold.
type Given = Option<Result<String, Refusal>>;

/// None where the types cannot say the call's numbers.
fn given(case: &Case) -> Given {
    let line = &case.input;
    let read_text = || read(line, &[]).map_or(String::new(), |line| line_text(&line));
    Some(match case.call {
        Call::Convert => convert(line).map(|conv| counted(&conv)),
        Call::Read => {
            let read = read(line, &pairs(&case.matches)?);
            read.map(|line| format!("{} {}", line.spans.len(), line_text(&line)))
        }
        Call::Rows { width, mode } => {
            let wrapped = rows(line, wrapping(width, mode)?);
            wrapped.map(|WrappedLine { line, rows }| {
                let count = rows.len();
                format!("{count} {} {}", line_text(&line), row_text(&rows))
            })
        }
        Call::Height { width, mode } => {
            let height = height(line, wrapping(width, mode)?);
            height.map(|height| format!("{height} {}", read_text()))
        }
        Call::Narrowest {
            mode,
            wanted,
            greatest,
        } => {
            let found = narrowest(line, WrappingMode::from_number(mode)?, wanted, greatest);
            found.map(|Narrowest { width, tried }| {
                format!("{} {} {tried}", width.unwrap_or(0), read_text())
            })
        }
        Call::Draw { .. } => drawn(case)?.map(|drawn| {
            let count = drawn.list.len();
            format!(
                "{count} {} {}",
                line_text(&drawn.line),
                byte_text(&drawn.list)
            )
        }),
        Call::ScreenRow { width } => screen_row(line, width).map(|row| counted(row.as_bytes())),
        Call::Store => store(line).map(|out| counted(&out)),
        Call::Restore => restore(line).map(|out| counted(&out)),
        Call::WriteCells => write_cells(&pairs(line)?).map(|out| counted(&out)),
    })
}

fn drawn(case: &Case) -> Option<Result<DrawnLine, Refusal>> {
    let Call::Draw {
        reader,
        current,
        part,
    } = case.call
    else {
        return None;
    };
    let view = View {
        reader: recorded::reader(reader)?,
        matches: &pairs(&case.matches)?,
        current: Some(current),
    };
    Some(match part {
        Part::Window { start, end } => draw_window(&case.input, &view, start..end),
        Part::Rows {
            first,
            count,
            width,
            mode,
        } => {
            let rows = first..first.checked_add(count)?;
            draw_row(&case.input, &view, rows, wrapping(width, mode)?)
        }
    })
}

// ---- the recorded form

fn counted(bytes: &[u8]) -> String {
    format!("{} {}", bytes.len(), byte_text(bytes))
}

fn line_text(line: &Line) -> String {
    let records = line.spans.iter().flat_map(|span| {
        let matched = match span.kind {
            SpanKind::Match(number) => number,
            _ => 0,
        };
        [span.kind.number(), span.place, span.len, matched]
    });
    let records: Vec<usize> = records.collect();
    format!("{} {}", byte_text(&line.converted), number_text(&records))
}

fn row_text(rows: &[Row]) -> String {
    let numbers = rows.iter();
    let numbers: Vec<usize> = numbers
        .flat_map(|row| [row.start, row.end.unwrap_or(usize::MAX)])
        .collect();
    number_text(&numbers)
}

// ---- tests

#[test]
fn recorded_cases_are_answered() {
    let (mut accepted, mut refused, mut given_memory) = (0, 0, 0);
    for (text, answer, recorded) in recorded::cases(RECORDED) {
        let Recorded::Case(case) = recorded else {
            continue;
        };
        let Some(given) = given(&case) else {
            continue;
        };
        let (number, rest) = answer.split_once(' ').expect("number and count");
        let number: usize = number.parse().expect("a number");
        match Refusal::from_number(number) {
            None => {
                accepted += 1;
                assert_eq!(given.as_deref(), Ok(rest), "{text}");
            }
            Some(refusal) if refusal.is_for_memory() => {
                given_memory += 1;
                let enough = given.map_or_else(|refusal| !refusal.is_for_memory(), |_| true);
                assert!(enough, "{text}");
            }
            Some(refusal) => {
                refused += 1;
                assert_eq!(given, Err(refusal), "{text}");
            }
        }
    }
    assert!(accepted > 1_000 && refused > 100 && given_memory > 100);
}

/// Symbols that lead to much: struck letters and accents, tabs, controls, damaged and wide and
/// zero-width ones, hyphens, style orders, line drawing.
const SYMBOLS: [&[u8]; 24] = [
    b"a",
    b" ",
    b"-",
    b"\t",
    b"\x08",
    b"_",
    b"a\x08a",
    b"_\x08b",
    b"c\x08_\x08c",
    b"\x01",
    b"\xFF",
    b"\xCC\x81",
    b"\xC2\x85",
    b"\xE2\x80\x8B",
    b"\xF3\xA0\x84\x80",
    b"\xE6\xBC\xA2",
    b"\xE1\x84\x80",
    b"\x1B[1m",
    b"\x1B[m",
    b"\x1B(0",
    b"\x1B(B",
    b"\x1B]8;;u\x07",
    b"\x1B",
    b"\n",
];

/// A line of up to so many symbols, a few of them again and again.
fn hostile(random: &mut Random, most: usize) -> Vec<u8> {
    let few: Vec<&[u8]> = (0..1 + random.below(4))
        .map(|_| SYMBOLS[random.below(SYMBOLS.len())])
        .collect();
    let symbols = 0..random.below(most);
    let symbols = symbols.flat_map(|_| few[random.below(few.len())]);
    symbols.copied().take(enough::LINE).collect()
}

fn assert_enough<T>(line: &[u8], result: Result<T, Refusal>) -> bool {
    let memory = result
        .as_ref()
        .err()
        .filter(|refusal| refusal.is_for_memory());
    assert_eq!(memory, None, "{}", byte_text(line));
    result.is_ok()
}

/// Matches of one byte each, every second one in the text searched.
fn every_second(line: &[u8]) -> Vec<Match> {
    let converted = convert(line).map_or(0, |line| line.len());
    (0..converted / 2).map(|i| [2 * i, 2 * i + 1]).collect()
}

#[test]
fn no_line_lacks_memory() {
    let random = &mut Random::new(63);
    let mut accepted = [0; 5];
    for number in 0..4_000 {
        let most = if number % 16 == 0 { 4_200 } else { 60 };
        let line = &hostile(random, most)[..];
        let width = [0, 1, 2, 3, 7, 8, 9, 80][random.below(8)];
        let mode = WrappingMode::from_number(random.below(5)).expect("a mode");
        let wrapping = Wrapping::new(width, mode);
        accepted[0] += usize::from(assert_enough(line, convert(line)));
        let mut matches = every_second(line);
        while read(line, &matches) == Err(Refusal::MatchesNotInOrder) {
            matches.truncate(matches.len() / 2);
        }
        accepted[1] += usize::from(assert_enough(line, read(line, &matches)));
        accepted[2] += usize::from(assert_enough(line, rows(line, wrapping)));
        let view = View {
            matches: &matches,
            current: Some(0),
            ..View::default()
        };
        let rows = draw_row(line, &view, 0..1 + random.below(65_535), wrapping);
        accepted[3] += usize::from(assert_enough(line, rows));
        let start = random.below(20);
        let window = start..start + [1, 2, 8, 80, 1_000_000][random.below(5)];
        let drawn = draw_window(line, &view, window);
        accepted[4] += usize::from(drawn.is_ok());
        assert_enough(line, drawn);
    }
    let enough = accepted.iter().all(|count| *count > 2_000);
    assert!(enough, "{accepted:?} were accepted");
}

/// Lines that take nearly what is enough.
#[test]
fn the_dearest_lines_take_nearly_all() {
    let (n, view) = (enough::LINE, View::default());
    let tabs = vec![b'\t'; n];
    assert_eq!(
        read(&tabs, &[]).map(|line| line.spans.len()),
        Ok(enough::spans(n))
    );

    let hyphens = vec![b'-'; n];
    let wrapped = rows(&hyphens, Wrapping::new(0, WrappingMode::WordBoundary));
    let numbers = wrapped.map(|wrapped| 2 * wrapped.rows.len()).unwrap();
    assert!((enough::rows(n) - 2..=enough::rows(n)).contains(&numbers));

    let tabs_and_controls = b"\t\x01".repeat(n / 2);
    let drawn = draw_window(&tabs_and_controls, &view, 0..1_000_000).unwrap();
    assert!(drawn.list.len() > enough::list(n) / 45 * 40);

    let letters = b"a\x1B[1mb\x1B[m".repeat(n / 9);
    let drawn = draw_window(&letters, &view, 0..80).unwrap();
    assert!(drawn.list.len() > enough::window(n, 80) - 3 * n - 151);
}

#[test]
fn lists_and_rows_of_any_line_fit() {
    let random = &mut Random::new(1);
    for _ in 0..2_000 {
        let line = hostile(random, 100);
        let Ok(drawn) = draw_window(&line, &View::default(), 0..80) else {
            continue;
        };
        let row = screen_row(&drawn.list, 80);
        assert_eq!(row.map(|row| row.cells().count()), Ok(80));
        let stored = store(&drawn.list).expect("a stored form");
        assert_eq!(restore(&stored).as_ref(), Ok(&drawn.list));
    }
}

#[test]
fn kept_wraps_of_another_line_fit() {
    let mut wraps = Wraps::new();
    let wrapping = Wrapping::new(1, WrappingMode::GraphemeBoundary);
    let long = cached_rows(&[b'a'; 1_024], wrapping, &mut wraps).expect("rows");
    assert_eq!(long.rows.len(), 1_024);
    let other = cached_rows(b"a", wrapping, &mut wraps).expect("rows");
    assert_eq!(other.rows, long.rows);
}

#[test]
fn types_are_shared_between_threads() {
    fn shared<T: Send + Sync>() {}
    shared::<(Line, WrappedLine, DrawnLine, ScreenRow, Wraps)>();
    shared::<(Reading, Wrapped, Drawing, Spans, Rows, Cells, Changes)>();
    shared::<(Refusal, Malformed, Narrowest, View, Wrapping)>();
}

/// What the calls give for a line, one after the other.
fn all_calls(line: &[u8]) -> (DrawnLine, ScreenRow, WrappedLine, usize, Narrowest) {
    let wrapping = Wrapping::new(8, WrappingMode::WordBoundaryAsDrawn);
    let drawn = draw_window(line, &View::default(), 0..80).unwrap();
    let row = screen_row(&drawn.list, 80).unwrap();
    let mut wraps = Wraps::new();
    let rows = cached_rows(line, wrapping, &mut wraps).unwrap();
    let height = cached_height(line, wrapping, &mut wraps).unwrap();
    let narrowest = narrowest(line, WrappingMode::WordBoundary, 9, 99).unwrap();
    (drawn, row, rows, height, narrowest)
}

/// The calls with the most memory of their own, at once on threads with little more stack than
/// the 128 KiB that the header says.
#[test]
fn threads_may_call_at_once() {
    let lines = ["a\x08a", "漢字\t-", "\u{301}\u{301}"].map(|text| text.repeat(200).into_bytes());
    let alone: Vec<_> = lines.iter().map(|line| all_calls(line)).collect();
    std::thread::scope(|scope| {
        let start = |line| {
            let thread = std::thread::Builder::new().stack_size(160 * 1_024);
            thread.spawn_scoped(scope, move || all_calls(line))
        };
        let threads: Vec<_> = lines.iter().map(|line| start(line).unwrap()).collect();
        let given = threads.into_iter().map(|thread| thread.join().unwrap());
        assert!(given.eq(alone));
    });
}
