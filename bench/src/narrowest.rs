//! narrowest: the widths that it tries, beside as many wraps of the spans read once.

use crate::lines::{Kind, KINDS};
use crate::memory::Memory;
use crate::timing::{medians, Effort};
use console_lines::raw::{SpanRecord, WidthAnswer};
use oracle::source::SourceLine;
use oracle::Call;
use std::hint::black_box;

pub const NAME: &str = "narrowest";

/// One row is wanted: every width up to the line's last column is tried, or with tabs
/// nearly every one.
const WANTED: usize = 1;
const GREATEST: usize = 65_535;
const MODES: [usize; 2] = [1, 2];
const LONGEST: usize = 4_096;

/// Each work takes long enough to be measured alone.
const ROUNDS: usize = 5;

const HEADING: &str = "
narrowest, lines of 4,096 bytes, one row wanted, in milliseconds:
  widths    how many are tried
  narrowest the call
  wraps     height at each of these widths, less reading the line as often
  source    the Rust's make_wrap at each of them, the line read once";

/// The lines whose last column is far off, and a plain one.
fn lines() -> impl Iterator<Item = &'static Kind> {
    let names = ["tabs", "ESC", "one word", "plain log line"];
    KINDS.iter().filter(move |kind| names.contains(&kind.name))
}

/// A line, and memory that is just enough to read it.
struct Fitted {
    line: Vec<u8>,
    mode: usize,
    conv: Vec<u8>,
    spans: Vec<SpanRecord>,
}

impl Fitted {
    fn new(line: &[u8], mode: usize) -> Fitted {
        let matches = Vec::new();
        let reading = Call::Read { matches }.ample_answer(line);
        Fitted {
            line: line.to_vec(),
            mode,
            conv: vec![0; 8 * line.len()],
            spans: vec![SpanRecord::default(); reading.count],
        }
    }

    fn narrowest(&mut self) -> WidthAnswer {
        let line = black_box(&self.line);
        let Fitted { conv, spans, .. } = self;
        console_lines::raw::narrowest(line, self.mode, WANTED, GREATEST, conv, spans)
    }
}

/// Nanoseconds of each work.
struct Times {
    tried: usize,
    narrowest: f64,
    wraps: f64,
    source: f64,
}

fn times(line: &[u8], mode: usize) -> Times {
    let mut fitted = Fitted::new(line, mode);
    let tried = fitted.narrowest().tried;
    let sizes = [fitted.conv.len(), fitted.spans.len(), 0, 0];
    let [mut heights, mut reads] = [(); 2].map(|()| Memory::new(sizes));
    let matches = Vec::new();
    let reading = Call::Read { matches };
    let read_once = SourceLine::read(line);
    assert_eq!(found(&read_once, mode), tried, "another width is found");
    let effort = Effort {
        rounds: ROUNDS,
        sample: Default::default(),
    };
    let [narrowest, heights, reads, source] = medians(
        effort,
        [
            &mut || {
                black_box(fitted.narrowest());
            },
            &mut || {
                for width in 1..=tried {
                    let call = Call::Height { width, mode };
                    black_box(heights.call(&call, black_box(line), sizes));
                }
            },
            &mut || {
                for _ in 1..=tried {
                    black_box(reads.call(&reading, black_box(line), sizes));
                }
            },
            &mut || {
                black_box(found(&read_once, mode));
            },
        ],
    );
    Times {
        tried,
        narrowest,
        wraps: heights - reads,
        source,
    }
}

/// The width that the source's own wrapping finds.
fn found(line: &SourceLine, mode: usize) -> usize {
    let mut widths = 1..=GREATEST;
    let width = widths.find(|&width| line.rows(width, mode).len() <= WANTED);
    width.expect("a width of one row")
}

pub fn print_times() {
    println!("{HEADING}");
    for mode in MODES {
        let title = format!("{NAME}: mode {mode}");
        println!(
            "\n{title:<28} {:>7} {:>9} {:>9} {:>9}",
            "widths", "narrowest", "wraps", "source"
        );
        let measure = |kind: &'static Kind| (kind.name, times(&kind.line(LONGEST), mode));
        for (name, times) in oracle::progress::each(title, lines().collect(), measure) {
            let [narrowest, wraps, source] =
                [times.narrowest, times.wraps, times.source].map(|time| time / 1e6);
            let tried = times.tried;
            println!("{name:<28} {tried:>7} {narrowest:>9.1} {wraps:>9.1} {source:>9.1}");
        }
    }
}

/// Makes one call, and prints its mode and the line, if there are such: bench/count counts
/// it.
pub fn once(mode: usize, line: usize, bytes: usize) -> Option<()> {
    let (mode, kind) = (MODES.get(mode)?, lines().nth(line)?);
    black_box(Fitted::new(&kind.line(bytes), *mode).narrowest());
    println!("{NAME}: mode {mode}\t{}", kind.name);
    Some(())
}
