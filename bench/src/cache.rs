//! Calls with kept wraps: asking again beside asking anew.

use crate::calls::label;
use crate::lines::{Kind, KINDS};
use crate::memory::{just, Memory};
use crate::timing::{medians, Effort};
use console_lines::raw::WRAPS;
use oracle::{Call, Sizes};
use std::hint::black_box;

pub const NAMES: [&str; 2] = ["cached_rows", "cached_height"];

const LONGEST: usize = 4_096;
const WIDTHS: [(usize, usize); 4] = [(40, 1), (80, 1), (40, 2), (80, 2)];

/// The numbers of the heads: zeros keep none.
const HEADS: usize = 20;

const HEADING: &str = "
Kept wraps of lines of 4,096 bytes, lent just enough:
  read      nanoseconds of reading the line, which every call owes
  anew      those of the call without kept wraps
  first     those of the call where none are kept
  again     those of the call where its wrap is kept";

/// The same calls without kept wraps.
fn calls(name: &str) -> [Call; 4] {
    WIDTHS.map(|(width, mode)| match name {
        "cached_rows" => Call::Rows { width, mode },
        _ => Call::Height { width, mode },
    })
}

fn reading() -> Call {
    let matches = Vec::new();
    Call::Read { matches }
}

/// The call that keeps the same wrap, but for the row list.
fn other(call: &Call) -> Call {
    match *call {
        Call::Rows { width, mode } => Call::Height { width, mode },
        Call::Height { width, mode } => Call::Rows { width, mode },
        _ => call.clone(),
    }
}

/// Memory for a line and its kept wraps.
struct Kept<'l> {
    line: &'l [u8],
    sizes: Sizes,
    memory: Memory,
    wraps: Box<[usize; WRAPS]>,
}

impl Kept<'_> {
    /// Lent just enough for rows, with the wrap of the call kept.
    fn new<'l>(call: &Call, line: &'l [u8]) -> Kept<'l> {
        let rows = match call {
            Call::Height { .. } => other(call),
            _ => call.clone(),
        };
        let sizes = just(line, &rows.ample_answer(line));
        let mut kept = Kept {
            line,
            sizes,
            memory: Memory::new(sizes),
            wraps: Box::new([0; WRAPS]),
        };
        kept.ask(&other(call));
        assert!(kept.wraps[3] > 0, "{call:?}: nothing is kept");
        kept
    }

    fn ask(&mut self, call: &Call) {
        let line = black_box(self.line);
        let answer = self.memory.cached(call, line, self.sizes, &mut self.wraps);
        assert_eq!(black_box(answer).number, 0, "{call:?} is refused");
    }

    /// Asks as for the first time.
    fn ask_first(&mut self, call: &Call) {
        self.wraps[..HEADS].fill(0);
        self.ask(call);
    }

    /// Asks for the same, or for the line read, without kept wraps.
    fn ask_anew(&mut self, call: &Call) {
        let line = black_box(self.line);
        black_box(self.memory.call(call, line, self.sizes));
    }

    /// The answer must be the oracle's, whether the wrap is kept or not.
    fn compare(&mut self, call: &Call) {
        let expected = call.ample_answer(self.line);
        for heads in [HEADS, 0] {
            self.wraps[..heads].fill(0);
            let wraps = &mut self.wraps;
            let answer = self.memory.cached(call, self.line, self.sizes, wraps);
            let right = self.memory.holds(answer, &expected);
            assert!(right, "{call:?}: a wrong answer");
        }
    }
}

/// Nanoseconds of reading the line, of asking without kept wraps, of asking for the first
/// time, and of asking again.
struct Times {
    read: f64,
    anew: f64,
    first: f64,
    again: f64,
}

fn times(call: &Call, line: &[u8], effort: Effort) -> Times {
    let mut works = [(); 4].map(|()| Kept::new(call, line));
    works[0].compare(call);
    let [read, anew, first, again] = &mut works;
    let [read, anew, first, again] = medians(
        effort,
        [
            &mut || read.ask_anew(&reading()),
            &mut || anew.ask_anew(call),
            &mut || first.ask_first(call),
            &mut || again.ask(call),
        ],
    );
    Times {
        read,
        anew,
        first,
        again,
    }
}

/// Prints how many times as fast asking again is; with `all` the times, too.
pub fn print_times(name: &str, effort: Effort, all: bool) {
    println!("{HEADING}");
    let calls = calls(name);
    let rows = oracle::progress::each(
        name.to_string(),
        KINDS.iter().collect(),
        |kind: &'static Kind| {
            let line = kind.line(LONGEST);
            let times = calls.each_ref().map(|call| times(call, &line, effort));
            (kind.name, times)
        },
    );
    let print = |what: &str, cell: &dyn Fn(&Times) -> String| {
        let title = format!("{name}: {what}");
        print!("\n{title:<28}");
        calls.iter().for_each(|call| print!(" {:>8}", label(call)));
        println!();
        for (kind, times) in &rows {
            print!("{kind:<28}");
            times.iter().for_each(|times| print!(" {:>8}", cell(times)));
            println!();
        }
    };
    print("anew / again", &|times| {
        format!("{:.2}", times.anew / times.again)
    });
    if all {
        print("read", &|times| format!("{:.0}", times.read));
        print("anew", &|times| format!("{:.0}", times.anew));
        print("first", &|times| format!("{:.0}", times.first));
        print("again", &|times| format!("{:.0}", times.again));
    }
}

/// Reads the line, asks without kept wraps, and asks once for what is kept: bench/count
/// counts one of these. Prints the call and the line, if there are such.
pub fn once(name: &str, call: usize, line: usize, bytes: usize) -> Option<()> {
    let calls = calls(name);
    let (call, kind) = (calls.get(call)?, KINDS.get(line)?);
    let line = kind.line(bytes);
    let mut kept = Kept::new(call, &line);
    kept.ask_anew(&reading());
    kept.ask_anew(call);
    kept.ask(call);
    println!("{name} {}\t{}", label(call), kind.name);
    Some(())
}
