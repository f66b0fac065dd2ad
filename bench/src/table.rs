//! The tables of a call: how many times as fast as the source the library is, the
//! times themselves, and how they grow with the line.

use crate::calls::{self, label};
use crate::lines::{Kind, HYPHENS, KINDS};
use crate::times::{copying, times, Times};
use crate::timing::Effort;
use oracle::progress::each;
use oracle::Call;

const LENGTHS: [usize; 4] = [512, 1_024, 2_048, 4_096];
const LONGEST: usize = LENGTHS[3];

/// A line, and its times in each of some calls.
struct Row {
    kind: &'static Kind,
    line: Vec<u8>,
    times: Vec<Times>,
}

pub struct Table {
    name: &'static str,
    calls: Vec<Call>,
    rows: Vec<Row>,
}

impl Table {
    /// Measures the calls of a name on each line.
    pub fn measured(name: &'static str, effort: Effort) -> Table {
        let common = KINDS.iter().filter(|kind| !kind.hostile);
        let short = common.map(|kind| (kind, kind.short()));
        let long = KINDS.iter().map(|kind| (kind, kind.line(LONGEST)));
        Table::of(name, calls::measured(name), short.chain(long), effort)
    }

    /// Measures a line of hyphens.
    pub fn with_hyphens(name: &'static str, effort: Effort) -> Table {
        let lines = [(&HYPHENS, HYPHENS.line(LONGEST))].into_iter();
        Table::of(name, calls::with_hyphens(name), lines, effort)
    }

    fn of(
        name: &'static str,
        calls: Vec<Call>,
        lines: impl Iterator<Item = (&'static Kind, Vec<u8>)>,
        effort: Effort,
    ) -> Table {
        let row = |(kind, line): (_, Vec<u8>)| {
            let times = calls.iter().map(|call| times(call, &line, effort));
            let times = times.collect();
            Row { kind, line, times }
        };
        let rows = each(name.to_string(), lines.collect(), row);
        Table { name, calls, rows }
    }

    /// How many times as fast as the source the library is, lent just enough.
    pub fn print_ratios(&self) {
        self.print("ratio", |row, times| {
            self.marked(row, times.source / times.just)
        });
    }

    /// A ratio, with a star where it is below the one wanted.
    fn marked(&self, row: &Row, ratio: f64) -> String {
        let short = ratio < row.kind.wanted && !self.only_copies(&row.line);
        format!("{ratio:.1}{}", if short { '*' } else { ' ' })
    }

    /// Whether the call only copies the line: the source then does nothing.
    fn only_copies(&self, line: &[u8]) -> bool {
        self.name == "convert" && !line.contains(&0x08)
    }

    /// The same, lent generously, and the times themselves.
    pub fn print_times(&self) {
        self.print("ratio, generous", |row, times| {
            self.marked(row, times.source / times.generous)
        });
        self.print("just", |_, times| format!("{:.0} ", times.just));
        self.print("generous", |_, times| format!("{:.0} ", times.generous));
        self.print("source", |_, times| format!("{:.0} ", times.source));
    }

    fn print(&self, what: &str, cell: impl Fn(&Row, &Times) -> String) {
        if self.calls.is_empty() {
            return;
        }
        let title = format!("{}: {what}", self.name);
        print!("\n{title:<28} {:>6}", "bytes");
        for call in &self.calls {
            print!(" {:>7} ", label(call));
        }
        println!();
        for row in &self.rows {
            print!("{:<28} {:>6}", row.kind.name, row.line.len());
            for times in &row.times {
                print!(" {:>8}", cell(row, times));
            }
            println!();
        }
    }
}

/// Conversion beside copying the line and zeroing the rest of its buffer, for lines
/// that are only copied.
pub fn print_copying(table: &Table, effort: Effort) {
    println!(
        "\n{:<42} {:>6} {:>9} {:>9}",
        "convert: only copied", "bytes", "just", "copy"
    );
    let rows = table.rows.iter().filter(|row| table.only_copies(&row.line));
    let rows: Vec<&Row> = rows.collect();
    let set = "convert: only copied".to_string();
    let copies = each(set, rows.clone(), |row| copying(&row.line, effort));
    for (row, copy) in rows.into_iter().zip(copies) {
        let just = row.times[0].just;
        println!(
            "{:<28} {:>6} {just:>9.0} {copy:>9.0}",
            row.kind.name,
            row.line.len()
        );
    }
}

/// The times at four lengths, and their growth from the first to the last.
pub fn print_growths(name: &'static str, effort: Effort) {
    for call in calls::growing(name) {
        let title = format!("{name} {}: growth", label(&call));
        println!("\n{title:<24} {:>43} {:>43}", "just", "source");
        print!("{:<24}", "");
        for _ in 0..2 {
            LENGTHS.iter().for_each(|len| print!(" {len:>8}"));
            print!("  growth");
        }
        println!();
        let growths = each(title, KINDS.iter().collect(), |kind: &Kind| {
            LENGTHS.map(|len| times(&call, &kind.line(len), effort))
        });
        for (kind, times) in KINDS.iter().zip(growths) {
            print!("{:<24}", kind.name);
            print_growth(times.map(|times| times.just));
            print_growth(times.map(|times| times.source));
            println!();
        }
    }
}

fn print_growth(times: [f64; 4]) {
    times.iter().for_each(|time| print!(" {time:>8.0}"));
    print!(" {:>7.1}", times[3] / times[0]);
}
