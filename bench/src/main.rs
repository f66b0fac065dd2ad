//! Measures the static library and the Rust source on the same lines.

mod cache;
mod calls;
mod lines;
mod memory;
mod narrowest;
mod screen;
mod table;
mod times;
mod timing;

use lines::KINDS;
use oracle::Call;
use std::env;
use std::process::ExitCode;
use std::time::Duration;
use table::Table;
use timing::Effort;

const USAGE: &str = "usage: bench [--call NAME]... [--quick] [--times] [--growth]
       bench --once NAME CALL LINE BYTES";

const HEADING: &str = "\
Calls from the raw line: medians of processor time, warmed up, both built for release.
No buffer is cleared by the caller: the library writes all of what it is lent in every
call, zeros included.
  ratio     source / just: how many times as fast the library is; with a star where it
            is below what is wanted, 3 for the log line and the coloured one, else 2
  just      nanoseconds of the library, lent just enough memory
  generous  the same, lent at least 32,768 bytes, 2,048 spans, 4,096 rows and 65,536
            bytes of changes
  source    nanoseconds of the Rust's own functions, which allocate what they return
Columns: width/mode, window, row:width/mode.";

struct Options {
    calls: Vec<String>,
    effort: Effort,
    times: bool,
    growth: bool,
}

impl Options {
    fn of(mut arguments: impl Iterator<Item = String>) -> Option<Options> {
        let sample = Duration::from_millis(1);
        let mut options = Options {
            calls: Vec::new(),
            effort: Effort { rounds: 21, sample },
            times: false,
            growth: false,
        };
        while let Some(argument) = arguments.next() {
            match argument.as_str() {
                "--call" => options.calls.push(arguments.next()?),
                "--quick" => options.effort.rounds = 5,
                "--times" => options.times = true,
                "--growth" => options.growth = true,
                _ => return None,
            }
        }
        let further = [screen::NAME, narrowest::NAME];
        let names = [&Call::NAMES[..], &further, &cache::NAMES].concat();
        let known = |call: &String| names.contains(&call.as_str());
        options.calls.iter().all(known).then_some(options)
    }

    fn wants(&self, name: &str) -> bool {
        self.calls.is_empty() || self.calls.iter().any(|call| call == name)
    }
}

/// Makes one call and prints its name, numbers and line, if the arguments ask for that
/// and there is such a call and line.
fn once(arguments: &[String]) -> Option<()> {
    let [_, option, name, call, line, bytes] = arguments else {
        return None;
    };
    let [call, line, bytes] = [call, line, bytes].map(|number| number.parse::<usize>().ok());
    let (call, line, bytes) = (call?, line?, bytes?);
    if option == "--once" && name == screen::NAME {
        return screen::once(call, line, bytes);
    }
    if option == "--once" && name == narrowest::NAME {
        return narrowest::once(call, line, bytes);
    }
    if option == "--once" && cache::NAMES.contains(&name.as_str()) {
        return cache::once(name, call, line, bytes);
    }
    let calls = calls::growing(Call::NAMES.into_iter().find(|known| known == name)?);
    let call = calls.get(call)?;
    let kind = KINDS.get(line)?;
    let line = kind.line(bytes);
    if option == "--once" {
        times::once(call, &line);
        println!("{name} {}\t{}", calls::label(call), kind.name);
    }
    Some(())
}

fn main() -> ExitCode {
    let arguments: Vec<String> = env::args().collect();
    if once(&arguments).is_some() {
        return ExitCode::SUCCESS;
    }
    let Some(options) = Options::of(arguments.into_iter().skip(1)) else {
        eprintln!("{USAGE}");
        return ExitCode::from(2);
    };
    println!("{HEADING}");
    for name in Call::NAMES.into_iter().filter(|name| options.wants(name)) {
        measure(name, &options);
    }
    if options.wants(screen::NAME) {
        screen::print_times(options.effort);
    }
    if options.wants(narrowest::NAME) {
        narrowest::print_times();
    }
    for name in cache::NAMES.iter().filter(|name| options.wants(name)) {
        cache::print_times(name, options.effort, options.times);
    }
    ExitCode::SUCCESS
}

fn measure(name: &'static str, options: &Options) {
    let effort = options.effort;
    let table = Table::measured(name, effort);
    for table in [&table, &Table::with_hyphens(name, effort)] {
        table.print_ratios();
        if options.times {
            table.print_times();
        }
    }
    if name == "convert" {
        table::print_copying(&table, effort);
    }
    if options.growth {
        table::print_growths(name, effort);
    }
}
