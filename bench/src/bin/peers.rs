//! The part of bench/peers that is Rust: writes the five kinds of line, and times the
//! source on them.

#[allow(dead_code)]
#[path = "../lines.rs"]
mod lines;
#[path = "../timing.rs"]
mod timing;

use oracle::source::SourceLine;
use std::hint::black_box;
use std::path::Path;
use std::process::ExitCode;
use std::time::Duration;
use std::{env, fs};
use timing::{medians, Effort};

const USAGE: &str = "usage: peers lines FOLDER    writes the lines: N and N.long of kind N
       peers read|rows FILE    nanoseconds of the source, the least of seven";

fn main() -> ExitCode {
    let arguments: Vec<String> = env::args().skip(1).collect();
    match arguments.iter().map(String::as_str).collect::<Vec<_>>()[..] {
        ["lines", folder] => write_lines(Path::new(folder)),
        [task @ ("read" | "rows"), file] => {
            println!("{:.0}", least(task, &fs::read(file).unwrap()))
        }
        _ => {
            eprintln!("{USAGE}");
            return ExitCode::from(2);
        }
    }
    ExitCode::SUCCESS
}

fn write_lines(folder: &Path) {
    for (i, kind) in lines::KINDS.iter().filter(|kind| !kind.hostile).enumerate() {
        fs::write(folder.join(i.to_string()), kind.short()).unwrap();
        fs::write(folder.join(format!("{i}.long")), kind.line(4096)).unwrap();
        println!("{}", kind.name);
    }
}

fn least(task: &str, line: &[u8]) -> f64 {
    let effort = Effort {
        rounds: 1,
        sample: Duration::from_millis(10),
    };
    let mut work = || match task {
        "read" => drop(black_box(SourceLine::read(black_box(line)))),
        _ => drop(black_box(SourceLine::read(black_box(line)).rows(80, 2))),
    };
    let times = (0..7).map(|_| medians(effort, [&mut work])[0]);
    times.fold(f64::INFINITY, f64::min)
}
