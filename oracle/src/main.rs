//! The program around the oracle.

use oracle::coverage::Coverage;
use oracle::format::answer_text;
use oracle::generate;
use oracle::noise::{Counts, Exchange, Half, Separation};
use oracle::progress::Progress;
use oracle::random::Random;
use oracle::statements::{self, Statement};
use oracle::{sample as recorded, Case};
use std::io::{self, BufRead, BufWriter, Write};
use std::process::ExitCode;

const USAGE: &str = "usage: oracle answer | verify | bench-lines | corners | profile
       | random COUNT SEED | demand3 COUNT SEED | sample SEED | coverage";

type Outcome = Result<(), String>;

fn main() -> ExitCode {
    let arguments: Vec<String> = std::env::args().skip(1).collect();
    let arguments: Vec<&str> = arguments.iter().map(String::as_str).collect();
    match run(&arguments) {
        Ok(()) => ExitCode::SUCCESS,
        Err(message) => {
            eprintln!("oracle: {message}");
            ExitCode::FAILURE
        }
    }
}

fn run(arguments: &[&str]) -> Outcome {
    match arguments {
        ["answer"] => answer(),
        ["verify"] => verify(),
        ["bench-lines"] => bench_lines(),
        ["corners"] => corners(),
        ["profile"] => profile(),
        ["random", count, seed] => random(number(count)?, number(seed)? as u64),
        ["demand3", count, seed] => demand3(number(count)?, number(seed)? as u64),
        ["sample", seed] => sample(number(seed)? as u64),
        ["coverage"] => coverage(),
        _ => Err(USAGE.to_string()),
    }
}

/// The cases on standard input with their numbers, comment lines left out.
fn cases() -> impl Iterator<Item = (usize, String)> {
    let lines = io::stdin()
        .lock()
        .lines()
        .map(|line| line.expect("standard input"));
    let numbered = lines.enumerate().map(|(index, line)| (index + 1, line));
    numbered.filter(|(_, line)| !line.starts_with('#'))
}

fn parse(number: usize, text: &str) -> Result<Case, String> {
    text.parse().map_err(|e| format!("line {number}: {e}"))
}

fn answer() -> Outcome {
    let mut out = BufWriter::new(io::stdout().lock());
    for (number, line) in cases() {
        let case = parse(number, &line)?;
        writeln!(out, "{}", case.answered()).map_err(|e| e.to_string())?;
    }
    Ok(())
}

fn verify() -> Outcome {
    let (mut agree, mut differ) = (0, 0);
    for (number, line) in cases() {
        let (question, stated) = line
            .split_once(" = ")
            .ok_or(format!("line {number}: no answer"))?;
        let case = parse(number, question)?;
        let answer = answer_text(&case.call, &case.answer());
        if answer == stated {
            agree += 1;
        } else {
            differ += 1;
            println!("line {number}: {line}\n  should be = {answer}");
        }
    }
    println!("verify: {agree} agree, {differ} differ");
    outcome(differ == 0, "verify")
}

fn number(text: &str) -> Result<usize, String> {
    text.parse().map_err(|_| format!("not a number: {text:?}"))
}

/// Compares statements with the source's answers.
fn hold(name: &str, statements: &[Statement]) -> Outcome {
    let faults: Vec<String> = statements.iter().filter_map(Statement::fault).collect();
    for fault in &faults {
        println!("{name}: not as stated: {fault}");
    }
    println!(
        "{name}: {} of {} hold",
        statements.len() - faults.len(),
        statements.len()
    );
    outcome(faults.is_empty(), name)
}

fn outcome(good: bool, name: &str) -> Outcome {
    if good {
        Ok(())
    } else {
        Err(format!("{name} failed"))
    }
}

fn bench_lines() -> Outcome {
    hold("bench lines", &statements::bench_lines())?;
    let clips = |&(text, offset, width, clipped): &(&str, usize, usize, Option<&str>)| {
        oracle::clip(text, offset, width).as_deref() == clipped
    };
    let good = statements::CLIPPINGS
        .iter()
        .filter(|clipping| clips(clipping))
        .count();
    let all = statements::CLIPPINGS.len();
    println!("bench lines, clipping: {good} of {all} hold");
    outcome(good == all, "clipping")
}

fn corners() -> Outcome {
    hold("corners", &statements::corners())
}

/// Rust's own whitespace and control characters are those of document 01, and
/// line drawing replaces a scalar by another that is one cluster of one column.
fn profile() -> Outcome {
    let scalars = (0..=0x10FFFF).filter_map(char::from_u32);
    let (mut all, mut differ) = (0, 0);
    for c in scalars {
        let scalar = u32::from(c);
        let whitespace = profile::in_any(profile::WHITESPACE, scalar);
        let control = profile::within((0, 0x1F), scalar) || profile::within((0x7F, 0x9F), scalar);
        all += 1;
        differ += usize::from(c.is_whitespace() != whitespace || c.is_control() != control);
    }
    println!("profile: whitespace and controls of {all} scalars, {differ} differ");
    let plain = |c: char| profile::class(c) == profile::Class::Other && profile::width(c) == 1;
    let replaced = (0x5F..=0x7E_u8).map(|byte| oracle::line_drawn(&char::from(byte).to_string()));
    let replaced = replaced.filter(|text| text.chars().count() == 1 && text.chars().all(plain));
    let replaced = replaced.count();
    println!("profile: {replaced} of 32 replacements are one plain scalar");
    outcome(differ == 0 && replaced == 32, "profile")
}

/// Any calls, with and without matches: each answer is checked as it is made,
/// and the text of each case is read back.
fn random(count: usize, seed: u64) -> Outcome {
    let mut random = Random::new(seed);
    let mut coverage = Coverage::default();
    let progress = Progress::of("random calls".to_string(), count);
    for _ in progress.counted(0..count) {
        let case = generate::case(&mut random, true);
        coverage.add(&case);
        if case.to_string().parse() != Ok(case.clone()) {
            return Err(format!("not read back: {case}"));
        }
        oracle::check_constructors(&case.line);
        oracle::check_last_clusters(&case.line);
    }
    drop(progress);
    coverage.print();
    Ok(())
}

fn demand3(count: usize, seed: u64) -> Outcome {
    half::<Separation>(count, seed)?;
    half::<Exchange>(count, seed)
}

fn half<H: Half>(count: usize, seed: u64) -> Outcome {
    let random = (0..count).map(|case| H::random(&mut Random::of_case(seed, case)));
    hold_half("random", count, random)?;
    hold_half("short", H::short().count(), H::short())
}

fn hold_half<H: Half>(lines: &str, count: usize, cases: impl Iterator<Item = H>) -> Outcome {
    let set = format!("demand 3, {}, {lines} lines", H::NAME);
    let progress = Progress::of(set.clone(), count);
    let mut counts = Counts::default();
    for case in progress.counted(cases) {
        counts.count(case.check(&mut |case| case.answer())?);
    }
    drop(progress);
    let Counts {
        cases,
        accepted,
        further,
    } = counts;
    let what = H::FURTHER;
    println!("{set}: {cases}, {accepted} accepted, {further} {what}");
    Ok(())
}

fn sample(seed: u64) -> Outcome {
    let mut out = BufWriter::new(io::stdout().lock());
    writeln!(out, "{}", recorded::header(seed)).map_err(|e| e.to_string())?;
    for case in recorded::cases(seed) {
        writeln!(out, "{}", case.answered()).map_err(|e| e.to_string())?;
    }
    Ok(())
}

/// Counts what the whole lines on standard input cover.
fn coverage() -> Outcome {
    let mut coverage = Coverage::default();
    for (number, line) in cases() {
        let question = line.split(" = ").next().unwrap_or_default();
        coverage.add(&parse(number, question)?);
    }
    coverage.print();
    let missing = coverage.missing();
    for what in &missing {
        println!("missing: {what}");
    }
    outcome(missing.is_empty(), "coverage")
}
