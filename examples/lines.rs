//! Converts, reads, wraps and draws each line of the files, or of standard input, and prints what
//! the calls give.
//!
//!     lines WIDTH MODE [FILE ..]
//!
//!     NUMBER: BYTES bytes, N spans, N rows, N bytes of changes     (FILE:NUMBER: where files are named)
//!       span KIND PLACE LENGTH: its bytes of the converted line
//!       row START END
//!       drawn: the texts of the change list
//!     NUMBER: refused NUMBER: why
//!
//! A line is of any bytes and any length, its newline included. Where one is refused, the next one
//! follows. Bytes that are not 20 to 7E, and 5C, are printed as \xhh. Status 1 where a file cannot
//! be read, 2 for other arguments.

use console_lines::{
    convert, draw_row, read, rows, Change, DrawnLine, Refusal, Row, Span, View, Wrapping,
    WrappingMode,
};
use std::ffi::OsString;
use std::fs::File;
use std::io::{self, BufRead, BufReader, BufWriter, Write};
use std::process::ExitCode;

/// What the calls give for a line.
struct Shown {
    converted: Vec<u8>,
    spans: Vec<Span>,
    rows: Vec<Row>,
    drawn: DrawnLine,
}

/// Makes the calls; the first refusal ends them.
fn show(line: &[u8], width: usize, mode: usize) -> Result<Shown, Refusal> {
    let converted = convert(line)?;
    let spans = read(line, &[])?.spans;
    let mode = WrappingMode::from_number(mode).ok_or(Refusal::OutOfRange)?;
    let wrapping = Wrapping { width, mode };
    let rows = rows(line, wrapping)?.rows;
    let drawn = draw_row(line, &View::default(), 0..rows.len(), wrapping)?;
    Ok(Shown {
        converted,
        spans,
        rows,
        drawn,
    })
}

fn print(out: &mut impl Write, shown: &Shown) -> io::Result<()> {
    let Shown {
        converted,
        spans,
        rows,
        drawn,
    } = shown;
    write!(out, "{} bytes, {} spans, ", converted.len(), spans.len())?;
    writeln!(
        out,
        "{} rows, {} bytes of changes",
        rows.len(),
        drawn.list.len()
    )?;
    for span in spans {
        write!(
            out,
            "  span {} {} {}: ",
            span.kind.number(),
            span.place,
            span.len
        )?;
        print_bytes(out, &converted[span.range()])?;
        writeln!(out)?;
    }
    for row in rows {
        writeln!(out, "  row {} {}", row.start, row.end.unwrap_or(usize::MAX))?;
    }
    write!(out, "  drawn: ")?;
    for change in drawn.changes() {
        if let Change::Text(text) = change {
            print_bytes(out, text.as_bytes())?;
        }
    }
    writeln!(out)
}

fn print_bytes(out: &mut impl Write, bytes: &[u8]) -> io::Result<()> {
    for &byte in bytes {
        match byte {
            b'\\' => write!(out, "\\x5c")?,
            b' '..=b'~' => out.write_all(&[byte])?,
            _ => write!(out, "\\x{byte:02x}")?,
        }
    }
    Ok(())
}

/// What cannot be read, or written.
enum Trouble {
    Input,
    Output(io::Error),
}

/// Prints the lines of an input; `name` stands before each number.
fn print_lines(
    mut input: impl BufRead,
    name: &[u8],
    (width, mode): (usize, usize),
    out: &mut impl Write,
) -> Result<(), Trouble> {
    let mut line = Vec::new();
    let mut number = 0;
    while input
        .read_until(b'\n', &mut line)
        .map_err(|_| Trouble::Input)?
        > 0
    {
        number += 1;
        let shown = show(&line, width, mode);
        let printed = out.write_all(name).and_then(|()| {
            write!(out, "{number}: ")?;
            match shown {
                Ok(shown) => print(out, &shown),
                Err(refusal) => writeln!(out, "refused {}: {refusal}", refusal.number()),
            }
        });
        printed.map_err(Trouble::Output)?;
        line.clear();
    }
    Ok(())
}

/// Prints the lines of a file, or says that it cannot be read; whether it could be.
fn print_file(file: &OsString, numbers: (usize, usize), out: &mut impl Write) -> io::Result<bool> {
    let name = [file.as_encoded_bytes(), b":"].concat();
    let printed = match File::open(file) {
        Ok(input) => print_lines(BufReader::new(input), &name, numbers, out),
        Err(_) => Err(Trouble::Input),
    };
    match printed {
        Ok(()) => Ok(true),
        Err(Trouble::Input) => {
            eprintln!("lines: {}: cannot be read", file.to_string_lossy());
            Ok(false)
        }
        Err(Trouble::Output(error)) => Err(error),
    }
}

/// Whether all files could be read; the error is of the output.
fn print_files(files: &[OsString], numbers: (usize, usize)) -> io::Result<bool> {
    let mut out = BufWriter::new(io::stdout().lock());
    let mut good = true;
    if files.is_empty() {
        match print_lines(io::stdin().lock(), b"", numbers, &mut out) {
            Ok(()) => {}
            Err(Trouble::Input) => {
                eprintln!("lines: standard input cannot be read");
                good = false;
            }
            Err(Trouble::Output(error)) => return Err(error),
        }
    }
    for file in files {
        good &= print_file(file, numbers, &mut out)?;
    }
    out.flush()?;
    Ok(good)
}

/// Decimal digits; the largest number where they are above it.
fn number(argument: &OsString) -> Option<usize> {
    let digits = argument.to_str()?;
    let all = !digits.is_empty() && digits.bytes().all(|byte| byte.is_ascii_digit());
    all.then(|| digits.parse().unwrap_or(usize::MAX))
}

fn main() -> ExitCode {
    let arguments: Vec<OsString> = std::env::args_os().skip(1).collect();
    let numbers = match &arguments[..] {
        [width, mode, ..] => number(width).zip(number(mode)),
        _ => None,
    };
    let Some(numbers) = numbers else {
        eprintln!("lines WIDTH MODE [FILE ..]");
        return ExitCode::from(2);
    };
    match print_files(&arguments[2..], numbers) {
        Ok(true) => ExitCode::SUCCESS,
        Ok(false) => ExitCode::FAILURE,
        Err(error) => {
            eprintln!("lines: standard output: {error}");
            ExitCode::FAILURE
        }
    }
}
