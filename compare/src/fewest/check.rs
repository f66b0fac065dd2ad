//! What document 02 says of the rows of mode 1, asked of any program that answers calls.

use super::minimum::{fewest, fewest_of_all};
use super::Case;
use crate::units::{last_column, units, Unit};
use oracle::noise::Program;
use oracle::{Answer, Call};
use std::collections::BTreeSet;

pub enum Said {
    /// The rows are the fewest; how many there are.
    Least {
        rows: usize,
    },
    Refused,
    WithTabs,
    /// A unit is wider than the width.
    TooNarrow,
}

/// So few units are put into rows in every way.
const FEW: usize = 10;

/// Two things: the rows of mode 1 run end to end from column 0 to the last, cut between
/// units, none wider than the width; and no such list has fewer. What is not so, as text.
pub fn check(case: &Case, program: &mut Program) -> Result<Said, String> {
    let matches = Vec::new();
    let reading = Call::Read { matches }.ample_answer(&case.line);
    let line = units(&reading);
    let broken = |text: String| format!("# {text}\n{case}");
    let answer = program(&case.rows());
    match answer.number {
        0 => (),
        _ if !case.is_admitted() => return Ok(Said::Refused),
        number => return Err(broken(format!("refused by {number}"))),
    }
    if line.contains(&Unit::Tab) {
        return Ok(Said::WithTabs);
    }
    let widths: Vec<usize> = line.iter().map(columns).collect();
    if widths.iter().any(|unit| *unit > case.width) {
        return Ok(Said::TooNarrow);
    }
    let rows = rows(&answer);
    is_list(&rows, &widths, case.width, last_column(&line)).map_err(broken)?;
    let least = fewest(&widths, case.width);
    if widths.len() <= FEW {
        assert_eq!(least, fewest_of_all(&widths, case.width), "{case}");
    }
    if rows.len() > least {
        return Err(broken(format!("{} rows, {least} would do", rows.len())));
    }
    Ok(Said::Least { rows: rows.len() })
}

fn columns(unit: &Unit) -> usize {
    match unit {
        Unit::Columns(columns) => *columns,
        Unit::Tab => panic!("a tab is no unit"),
    }
}

fn rows(answer: &Answer) -> Vec<(usize, usize)> {
    let numbers = &answer.pairs[..2 * answer.count];
    numbers.chunks(2).map(|pair| (pair[0], pair[1])).collect()
}

/// Whether it is a list of rows as document 02 has them in mind; what is not so, as text.
fn is_list(
    rows: &[(usize, usize)],
    units: &[usize],
    width: usize,
    last: usize,
) -> Result<(), String> {
    let mut edges = BTreeSet::from([0]);
    let mut column = 0;
    for unit in units {
        column += unit;
        edges.insert(column);
    }
    let mut at = 0;
    for &(start, end) in rows {
        if start != at || end < start {
            return Err(format!("a row from {start} to {end} behind column {at}"));
        }
        if end - start > width {
            return Err(format!("a row from {start} to {end}, wider than {width}"));
        }
        if !edges.contains(&end) {
            return Err(format!("a row ends inside a unit, at {end}"));
        }
        at = end;
    }
    if rows.is_empty() || at != last {
        return Err(format!("the last row ends at {at}, the line at {last}"));
    }
    Ok(())
}
