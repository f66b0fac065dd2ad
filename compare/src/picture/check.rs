//! What the rows of a line must show together.

use super::case::{Case, LARGEST};
use super::shown::{columns, shown, Cluster};
use crate::lines::LONGEST_ADMITTED;
use oracle::noise::Program;
use oracle::{Answer, Call, Case as Asked, Sizes, NONE};
use std::str;

/// The kind of an Unprintable span.
const UNPRINTABLE: usize = 5;

/// What was said of a case.
#[derive(Clone, Copy, Default)]
pub struct Said {
    /// Reading the line is accepted.
    pub accepted: bool,
    /// An Unprintable span is not one scalar of at most U+FFFF.
    pub beyond: bool,
    /// For that reason nothing is said in this mode.
    pub outside: bool,
    pub rows: usize,
    pub drawings: usize,
}

/// What the program's answers say of the row picture, or what is wrong with them.
pub fn check(case: &Case, program: &mut Program) -> Result<Said, String> {
    let reading = case.reading();
    let read = program(&reading);
    if read.number == 1 && case.line.len() > LONGEST_ADMITTED {
        return Ok(Said::default());
    }
    let spans = read.count;
    let beyond = match (read.number, is_beyond(&read)) {
        (0, Some(beyond)) => beyond,
        _ => return Err(fault("no reading", &reading)),
    };
    let mut said = Said {
        accepted: true,
        beyond,
        outside: beyond && case.mode <= 2,
        ..Said::default()
    };
    if !said.outside {
        let mut pager = Pager::new(case, spans, program);
        said.rows = pager.check()?;
        said.drawings = pager.drawings;
    }
    Ok(said)
}

/// Whether an Unprintable span is not one scalar of at most U+FFFF. None where the
/// records are none.
fn is_beyond(read: &Answer) -> Option<bool> {
    let mut beyond = false;
    for record in read.records.get(..read.count)? {
        if record.kind == UNPRINTABLE {
            let bytes = read.conv.get(record.place..record.place + record.len)?;
            let scalars: Vec<char> = str::from_utf8(bytes).ok()?.chars().collect();
            beyond |= !matches!(scalars[..], ['\0'..='\u{FFFF}']);
        }
    }
    Some(beyond)
}

fn fault(what: &str, asked: &Asked) -> String {
    format!("# picture: {what}\n{asked}")
}

/// Asks for rows and draws them.
struct Pager<'c, 'p> {
    case: &'c Case,
    program: &'c mut Program<'p>,
    /// What is lent, always enough.
    sizes: Sizes,
    drawings: usize,
}

/// Start and end.
type Row = (usize, usize);

impl<'c, 'p> Pager<'c, 'p> {
    fn new(case: &'c Case, spans: usize, program: &'c mut Program<'p>) -> Pager<'c, 'p> {
        let len = case.line.len();
        // A tab has most for a byte: attributes, and a text of 8 bytes.
        let list = 44 * len + 64;
        Pager {
            case,
            program,
            sizes: [8 * len, spans, 0, list],
            drawings: 0,
        }
    }

    /// How many rows the line has, where the picture holds.
    fn check(&mut self) -> Result<usize, String> {
        let rows = self.rows()?;
        let unwrapped = self.case.unwrapped();
        let list = self.draw(&unwrapped)?;
        let whole = self.clusters(&list, &unwrapped)?;
        if !run_end_to_end(&rows, columns(&whole)) {
            return self.broken("rows not from 0 to the last column", &self.case.rows());
        }
        // A row has no more changes than the line but for attributes and a clear.
        self.sizes[3] = list.len() + 64;
        let edges = self.row_by_row(&rows, &whole)?;
        self.several_rows(&whole, &edges)?;
        Ok(rows.len())
    }

    /// The rows, as many as the height says.
    fn rows(&mut self) -> Result<Vec<Row>, String> {
        let height = self.ask(&self.case.height())?.count;
        // A pair more than is needed.
        self.sizes[2] = 2 * height + 2;
        let call = self.case.rows();
        let answer = self.ask(&call)?;
        if answer.count != height {
            return self.broken("not as many rows as the height", &call);
        }
        let pairs = answer.pairs[..2 * height].chunks_exact(2);
        Ok(pairs.map(|pair| (pair[0], pair[1])).collect())
    }

    /// Draws each row by itself: together they must show the whole, each as many columns
    /// as it has. How many clusters stand before each row and behind the last.
    fn row_by_row(&mut self, rows: &[Row], whole: &[Cluster]) -> Result<Vec<usize>, String> {
        let mut edges = vec![0];
        let mut edge = 0;
        for (first, (start, end)) in rows.iter().enumerate() {
            let call = self.case.drawing(first, 1, NONE);
            let list = self.draw(&call)?;
            let row = self.clusters(&list, &call)?;
            if !whole[edge..].starts_with(&row) {
                return self.broken("a row of other clusters", &call);
            }
            if columns(&row) != end - start {
                return self.broken("a row of other columns", &call);
            }
            edge += row.len();
            edges.push(edge);
        }
        if edge < whole.len() {
            return self.broken("the rows lack clusters", &self.case.rows());
        }
        Ok(edges)
    }

    /// Draws several rows at once, and rows behind the last.
    fn several_rows(&mut self, whole: &[Cluster], edges: &[usize]) -> Result<(), String> {
        let height = edges.len() - 1;
        for (first, count) in several(height, 2 + self.case.width % 2) {
            let call = self.case.drawing(first, count, 0);
            let list = self.draw(&call)?;
            let [begin, end] = [first, first + count].map(|row| edges[row.min(height)]);
            if self.clusters(&list, &call)? != whole[begin..end] {
                return self.broken("rows of other clusters", &call);
            }
        }
        Ok(())
    }

    /// The change list of a drawing.
    fn draw(&mut self, call: &Call) -> Result<Vec<u8>, String> {
        self.drawings += 1;
        let mut answer = self.ask(call)?;
        answer.list.truncate(answer.count);
        Ok(answer.list)
    }

    fn clusters<'l>(&self, list: &'l [u8], call: &Call) -> Result<Vec<Cluster<'l>>, String> {
        match shown(list) {
            Some(clusters) => Ok(clusters),
            None => self.broken("not a row's change list", call),
        }
    }

    /// The answer to a call, which must be accepted.
    fn ask(&mut self, call: &Call) -> Result<Answer, String> {
        let asked = self.case.asked(call.clone(), self.sizes);
        let answer = (self.program)(&asked);
        match answer.number {
            0 => Ok(answer),
            number => self.broken(&format!("refused {number}"), call),
        }
    }

    fn broken<T>(&self, what: &str, call: &Call) -> Result<T, String> {
        Err(fault(what, &self.case.asked(call.clone(), self.sizes)))
    }
}

/// Whether the first row starts at 0, each starts where the one before ends, none ends
/// before its start, and the last ends at the last column.
fn run_end_to_end(rows: &[Row], last_column: usize) -> bool {
    let mut column = 0;
    for &(start, end) in rows {
        if start != column || end < start {
            return false;
        }
        column = end;
    }
    !rows.is_empty() && column == last_column
}

/// First rows and counts: all rows in steps, all at once, and beyond the last.
fn several(height: usize, step: usize) -> Vec<(usize, usize)> {
    let steps = (0..height).step_by(step).map(|first| (first, step));
    let beyond = [
        (0, height),
        (0, LARGEST),
        (height / 2, LARGEST),
        (height - 1, 2),
        (height, 1),
        (height + 3, 9),
        (LARGEST, LARGEST),
    ];
    steps.chain(beyond).collect()
}
