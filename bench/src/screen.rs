//! screen_row: the lists that it is counted and timed on. The source has nothing to
//! compare it with.

use crate::lines::{Kind, KINDS, WIDE};
use crate::timing::{medians, Effort};
use oracle::{Call, NONE};
use std::hint::black_box;

pub const NAME: &str = "screen_row";

/// The columns of a wide row, and the changes of a long list.
const MANY: usize = 4_096;

/// A change list and the width of its row.
struct Case {
    list: Vec<u8>,
    width: usize,
}

impl Case {
    /// The row that the library leaves. It is lent 30 bytes a column and as many as the
    /// list has, which no row exceeds.
    fn row(&self) -> Vec<u8> {
        let mut out = vec![0; 30 * self.width + self.list.len()];
        let answer = console_lines::raw::screen_row(&self.list, self.width, &mut out);
        assert_eq!(answer.number, 0, "a list is refused");
        out.truncate(answer.count);
        out
    }
}

// ---- lists

fn change(kind: u16, body: &[u8]) -> Vec<u8> {
    let len = body.len() as u32;
    [&len.to_le_bytes()[..], &kind.to_le_bytes(), body].concat()
}

fn text(text: &str) -> Vec<u8> {
    change(1, text.as_bytes())
}

fn attributes() -> Vec<u8> {
    let mut body = [0; 25];
    body[0] = 1;
    change(2, &body)
}

fn clear() -> Vec<u8> {
    change(3, &[1, 5, 0, 0])
}

fn cursor_right() -> Vec<u8> {
    change(4, &[])
}

/// The changes again and again, so many in all.
fn repeated(changes: &[Vec<u8>], count: usize) -> Vec<u8> {
    let changes = changes.iter().cycle().take(count);
    changes.flatten().copied().collect()
}

/// A kind of list, of so many changes for a row of so many columns.
struct Changes {
    name: &'static str,
    list: fn(usize, usize) -> Vec<u8>,
}

static CHANGES: [Changes; 7] = [
    Changes {
        name: "clears",
        list: |count, _| repeated(&[clear()], count),
    },
    Changes {
        name: "clears, cursor moved",
        list: |count, width| {
            let changes = [clear(), cursor_right(), clear(), text("\u{8}")];
            let letters = text(&"a".repeat(width / 2));
            [letters, repeated(&changes, count - 1)].concat()
        },
    },
    Changes {
        name: "clears, letters",
        list: |count, _| repeated(&[text("a"), clear(), text("\u{8}")], count),
    },
    Changes {
        name: "overwrites",
        list: |count, _| repeated(&[attributes(), text("ab"), text("\u{8}\u{8}")], count),
    },
    Changes {
        name: "cursor rights",
        list: |count, _| repeated(&[cursor_right()], count),
    },
    Changes {
        name: "wide clusters, broken",
        list: |count, _| repeated(&broken(32), count),
    },
    Changes {
        name: "wider clusters, broken",
        list: |count, _| repeated(&broken(128), count),
    },
];

/// A cluster of so many jamo, a letter in its middle, a clear that breaks it anew.
fn broken(jamo: usize) -> [Vec<u8>; 6] {
    let cluster = text(&"\u{1100}".repeat(jamo));
    let back = text(&"\u{8}".repeat(jamo));
    let both = text(&format!("b{}", "\u{8}".repeat(jamo + 1)));
    [
        cluster.clone(),
        back.clone(),
        both,
        cluster,
        back.clone(),
        [clear(), back].concat(),
    ]
}

/// A window of so many columns, of a line of as many bytes.
fn drawn(kind: &Kind, columns: usize) -> Case {
    let line = kind.line(columns);
    window(&line, columns)
}

fn window(line: &[u8], columns: usize) -> Case {
    let call = Call::DrawWindow {
        matches: Vec::new(),
        current: NONE,
        start: 0,
        end: columns,
    };
    let list = call.ample_answer(line).list;
    Case {
        list,
        width: columns,
    }
}

static DRAWN: [&Kind; 4] = [&KINDS[0], &KINDS[1], &KINDS[3], &WIDE];

// ---- what is counted

/// The case of a table and of a row of it, with its title and name.
fn counted(table: usize, row: usize, size: usize) -> Option<(Case, &'static str, &'static str)> {
    if table == 0 {
        let kind = DRAWN.get(row)?;
        return Some((drawn(kind, size), "windows", kind.name));
    }
    let changes = CHANGES.get(row)?;
    let (count, width, title) = match table {
        1 => (size, MANY, "changes"),
        2 => (MANY, size, "columns"),
        _ => return None,
    };
    let list = (changes.list)(count, width);
    Some((Case { list, width }, title, changes.name))
}

/// Makes one call, and prints the table's title and the row's name, if there are such.
pub fn once(table: usize, row: usize, size: usize) -> Option<()> {
    let (case, title, name) = counted(table, row, size)?;
    black_box(case.row());
    println!("{NAME}: {title}\t{name}");
    Some(())
}

// ---- what is timed

/// Prints the times of a window of 80 columns of each line.
pub fn print_times(effort: Effort) {
    let title = format!("{NAME}: a window of 80");
    println!("\n{title:<28} {:>6} {:>6} {:>8}", "list", "row", "just");
    let kinds = KINDS.iter().filter(|kind| !kind.hostile).chain([&WIDE]);
    let measure = |kind: &'static Kind| {
        let case = window(&kind.line(MANY), 80);
        let mut out = case.row();
        let [time] = medians(
            effort,
            [&mut || {
                let list = black_box(&case.list);
                black_box(console_lines::raw::screen_row(list, case.width, &mut out));
            }],
        );
        (kind.name, case.list.len(), out.len(), time)
    };
    for (name, list, row, time) in oracle::progress::each(title, kinds.collect(), measure) {
        println!("{name:<28} {list:>6} {row:>6} {time:>8.0}");
    }
}
