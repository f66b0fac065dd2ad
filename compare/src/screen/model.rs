//! A model of the screen row, by document 02's words. Nothing is broken here: each write
//! owns its columns until a later one takes them, and a write that has lost a column
//! shows in none.

pub use crate::writing::Answer;

use oracle::changes::places;
use std::ops::Range;
use unicode_segmentation::UnicodeSegmentation;
use unicode_width::UnicodeWidthStr;

pub const LARGEST_WIDTH: usize = 4_096;

const BACKSPACE: &str = "\u{8}";
const SPACE: &str = " ";

/// The bytes of an attribute body, and those of a cell whose cluster has one byte.
pub const BODY: usize = 25;
pub const CELL: usize = 4 + 1 + BODY;

type Colour = [u8; 4];
type Attributes = [u8; BODY];

const DEFAULT: Attributes = [0; BODY];
const BACKGROUND: Range<usize> = 8..12;

/// The row of `width` columns after a change list, where `size` bytes are lent for it.
pub fn screen_row(list: &[u8], width: usize, size: usize) -> Answer {
    Answer::of(accepted(list, width, size))
}

/// The questions, each put to the whole list before the next.
fn accepted(list: &[u8], width: usize, size: usize) -> Result<Vec<u8>, usize> {
    if !(1..=LARGEST_WIDTH).contains(&width) {
        return Err(5);
    }
    let changes = changes(list).ok_or(10_usize)?;
    let writes = writes(&changes, width).ok_or(11_usize)?;
    let row = row(&writes, width);
    if row.len() > size {
        return Err(9);
    }
    Ok(row)
}

// ---- the change list

enum Change<'l> {
    Text(&'l str),
    Attributes(Attributes),
    Clear(Colour),
    CursorRight,
}

/// The changes of a list, if all of them are well formed.
fn changes(list: &[u8]) -> Option<Vec<Change<'_>>> {
    let changes = places(list)?.into_iter();
    changes
        .map(|(kind, body)| change(kind, &list[body]))
        .collect()
}

fn change(kind: u16, body: &[u8]) -> Option<Change<'_>> {
    match kind {
        1 => Some(Change::Text(text(body)?)),
        2 => Some(Change::Attributes(attributes(body)?)),
        3 => Some(Change::Clear(colour(body)?)),
        4 if body.is_empty() => Some(Change::CursorRight),
        _ => None,
    }
}

fn text(body: &[u8]) -> Option<&str> {
    let text = std::str::from_utf8(body).ok()?;
    let is_shown = |cluster: &str| cluster.width() > 0 || cluster == BACKSPACE;
    text.graphemes(true).all(is_shown).then_some(text)
}

fn attributes(body: &[u8]) -> Option<Attributes> {
    let body: Attributes = body.try_into().ok()?;
    let [intensity, underline, blink, flags, .., alignment] = body;
    if intensity > 2 || underline > 2 || blink > 2 || flags > 31 || alignment > 2 {
        return None;
    }
    for bytes in body[4..16].chunks(4) {
        colour(bytes)?;
    }
    Some(body)
}

/// A colour: default, an index, or red, green and blue; bytes that are not used are 0.
fn colour(body: &[u8]) -> Option<Colour> {
    let colour: Colour = body.try_into().ok()?;
    matches!(colour, [0, 0, 0, 0] | [1, _, 0, 0] | [2, _, _, _]).then_some(colour)
}

// ---- the row

/// A cluster written to some columns.
struct Write<'l> {
    columns: Range<usize>,
    cluster: &'l str,
    attributes: Attributes,
}

/// What is written, in order; None where a text would pass the last column.
///
/// The next write begins at `place`. This is the cursor's column or, pending, the one
/// behind the last, where the cursor is the last.
fn writes<'l>(changes: &[Change<'l>], width: usize) -> Option<Vec<Write<'l>>> {
    let last = width - 1;
    let mut writes = Vec::new();
    let mut attributes = DEFAULT;
    let mut place = 0;
    for change in changes {
        match *change {
            Change::Attributes(body) => attributes = body,
            Change::CursorRight if place < last => place += 1,
            Change::CursorRight => (),
            Change::Clear(background) => {
                writes.extend((place.min(last)..width).map(|column| blank(column, background)))
            }
            Change::Text(text) => {
                for cluster in text.graphemes(true) {
                    if cluster == BACKSPACE {
                        place = place.min(last).saturating_sub(1);
                        continue;
                    }
                    let columns = place..place + cluster.width();
                    if columns.end > width {
                        return None;
                    }
                    place = columns.end;
                    writes.push(Write {
                        columns,
                        cluster,
                        attributes,
                    });
                }
            }
        }
    }
    Some(writes)
}

/// A clear writes a blank to each of its columns.
fn blank<'l>(column: usize, background: Colour) -> Write<'l> {
    let mut attributes = DEFAULT;
    attributes[BACKGROUND].copy_from_slice(&background);
    Write {
        columns: column..column + 1,
        cluster: SPACE,
        attributes,
    }
}

/// The cells, one behind the other: plain blanks but for the writes that own all of
/// their columns.
fn row(writes: &[Write], width: usize) -> Vec<u8> {
    let mut owners = vec![None; width];
    for (number, write) in writes.iter().enumerate() {
        owners[write.columns.clone()].fill(Some(number));
    }
    let mut owned = vec![0; writes.len()];
    for number in owners.iter().flatten() {
        owned[*number] += 1;
    }
    let mut row = Vec::new();
    for (column, owner) in owners.into_iter().enumerate() {
        let whole = |number: &usize| owned[*number] == writes[*number].columns.len();
        match owner.filter(whole).map(|number| &writes[number]) {
            Some(write) if write.columns.start == column => {
                push_cell(&mut row, write.cluster, &write.attributes)
            }
            Some(write) => push_cell(&mut row, "", &write.attributes),
            None => push_cell(&mut row, SPACE, &DEFAULT),
        }
    }
    row
}

/// A cell: the length of its cluster, the cluster, its attributes.
fn push_cell(row: &mut Vec<u8>, cluster: &str, attributes: &Attributes) {
    let len = u32::try_from(cluster.len()).expect("a cluster's length");
    row.extend(len.to_le_bytes());
    row.extend(cluster.as_bytes());
    row.extend(attributes);
}
