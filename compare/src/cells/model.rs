//! A model of the overstrike writer, by document 02's words: each style is a pattern in
//! which the byte is filled in. What converting gives back is said beside it.

use crate::writing::Answer;

/// So many bytes are written at most.
pub const MOST_WRITTEN: usize = 4_096;

/// Normal, bold, underlined, both; X is the byte.
const PATTERNS: [&str; 4] = ["X", "X\x08X", "_\x08X", "_\x08X\x08X"];

/// The bytes that are written, if they are cells: whole, of bytes 20 to 7E but 5F, in one
/// of the styles.
pub fn written(cells: &[u8]) -> Option<Vec<u8>> {
    let mut written = Vec::new();
    for cell in cells.chunks(2) {
        let &[byte @ 0x20..=0x7E, style] = cell else {
            return None;
        };
        let pattern = PATTERNS.get(usize::from(style))?;
        if byte == b'_' {
            return None;
        }
        let strike = |pattern: u8| if pattern == b'X' { byte } else { pattern };
        written.extend(pattern.bytes().map(strike));
    }
    Some(written)
}

/// The cells as overstrike, where `size` bytes are lent for it.
pub fn write_cells(cells: &[u8], size: usize) -> Answer {
    Answer::of((|| {
        let written = written(cells).ok_or(16_usize)?;
        if written.len() > MOST_WRITTEN {
            return Err(1);
        }
        if written.len() > size {
            return Err(17);
        }
        Ok(written)
    })())
}

/// What converting gives for the cells: their bytes, and where the style changes the order
/// that takes one to the other, from normal at first to normal at last.
pub fn styled(cells: &[u8]) -> Vec<u8> {
    let mut line = Vec::new();
    let mut style = 0;
    for cell in cells.chunks(2).chain([&[0, 0][..]]) {
        line.extend(order(style, cell[1]).bytes());
        line.push(cell[0]);
        style = cell[1];
    }
    line.pop();
    line
}

/// The order from one style to another: what goes off, then what goes on, bold before
/// underline each time; nothing where they are equal.
fn order(from: u8, to: u8) -> String {
    let (off, on) = (from & !to, to & !from);
    let parameters = [(off, 1, "22"), (off, 2, "24"), (on, 1, "1"), (on, 2, "4")];
    let parameters: Vec<&str> = parameters
        .into_iter()
        .filter(|(styles, style, _)| styles & style != 0)
        .map(|(_, _, parameter)| parameter)
        .collect();
    match parameters[..] {
        [] => String::new(),
        _ => format!("\x1B[{}m", parameters.join(";")),
    }
}
