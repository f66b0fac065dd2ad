//! Lines with one sequence at ESC, every one of some kinds.

use crate::lines::Lines;

/// Parameters that stand before each possible final byte.
const PARAMETERS: [&str; 14] = [
    "", "0", "1", "2", "3", "00", ";", "0;", ";0", "1;1", "999999", ";;;;", "1;x", "?1",
];

/// What may stand behind a sequence: nothing, a letter, a mark and a letter.
const BEHIND: [&str; 3] = ["", "a", "\u{301}a"];

/// `ESC [`, parameters, any byte.
fn finals(lines: &mut Vec<Vec<u8>>) {
    for byte in 0..=255 {
        for parameters in PARAMETERS {
            let start = format!("\x1B[{parameters}");
            let line = |behind: &str| [start.as_bytes(), &[byte], behind.as_bytes()].concat();
            lines.extend(BEHIND.map(line));
        }
    }
}

/// `ESC`, any two bytes.
fn pairs_behind_escape(lines: &mut Vec<Vec<u8>>) {
    for pair in 0..=65_535_u16 {
        lines.push([b"\x1B", &pair.to_be_bytes()[..]].concat());
    }
}

/// Style orders: every number, pairs of numbers, colours, many parameters.
fn style_orders(lines: &mut Vec<Vec<u8>>) {
    let mut add = |parameters: String| lines.push(format!("\x1B[{parameters}ma").into_bytes());
    (0..=66_000).for_each(|number| add(number.to_string()));
    for first in 0..=130 {
        (0..=130).for_each(|second| add(format!("{first};{second}")));
    }
    for kind in [38, 48, 58] {
        for form in 0..=9 {
            for number in 0..=300 {
                add(format!("{kind};{form};{number}"));
                add(format!("{kind};{form};{number};255;0;1"));
                add(format!("{kind};{form};7;{number};256"));
                add(format!("1;{kind};{form};7;8;{number};4"));
            }
        }
    }
    for count in 0..=40 {
        for parameter in ["", "1", "38;5;7", "38;2;1;2;3", "10"] {
            add(vec![parameter; count].join(";"));
            add(format!("{};10", vec![parameter; count].join(";")));
        }
    }
}

/// Hyperlinks with any byte in each place, and both ends.
fn hyperlinks(lines: &mut Vec<Vec<u8>>) {
    for byte in 0..=255 {
        for end in ["\x07", "\x1B\\"] {
            for behind in BEHIND {
                let tail = [end, behind].concat();
                let tail = tail.as_bytes();
                lines.push([b"\x1B]8;", &[byte][..], b";u", tail].concat());
                lines.push([b"\x1B]8;;", &[byte][..], tail].concat());
                lines.push([b"\x1B]8;;u", &[byte][..], b"v", tail].concat());
                lines.push([b"\x1B]8;;u\x1B", &[byte][..], b"v", tail].concat());
                lines.push([b"\x1B]", &[byte][..], b";;u", tail].concat());
            }
        }
    }
}

pub fn orders() -> Lines {
    let mut lines = Vec::new();
    finals(&mut lines);
    pairs_behind_escape(&mut lines);
    style_orders(&mut lines);
    hyperlinks(&mut lines);
    Lines {
        count: lines.len(),
        line: Box::new(move |number| lines[number].clone()),
    }
}
