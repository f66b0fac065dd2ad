//! Faults planted in what the call leaves, to see that they are found.

use super::case::not_converted;
use super::model::{written, MOST_WRITTEN};
use super::{sample, stated, Case, NAME};
use crate::writing::{try_marks, try_twists, Answer, Twist, Writing};

/// Plants each fault; whether all were found.
pub fn try_faults() -> bool {
    let mut short = sample::cases();
    short.retain(|case| case.size < 1_000);
    let marks = try_marks(NAME, &short);
    let twists = try_twists(NAME, &TWISTS, &stated::cases());
    marks & twists & try_conversions()
}

/// Another answer where the call is refused by a number and something holds.
fn instead(case: &Case, number: usize, holds: bool, answer: Answer) -> Answer {
    let right = case.answer();
    if right.number == number && holds {
        answer
    } else {
        right
    }
}

fn refused(number: usize) -> Answer {
    Answer::of(Err(number))
}

/// What is written of the cells when each byte of them is another.
fn mapped(case: &Case, map: fn(usize, u8) -> u8) -> Answer {
    let cells = case.cells.iter().enumerate();
    let cells: Vec<u8> = cells.map(|(place, &byte)| map(place, byte)).collect();
    Answer::of(written(&cells).ok_or(16))
}

const TWISTS: [Twist<Case>; 10] = [
    Twist {
        name: "1 is asked before 16",
        answer: |case| instead(case, 16, case.cells.len() > 2 * MOST_WRITTEN, refused(1)),
    },
    Twist {
        name: "17 is asked before 16",
        answer: |case| instead(case, 16, case.size == 0, refused(17)),
    },
    Twist {
        name: "17 is asked before 1",
        answer: |case| instead(case, 1, case.size == 0, refused(17)),
    },
    Twist {
        name: "1 counts cells",
        answer: |case| {
            let few = case.cells.len() <= 2 * MOST_WRITTEN;
            let written = written(&case.cells).filter(|written| written.len() <= case.size);
            instead(case, 1, few, Answer::of(written.ok_or(17)))
        },
    },
    Twist {
        name: "4,096 bytes are refused",
        answer: |case| instead(case, 0, case.answer().count == MOST_WRITTEN, refused(1)),
    },
    Twist {
        name: "half a cell is left out",
        answer: |case| {
            let whole = &case.cells[..case.cells.len() / 2 * 2];
            let half = whole.len() < case.cells.len();
            let written = written(whole).filter(|written| written.len() <= MOST_WRITTEN);
            instead(
                case,
                16,
                half && written.is_some(),
                Answer::of(written.ok_or(16)),
            )
        },
    },
    Twist {
        name: "digits are styles",
        answer: |case| {
            let digits = case.cells.len() == 2 && case.cells[1].is_ascii_digit();
            let value = |place, byte: u8| {
                if place == 1 {
                    byte.wrapping_sub(b'0')
                } else {
                    byte
                }
            };
            instead(case, 16, digits, mapped(case, value))
        },
    },
    Twist {
        name: "a 7F is a cell",
        answer: |case| {
            let edge = case.cells.len() == 2 && case.cells[0] == 0x7F;
            instead(case, 16, edge, Answer::of(Ok(vec![0x7F])))
        },
    },
    Twist {
        name: "a 5F is a cell",
        answer: |case| {
            let edge = case.cells.len() == 2 && case.cells[0] == b'_';
            instead(case, 16, edge, Answer::of(Ok(vec![b'_'])))
        },
    },
    Twist {
        name: "a space is no cell",
        answer: |case| instead(case, 0, case.cells.first() == Some(&b' '), refused(16)),
    },
];

/// Another way to strike cells.
struct Strike {
    name: &'static str,
    write: fn(&[u8]) -> Vec<u8>,
}

/// What is written of the cells when each style is another.
fn restyled(cells: &[u8], styles: [u8; 4]) -> Vec<u8> {
    let cells = cells.chunks(2);
    let cells = cells.flat_map(|cell| [cell[0], styles[usize::from(cell[1])]]);
    written(&cells.collect::<Vec<u8>>()).expect("cells")
}

const STRIKES: [Strike; 4] = [
    Strike {
        name: "nothing is struck",
        write: |cells| restyled(cells, [0; 4]),
    },
    Strike {
        name: "bold is struck as underline",
        write: |cells| restyled(cells, [0, 2, 2, 3]),
    },
    Strike {
        name: "both is struck as bold",
        write: |cells| restyled(cells, [0, 1, 2, 1]),
    },
    Strike {
        name: "the last byte is lost",
        write: |cells| {
            let mut written = written(cells).expect("cells");
            written.pop();
            written
        },
    },
];

/// Whether converting tells each of them from what is to be written.
fn try_conversions() -> bool {
    let cells = b"a\x01b\x02c\x03d\0";
    let told = STRIKES.iter().filter(|strike| {
        let told = not_converted(cells, &(strike.write)(cells)).is_some();
        if !told {
            println!("{NAME}: converting does not tell where {}", strike.name);
        }
        told
    });
    let (told, all) = (told.count(), STRIKES.len());
    println!("{NAME}: converting tells {told} of {all} wrong ones");
    told == all
}
