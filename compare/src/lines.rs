//! The lines that are compared: every one of some kinds, and random ones.

use crate::alphabets::Alphabet;
use oracle::generate::{self, NOISE};
use oracle::random::Random;

/// Lines that are made from their numbers, each of them once.
pub struct Lines {
    pub count: usize,
    pub line: Box<dyn Fn(usize) -> Vec<u8> + Sync>,
}

/// Every line of up to `longest` symbols, shorter ones first.
pub fn short(alphabet: Alphabet, longest: u32) -> Lines {
    let symbols = alphabet.iter().map(|symbol| symbol.to_vec());
    short_of(symbols.collect(), longest)
}

/// The same over symbols that are made.
pub fn short_of(symbols: Vec<Vec<u8>>, longest: u32) -> Lines {
    let count = (0..=longest).map(|len| symbols.len().pow(len)).sum();
    let line = move |mut number: usize| {
        let mut line = Vec::new();
        while number > 0 {
            number -= 1;
            line.extend(&symbols[number % symbols.len()]);
            number /= symbols.len();
        }
        line
    };
    Lines {
        count,
        line: Box::new(line),
    }
}

/// What stands before and behind a scalar.
pub type Context = (&'static [u8], &'static [u8]);

/// Every scalar in each of the contexts; surrogates in three bytes, too.
pub fn scalars(contexts: &'static [Context]) -> Lines {
    let line = |number: usize| {
        let (before, behind) = contexts[number % contexts.len()];
        let scalar = (number / contexts.len()) as u32;
        [before, &scalar_bytes(scalar), behind].concat()
    };
    Lines {
        count: 0x110000 * contexts.len(),
        line: Box::new(line),
    }
}

fn scalar_bytes(scalar: u32) -> Vec<u8> {
    let low_bits = |shift: u32| 0x80 | (scalar >> shift & 0x3F) as u8;
    match char::from_u32(scalar) {
        Some(_) => generate::utf8(scalar),
        None => vec![0xED, low_bits(6), low_bits(0)],
    }
}

/// Every lead byte with every byte behind it, and telling ones behind these.
pub fn sequences() -> Lines {
    const THIRD: [u8; 12] = [
        0x00, 0x41, 0x7F, 0x80, 0x8F, 0x90, 0x9F, 0xA0, 0xBF, 0xC0, 0xE6, 0xFF,
    ];
    const FOURTH: [u8; 5] = [0x41, 0x7F, 0x80, 0xBF, 0xC0];
    let line = |number: usize| {
        let (fourth, number) = (FOURTH[number % 5], number / 5);
        let (third, number) = (THIRD[number % 12], number / 12);
        let (second, lead) = (number % 256, 0xC0 + number / 256);
        vec![lead as u8, second as u8, third, fourth]
    };
    Lines {
        count: 64 * 256 * THIRD.len() * FOURTH.len(),
        line: Box::new(line),
    }
}

/// Every byte with line drawing on, off again, off, and never on.
pub fn line_drawn() -> Lines {
    const BEFORE: [&[u8]; 4] = [b"\x1B(0", b"\x1B(0q\x1B(B", b"\x1B(B", b"q"];
    let line = |number: usize| [BEFORE[number % 4], &[(number / 4) as u8], b"x"].concat();
    Lines {
        count: 256 * BEFORE.len(),
        line: Box::new(line),
    }
}

/// Lines of the most bytes admitted, each of one symbol again and again.
pub fn longest(alphabet: Alphabet) -> Lines {
    let line = |number: usize| {
        let mut line = alphabet[number].repeat(LONGEST_ADMITTED);
        line.truncate(LONGEST_ADMITTED);
        line
    };
    Lines {
        count: alphabet.len(),
        line: Box::new(line),
    }
}

/// A few short lines.
pub fn few() -> Lines {
    const FEW: [&[u8]; 7] = [
        b"",
        b"a",
        b"ab c",
        b"a\tb\n",
        b"\xE6\xBC\xA2",
        b"\xF3\xA0\x84\x80\xE6\xBC\xA2",
        b"\xFF-a\x08a",
    ];
    Lines {
        count: FEW.len(),
        line: Box::new(|number| FEW[number].to_vec()),
    }
}

/// One of so many random lines has the next of all lengths.
const LONG_ONE_IN: usize = 50;

pub const LONGEST_ADMITTED: usize = 4_096;
const LONGER: [usize; 5] = [4_097, 4_098, 4_160, 5_000, 8_192];

/// Every length up to the longest line admitted, and a few above it, in turn.
fn swept_length(number: usize) -> usize {
    let lengths = LONGEST_ADMITTED + 1 + LONGER.len();
    match number % lengths {
        len if len <= LONGEST_ADMITTED => len,
        above => LONGER[above - LONGEST_ADMITTED - 1],
    }
}

fn short_length(random: &mut Random) -> usize {
    match random.below(100) {
        0..=69 => random.between(1, 24),
        70..=94 => random.between(20, 100),
        _ => random.between(100, 400),
    }
}

/// The random line of a number: of the oracle's kinds, over an alphabet, repeating,
/// of any bytes, or damaged. A cut at its end may damage it, too.
pub fn random(random: &mut Random, alphabet: Alphabet, number: usize) -> Vec<u8> {
    let len = match number % LONG_ONE_IN {
        0 => swept_length(number / LONG_ONE_IN),
        _ if random.percent(15) => return generate::any_line(random),
        _ => short_length(random),
    };
    let mut line = match random.below(10) {
        0..=3 => generate::line(random, len),
        4..=6 => of_symbols(random, alphabet, len),
        7 => repeating(random, alphabet, len),
        8 => any_bytes(random, len),
        _ => damaged(random, len),
    };
    line.truncate(len);
    line
}

fn of_symbols(random: &mut Random, alphabet: Alphabet, len: usize) -> Vec<u8> {
    let mut line = Vec::new();
    while line.len() < len {
        line.extend(random.pick(alphabet));
    }
    line
}

/// A few runs, each of one short stretch again and again.
fn repeating(random: &mut Random, alphabet: Alphabet, len: usize) -> Vec<u8> {
    let mut line = Vec::new();
    while line.len() < len {
        let stretch_len = random.between(1, 3);
        let mut stretch = of_symbols(random, alphabet, stretch_len);
        if random.percent(20) {
            stretch = generate::utf8(random.pick(&[0x1F1E6, 0x301, 0x1100, 0x200D, 0x6F22, 0x1F469]));
        }
        let times = random.between(1, len.min(1_500));
        line.extend(stretch.repeat(times));
    }
    line
}

fn any_bytes(random: &mut Random, len: usize) -> Vec<u8> {
    (0..len).map(|_| random.below(256) as u8).collect()
}

/// A line in which some bytes were lost, added or changed.
fn damaged(random: &mut Random, len: usize) -> Vec<u8> {
    let mut line = generate::line(random, len + 16);
    for _ in 0..random.between(1, 16) {
        let place = random.below(line.len());
        match random.below(4) {
            0 => {
                line.remove(place);
            }
            1 => line.insert(place, random.pick(&NOISE)),
            2 => line[place] = random.pick(&NOISE),
            _ => line[place] ^= 1 << random.below(8),
        }
    }
    line
}
