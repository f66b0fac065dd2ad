//! Random lines.

use crate::random::Random;
use profile::Range;

/// Bytes never found in UTF-8: noise bytes.
pub const NOISE: [u8; 13] = [
    0xC0, 0xC1, 0xF5, 0xF6, 0xF7, 0xF8, 0xF9, 0xFA, 0xFB, 0xFC, 0xFD, 0xFE, 0xFF,
];

/// The parameters that stand for themselves: document 01, "Spans", "Known", and
/// document 02, U7.
#[rustfmt::skip]
pub const SINGLE_PARAMETERS: [Range; 13] = [
    (0, 9), (21, 25), (27, 29), (30, 37), (39, 39), (40, 47), (49, 49), (53, 53),
    (55, 55), (59, 59), (73, 75), (90, 97), (100, 107),
];

/// A stretch of a line of one sort.
type Piece = fn(&mut Random) -> Vec<u8>;

const WORDS: [Piece; 7] = [ascii, ascii, ascii, space, space, wide, control];
const STRUCK: [Piece; 6] = [overstruck, overstruck, ascii, backspaces, mark, noise];
const STYLED: [Piece; 7] = [sequence, sequence, ascii, line_drawing, mark, space, noise];

/// A line of about `size` bytes; it may be a few longer.
pub fn line(random: &mut Random, size: usize) -> Vec<u8> {
    let pieces: &[Piece] = match random.below(8) {
        0 => &WORDS,
        1 => &STRUCK,
        2 => &STYLED,
        _ => &[piece],
    };
    let mut line = Vec::new();
    while line.len() < size {
        line.extend(random.pick(pieces)(random));
    }
    line
}

/// A line of a random size, mostly short, now and then around 4,096 bytes.
pub fn any_line(random: &mut Random) -> Vec<u8> {
    let size = match random.below(1000) {
        0..=49 => return shifted_line(random),
        50..=99 => 0,
        100..=799 => random.between(1, 20),
        800..=979 => random.between(20, 80),
        980..=997 => random.between(80, 400),
        _ => random.between(4_085, 4_100),
    };
    line(random, size)
}

/// A line whose last cluster is wide, behind marks that are drawn wider than
/// they are wrapped.
fn shifted_line(random: &mut Random) -> Vec<u8> {
    let marks: [&[u32]; 4] = [&[0xE0100], &[0xE0100], &[0xE0100; 3], &[0x301, 0x300]];
    let mut line: Vec<u8> = random.pick(&marks).iter().flat_map(|&m| utf8(m)).collect();
    for _ in 0..random.below(5) {
        line.extend(match random.below(4) {
            0 => ascii(random),
            1 => utf8(random.pick(&JAMO)),
            2 => utf8(random.pick(&INDICATORS)),
            _ => utf8(random.pick(&WIDE)),
        });
    }
    line.extend(utf8(random.pick(&[0x6F22, 0x6F22, 0x1100])));
    line
}

fn piece(random: &mut Random) -> Vec<u8> {
    match random.below(100) {
        0..=15 => ascii(random),
        16..=22 => space(random),
        23..=30 => control(random),
        31..=41 => overstruck(random),
        42..=44 => backspaces(random),
        45..=51 => mark(random),
        52..=55 => wide(random),
        56..=57 => joined(random),
        58..=62 => utf8(random.pick(&JAMO)),
        63..=65 => utf8(random.pick(&INDICATORS)),
        66..=68 => utf8(boundary(random)),
        69..=70 => utf8(any_scalar(random)),
        71..=76 => damaged(random),
        77..=80 => noise(random),
        81..=84 => line_drawing(random),
        85..=86 => vec![random.below(256) as u8],
        _ => sequence(random),
    }
}

fn space(random: &mut Random) -> Vec<u8> {
    random.pick(&SPACES).to_vec()
}

fn control(random: &mut Random) -> Vec<u8> {
    random.pick(&CONTROLS).to_vec()
}

fn backspaces(random: &mut Random) -> Vec<u8> {
    vec![0x08; random.between(1, 3)]
}

fn mark(random: &mut Random) -> Vec<u8> {
    utf8(random.pick(&MARKS))
}

fn wide(random: &mut Random) -> Vec<u8> {
    utf8(random.pick(&WIDE))
}

/// Pictures, most of them joined: what stands between two of them makes GB11 apply or not.
fn joined(random: &mut Random) -> Vec<u8> {
    let mut line = utf8(random.pick(&PICTURES));
    for _ in 0..random.between(1, 3) {
        line.extend(random.pick(&BETWEEN_PICTURES));
        line.extend(utf8(random.pick(&PICTURES)));
    }
    line
}

fn noise(random: &mut Random) -> Vec<u8> {
    vec![random.pick(&NOISE); random.between(1, 2)]
}

#[rustfmt::skip]
const SPACES: [&[u8]; 10] = [
    b" ", b" ", b"  ", b"-", b"-", b"--", b" - ", b"\xC2\xA0", b"\xE3\x80\x80",
    b"\xE2\x80\x83",
];

#[rustfmt::skip]
const CONTROLS: [&[u8]; 16] = [
    b"\t", b"\t", b"\t", b"\t\t", b"\r", b"\n", b"\r\n", b"\r\n", b"\x00", b"\x1F",
    b"\x7F", b"\x1B", b"\xC2\x80", b"\xC2\x9B", b"\xE2\x80\x8B", b"\xEF\xBB\xBF",
];

/// Extend and ZWJ.
const MARKS: [u32; 10] = [
    0x301, 0x301, 0x300, 0x36F, 0x489, 0x200C, 0x200D, 0x200D, 0xFE0F, 0xE0100,
];
const WIDE: [u32; 6] = [0x6F22, 0x6F22, 0x3042, 0xFF21, 0x1F600, 0x20000];
/// Extended_Pictographic, the ends of its ranges and a neighbour that is none.
const PICTURES: [u32; 8] = [
    0x1F468, 0x1F469, 0x1F469, 0x1F300, 0x1F64F, 0x1F900, 0x1F9FF, 0x1F680,
];
#[rustfmt::skip]
const BETWEEN_PICTURES: [&[u8]; 10] = [
    b"\xE2\x80\x8D", b"\xE2\x80\x8D", b"\xE2\x80\x8D", b"\xEF\xB8\x8F\xE2\x80\x8D",
    b"\xCC\x81\xCC\x81\xE2\x80\x8D", b"\xE2\x80\x8D\xCC\x81", b"\xE2\x80\x8D\xE2\x80\x8D",
    b"\xCC\x81", b"", b"\xE2\x80\x8D\xFF",
];
const JAMO: [u32; 8] = [
    0x1100, 0x1100, 0x1161, 0x11A8, 0xAC00, 0xAC01, 0xA960, 0xD7CB,
];
const INDICATORS: [u32; 3] = [0x1F1E6, 0x1F1E6, 0x1F1FF];

pub fn utf8(scalar: u32) -> Vec<u8> {
    char::from_u32(scalar).map_or_else(Vec::new, |c| c.to_string().into_bytes())
}

fn ascii(random: &mut Random) -> Vec<u8> {
    let len = random.between(1, 5);
    (0..len).map(|_| random.pick(b"aaabcdz_~09;m<>")).collect()
}

fn any_scalar(random: &mut Random) -> u32 {
    let most = random.pick(&[0x7F, 0x7FF, 0xFFFF, 0x10FFFF]);
    random.below(most + 1) as u32
}

/// The ranges of document 01's profile.
fn profile_ranges() -> Vec<Range> {
    let lists = [
        profile::CONTROL,
        profile::EXTEND,
        &[profile::ZWJ, profile::SYLLABLE, profile::RI],
        profile::L,
        profile::V,
        profile::T,
        profile::EXT_PICT,
        profile::WIDE,
        profile::WHITESPACE,
    ];
    lists.concat()
}

/// The first and the last scalar of each range, and their neighbours.
pub fn boundaries() -> Vec<u32> {
    let ends = profile_ranges().into_iter().flat_map(|(first, last)| {
        [
            first.checked_sub(1),
            Some(first),
            Some(last),
            Some(last + 1),
        ]
    });
    let mut scalars: Vec<u32> = ends.flatten().collect();
    scalars.retain(|&scalar| char::from_u32(scalar).is_some());
    scalars.sort_unstable();
    scalars.dedup();
    scalars
}

fn boundary(random: &mut Random) -> u32 {
    let (first, last) = random.pick(&profile_ranges());
    random.pick(&[first.saturating_sub(1), first, last, last + 1])
}

fn overstruck(random: &mut Random) -> Vec<u8> {
    let letter = match random.below(10) {
        0..=5 => vec![random.pick(b"abm_")],
        6 => [b"e".to_vec(), utf8(0x301)].concat(),
        7 => match random.percent(50) {
            true => utf8(random.pick(&WIDE)),
            false => joined(random),
        },
        8 => utf8(random.pick(&MARKS)),
        _ => vec![random.pick(b" \t\n-")],
    };
    let under = b"_".to_vec();
    let back = b"\x08".to_vec();
    match random.below(8) {
        0 | 1 => [&letter[..], &back, &letter].concat(),
        2 => [&under[..], &back, &letter].concat(),
        3 => [&letter[..], &back, &under].concat(),
        4 => [&under[..], &back, &letter, &back, &letter].concat(),
        5 => [&letter[..], &back, &letter, &back, &under].concat(),
        6 => [&letter[..], &back, &back].concat(),
        _ => [&letter[..], &back, b"x"].concat(),
    }
}

/// Bytes that are not well-formed UTF-8, or not all of them.
fn damaged(random: &mut Random) -> Vec<u8> {
    #[rustfmt::skip]
    const ILL_FORMED: [&[u8]; 8] = [
        b"\x80", b"\xBF", b"\xE0\x80\x80", b"\xED\xA0\x80", b"\xF0\x80\x80\x80",
        b"\xF4\x90\x80\x80", b"\xC2", b"\xF0\x9F\x98",
    ];
    if random.percent(50) {
        return random.pick(&ILL_FORMED).to_vec();
    }
    let mut bytes = utf8(random.pick(&[0xE9, 0x6F22, 0x1F600, 0x301]));
    let index = random.below(bytes.len());
    match random.below(3) {
        0 => bytes.truncate(index.max(1)),
        1 => {
            bytes.remove(index);
        }
        _ => bytes[index] = random.below(256) as u8,
    }
    bytes
}

fn line_drawing(random: &mut Random) -> Vec<u8> {
    let mut bytes = b"\x1B(0".to_vec();
    let len = random.between(1, 4);
    bytes.extend((0..len).map(|_| random.between(0x5E, 0x7F) as u8));
    if random.percent(60) {
        bytes.extend(b"\x1B(B");
    }
    bytes
}

// ---- sequences at ESC

/// A sequence, whole or cut, or something close to one.
fn sequence(random: &mut Random) -> Vec<u8> {
    let mut bytes = match random.below(20) {
        0..=6 => style_order(random),
        7 | 8 => erase(random),
        9..=11 => ignored(random),
        12..=16 => hyperlink(random),
        17 => [b"\x1B(", &[random.pick(b"0B0BA1")][..]].concat(),
        _ => random.pick(&OTHER_SEQUENCES).to_vec(),
    };
    if random.percent(12) {
        let len = random.between(1, bytes.len());
        bytes.truncate(len);
    }
    bytes
}

#[rustfmt::skip]
const OTHER_SEQUENCES: [&[u8]; 8] = [
    b"\x1B[4:3m", b"\x1B[?1m", b"\x1B[[m", b"\x1B[ q", b"\x1B\\", b"\x1B\x1B[m",
    b"\x1B]0;t\x07", b"\x1BP\x1B\\",
];

fn style_order(random: &mut Random) -> Vec<u8> {
    let count = match random.below(40) {
        0 => random.between(30, 34),
        1..=5 => 0,
        _ => random.between(1, 4),
    };
    let parameters: Vec<String> = (0..count).map(|_| parameter(random)).collect();
    format!("\x1B[{}m", parameters.join(";")).into_bytes()
}

fn parameter(random: &mut Random) -> String {
    match random.below(12) {
        0..=6 => known_parameter(random).to_string(),
        7 | 8 => colour_group(random),
        9 => random.below(120).to_string(),
        10 => String::new(),
        _ => {
            let odd = [
                "65535",
                "65536",
                "001",
                "000000000031",
                "99999999999999999999",
                "10",
            ];
            random.pick(&odd).to_string()
        }
    }
}

fn known_parameter(random: &mut Random) -> u32 {
    let (first, last) = random.pick(&SINGLE_PARAMETERS);
    random.between(first as usize, last as usize) as u32
}

fn colour_group(random: &mut Random) -> String {
    let kind = random.pick(&["38", "48", "58"]);
    let mut group = match random.below(3) {
        0 => vec!["5".to_string(), component(random)],
        1 => vec![
            "2".to_string(),
            component(random),
            component(random),
            component(random),
        ],
        _ => vec![
            random.pick(&["5", "2", "1", "", "7"]).to_string(),
            component(random),
        ],
    };
    if random.percent(15) {
        group.truncate(random.below(3));
    }
    group.insert(0, kind.to_string());
    group.join(";")
}

fn component(random: &mut Random) -> String {
    match random.below(10) {
        0 => "256".to_string(),
        1 => String::new(),
        2 => "255".to_string(),
        _ => random.below(256).to_string(),
    }
}

fn erase(random: &mut Random) -> Vec<u8> {
    let texts = ["", "", "0", "0", "1", "2", "3", "00", ";", "0;", "02"];
    format!("\x1B[{}K", random.pick(&texts)).into_bytes()
}

fn ignored(random: &mut Random) -> Vec<u8> {
    let texts = ["", "1", "5", ";", "1;1", "12;34", "999999", ";;;;"];
    let last = char::from(random.pick(b"@ABCDEFGHJLMPSTXZdfnhI~"));
    format!("\x1B[{}{last}", random.pick(&texts)).into_bytes()
}

fn hyperlink(random: &mut Random) -> Vec<u8> {
    let mut bytes = b"\x1B]8;".to_vec();
    let names: [&[u8]; 6] = [b"", b"", b"", b"id=1", b"a=b:c=d", b"\t"];
    bytes.extend(random.pick(&names));
    bytes.push(b';');
    let uris: [&[u8]; 10] = [
        b"",
        b"",
        b"u",
        b"u",
        b"x;y",
        b"http://a/b",
        b"\xC3\xA9",
        b"\xC2\x9C",
        b"a\x1Bb",
        b"a\x01",
    ];
    bytes.extend(random.pick(&uris));
    let ends: [&[u8]; 7] = [
        b"\x07", b"\x07", b"\x07", b"\x1B\\", b"\x1B\\", b"", b"\x7F",
    ];
    bytes.extend(random.pick(&ends));
    bytes
}
