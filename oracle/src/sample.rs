//! The recorded sample: fixed cases, and random ones that depend on the seed.

use crate::call::{Case, Sizes};
use crate::coverage::known_parameters;
use crate::generate;
use crate::random::Random;
use crate::statements::{self, convert, height, read, rows};
use crate::statements::{draw_row, draw_row_with, draw_window, draw_window_with};
use crate::text_searched_len;
use profile::Range;
use std::collections::HashSet;

/// A statement about a longer line is not recorded; `long_lines` has a few.
const LONGEST_STATEMENT: usize = 200;

const RANDOM_CASES: usize = 900;

/// The comment lines at the top.
pub fn header(seed: u64) -> String {
    [
        "# Answers of the unchanged Rust source to the six calls of document 01.".to_string(),
        format!("# Written by `oracle sample {seed}`; oracle/README.md tells the form of a line."),
    ]
    .join("\n")
}

pub fn cases(seed: u64) -> Vec<Case> {
    let mut cases = stated();
    cases.extend(single_bytes());
    cases.extend(boundary_scalars());
    cases.extend(style_parameters());
    cases.extend(line_drawing());
    cases.extend(carried_state());
    cases.extend(cut());
    cases.extend(long_lines());
    cases.extend(lent_sizes());
    cases.extend(random_cases(seed));
    cases.extend(drawn_modes(seed));
    let mut seen = HashSet::new();
    cases.retain(|case| seen.insert(case.to_string()));
    cases
}

/// The bench lines and the corners.
fn stated() -> Vec<Case> {
    let statements = [statements::bench_lines(), statements::corners()];
    let cases = statements
        .into_iter()
        .flatten()
        .map(|statement| statement.case);
    cases
        .filter(|case| case.line.len() <= LONGEST_STATEMENT)
        .map(snug)
        .collect()
}

/// The same call, with a change list of what it needs or of 64 bytes.
fn snug(case: Case) -> Case {
    let [conv, spans, rows, list] = case.sizes();
    let need = case.answer().list.len().max(64);
    case.lent([conv, spans, rows, list.min(need)])
}

/// Each byte as a line, read and, where it is drawn as a mark, drawn.
fn single_bytes() -> Vec<Case> {
    let reads = (0..=255).map(|byte| read(&[byte], &[]));
    let marked = (0..=255_u8).filter(|byte| !matches!(byte, b' '..=b'~'));
    let draws = marked.map(|byte| snug(draw_window(&[byte], 0, 4)));
    reads.chain(draws).collect()
}

/// Each range of the profile at its ends: how wide, what it joins, and how it is
/// drawn or, near whitespace, whether it parts words.
fn boundary_scalars() -> Vec<Case> {
    generate::boundaries()
        .into_iter()
        .flat_map(around_scalar)
        .collect()
}

fn around_scalar(scalar: u32) -> [Case; 3] {
    let s = &generate::utf8(scalar)[..];
    let [l, v, t, ri] = [0x1100, 0x1161, 0x11A8, 0x1F1E6].map(generate::utf8);
    let near = |&(first, last): &Range| first <= scalar + 1 && scalar <= last + 1;
    let third = if profile::WHITESPACE.iter().any(near) {
        rows(&[b"ab", s, b"c"].concat(), 3, 2)
    } else {
        snug(draw_window(&[b"a", s, b"b"].concat(), 0, 2))
    };
    [
        rows(&[b"a", s, b"a"].concat(), 1, 1),
        rows(&[&l[..], s, &v, s, &t, s, &ri, s, &ri].concat(), 2, 1),
        third,
    ]
}

/// Each known parameter after nothing and after everything, and unknown ones.
fn style_parameters() -> Vec<Case> {
    let all = "1;3;4;5;7;8;9;53;73;31;42;58;5;3";
    let mut cases = Vec::new();
    for parameter in known_parameters() {
        let groups = match parameter {
            38 | 48 | 58 => vec![
                format!("{parameter};5;208"),
                format!("{parameter};2;1;128;255"),
            ],
            _ => vec![parameter.to_string()],
        };
        for group in groups {
            let plain = format!("\x1B[{group}ma");
            let over = format!("\x1B[{all}ma\x1B[{group}mb");
            cases.push(snug(draw_window(plain.as_bytes(), 0, 2)));
            cases.push(snug(draw_row(over.as_bytes(), 0, 1, 2, 1)));
        }
    }
    let known = known_parameters();
    for parameter in (0..=110).filter(|parameter| !known.contains(parameter)) {
        let line = format!("\x1B[{parameter}ma\x1B[1;{parameter};3mb");
        cases.push(snug(draw_window(line.as_bytes(), 0, 9)));
    }
    cases
}

/// Each replacement, and the bytes beside them.
fn line_drawing() -> Vec<Case> {
    let draw = |byte: u8| snug(draw_window(&[0x1B, b'(', b'0', byte], 0, 4));
    (0x5E..=0x7F).map(draw).collect()
}

/// Lines through which hyperlinks, styles, line drawing and the colour at the
/// line's end are carried, drawn with and without matches.
fn carried_state() -> Vec<Case> {
    let lines: [&[u8]; 11] = [
        b"\x1B]8;;u\x07ab\x1B]8;;\x07c",
        b"\x1B]8;id=1;u;v\x1B\\a\x1B[31;4mb\x1B[mc",
        b"\x1B]8;;u\x07a\x1B]8;;vw\x07\x01b\xFFc",
        b"\x1B[7;44ma\x1B[K\x1B[0mb\x1B[1K",
        b"\x1B[41ma\tb\x1B[0K\x1B[42m\r\n",
        b"\x1B(0aqx\x1B]8;;u\x07q\x1B(Bq\n",
        b"a\x08ab\x08_c\x1B[24md",
        b"\x1B[1;3;9mab\x1B[5mc\x1B[2J\x1B[22;29md",
        b"\x1B]8;;\xC3\xA9\x07a\xCC\x81\x1B]8;;u\x01b",
        b"\x1B[38;5;9;48;2;1;2;3;58;5;4ma\x1B[39mb\x1B[49mc\x1B[59md",
        b"\x1B]8;;u\x07a\x1B[73mb\x01c\x1B[1;74md\x1B[0me\x1B[74;75mf",
    ];
    let mut cases = Vec::new();
    for line in lines {
        let len = text_searched_len(line);
        let matches = [len / 3, len / 3, len / 3, len / 2, len / 2, len];
        cases.push(draw_window(line, 0, 20));
        cases.push(draw_window(line, 1, 3));
        cases.push(draw_row(line, 0, 1, 2, 1));
        cases.push(draw_row(line, 1, 2, 2, 2));
        cases.push(draw_window_with(line, &matches, 1, 0, 20));
        cases.push(draw_row_with(line, &matches, 2, 0, 9, 3, 2));
    }
    cases.into_iter().map(snug).collect()
}

/// Marks, tabs and wide clusters in windows and rows that cut them.
fn cut() -> Vec<Case> {
    let mut cases = Vec::new();
    for line in [
        &b"\xFF"[..],
        b"a\t",
        b"\xCC\x81\xCC\x80",
        b"\xF3\xA0\x84\x80",
    ] {
        for start in 0..5 {
            for end in [start + 1, start + 3, 8] {
                cases.push(snug(draw_window(line, start, end)));
            }
        }
    }
    let wide = [
        "a\u{6F22}b\u{6F22}",
        "\u{1100}\u{1100}\u{1161}c",
        "\u{1F1E6}\u{1F1E6}\u{6F22}\u{301}",
    ];
    for line in wide {
        for start in 0..6 {
            for end in start + 1..start + 4 {
                cases.push(snug(draw_window(line.as_bytes(), start, end)));
            }
        }
    }
    // drawn columns run ahead of wrapped ones, so that rows cut clusters
    let shifted = [
        "\u{E0100}\u{6F22}",
        "\u{E0100}a \u{6F22}",
        "\u{301}\u{300}\u{1100}\u{1100}-a",
        "\u{E0100}\u{E0100}\u{1100}\u{1100}",
    ];
    for line in shifted {
        for first in [0, 1, 2, 9] {
            for (width, mode) in [(2, 1), (4, 2), (80, 1)] {
                cases.push(snug(draw_row(line.as_bytes(), first, 1, width, mode)));
            }
        }
    }
    cases
}

/// A few lines at the limit of 4,096 bytes, and above it for each call.
fn long_lines() -> Vec<Case> {
    let repeated =
        |pattern: &[u8]| -> Vec<u8> { pattern.iter().copied().cycle().take(4096).collect() };
    let tabbed = repeated(b"ab c-d\t\xE6\xBC\xA2 ");
    // one text: hundreds of spans drawn are more than the prover computes in one equation
    let spaced = repeated(b"ab c-d \xE6\xBC\xA2 ");
    let above = vec![b'a'; 4097];
    let accepted = [height(&tabbed, 80, 2), draw_row(&spaced, 3, 2, 40, 1)];
    let refused = [
        convert(&above),
        read(&above, &[0, 1]),
        rows(&above, 80, 1),
        height(&above, 80, 1),
        draw_window(&above, 0, 80),
        draw_row(&above, 0, 1, 80, 1),
    ];
    let little = |case: &Case| case.lent([8 * 4097, 1, 2, 64]);
    let fitting = accepted.iter().map(|case| case.lent(needs(case)));
    fitting.chain(refused.iter().map(little)).collect()
}

/// Each call with each lent size at what it needs and one below.
fn lent_sizes() -> Vec<Case> {
    let lines: [&[u8]; 3] = [b"a\x08a b\tc\xFF", b"\xE6\xBC\xA2-\x1B[1mx\xCC\x81", b""];
    let mut cases = Vec::new();
    for line in lines {
        let matches = [0, line.len().min(2)];
        let calls = [
            convert(line),
            read(line, &[]),
            read(line, &matches),
            rows(line, 3, 1),
            rows(line, 2, 2),
            height(line, 3, 2),
            draw_window(line, 0, 5),
            draw_window_with(line, &matches, 0, 1, 9),
            draw_row(line, 0, 2, 3, 2),
        ];
        cases.extend(calls.iter().flat_map(around_need));
    }
    cases
}

/// A call with all lent sizes just enough, and with each in turn one too small.
fn around_need(case: &Case) -> Vec<Case> {
    let enough = needs(case);
    let mut cases = vec![case.lent(enough)];
    cases.extend((0..4).map(|index| {
        let mut sizes = enough;
        sizes[index] = sizes[index].saturating_sub(1);
        case.lent(sizes)
    }));
    cases
}

/// The sizes that an accepted call needs.
fn needs(case: &Case) -> Sizes {
    let answer = case.answer();
    [
        8 * case.line.len(),
        answer.records.len(),
        answer.pairs.len(),
        answer.list.len(),
    ]
}

/// Modes 3 and 4: lines of marks, and any lines.
fn drawn_modes(seed: u64) -> Vec<Case> {
    let mut random = Random::new(seed + 1);
    let marks = [
        "\u{301}\u{301}",
        "\u{E0100}\u{6F22}",
        "\u{301}\u{E0100}\t\u{6F22}",
        "a \u{300}\u{1100}-b",
        "\u{301}\u{300}\u{1100}\u{1100}-a",
    ];
    let mut cases = Vec::new();
    for index in 0..60 {
        let line = match marks.get(index % 10) {
            Some(line) => line.as_bytes().to_vec(),
            None => generate::line(&mut random, 12),
        };
        let width = random.below(20);
        for mode in [3, 4] {
            let first = random.below(4);
            cases.push(rows(&line, width, mode));
            cases.push(snug(draw_row(&line, first, 1, width, mode)));
        }
        cases.push(height(&line, width, 3 + index % 2));
    }
    cases
}

/// Mostly short lines; a few dozen are longer.
fn random_cases(seed: u64) -> Vec<Case> {
    let mut random = Random::new(seed);
    let mut cases = Vec::new();
    for index in 0..RANDOM_CASES {
        let size = if index % 25 == 0 {
            random.between(60, 190)
        } else {
            random.between(1, 22)
        };
        let line = generate::line(&mut random, size);
        cases.push(generate::case_on(&mut random, &line, true));
    }
    cases
}
