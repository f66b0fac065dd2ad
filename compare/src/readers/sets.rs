//! Drawings for each reader, and pairs of lines with another URI.

use super::exchange::{Line, Pair};
use super::view::View;
use crate::alphabets::{ATTRIBUTES, DRAWN};
use crate::calls;
use crate::comparison::Set;
use crate::lending;
use crate::lines::short;
use console_lines::raw::{BENCH, CREW};
use oracle::generate;
use oracle::random::Random;
use oracle::{Call, Case};

/// The readers, others next to them, and those that a narrower type would cut.
pub const READERS: [usize; 10] = [
    BENCH,
    CREW,
    2,
    3,
    255,
    256,
    1 << 32,
    (1 << 32) + 1,
    usize::MAX - 1,
    usize::MAX,
];

const CALLS: [&str; 2] = ["draw_window", "draw_row"];

/// How many random pairs there are.
const RANDOM: usize = 1_200_000;

const ENDS: [&[u8]; 2] = [b"\x07", b"\x1B\\"];

pub fn views(seed: u64) -> Vec<Set<View>> {
    let lines = short(ATTRIBUTES, 3);
    let lines = (0..lines.count).map(|number| (lines.line)(number));
    let mut long: Vec<Vec<u8>> = [4_095, 4_096, 4_097].map(|len| vec![b'a'; len]).to_vec();
    long.push([b"\x1B]8;;u\x07".to_vec(), vec![b'a'; 4_092]].concat());
    let few = CALLS.iter().flat_map(|name| calls::few(name));
    let mut cases = Vec::new();
    for line in lines.chain(long) {
        for call in few.clone() {
            let mut random = Random::of_case(seed, cases.len());
            cases.push(lending::around_need(&mut random, call, &line));
        }
    }
    let count = cases.len() * READERS.len();
    let view = move |number: usize| View {
        case: cases[number / READERS.len()].clone(),
        reader: READERS[number % READERS.len()],
    };
    let case = Box::new(view);
    let name = "each reader";
    vec![Set { name, count, case }]
}

pub fn pairs(seed: u64) -> Vec<Set<Pair>> {
    let random = Set {
        name: "random lines with another URI",
        count: RANDOM,
        case: Box::new(move |number| random_pair(&mut Random::of_case(seed, number))),
    };
    vec![random, short_pairs()]
}

// ---- random pairs

pub fn random_pair(random: &mut Random) -> Pair {
    let line = Line {
        before: without_backspace(generate::any_line(random)),
        id: any_id(random),
        end: random.pick(&ENDS),
        behind: without_backspace(generate::any_line(random)),
    };
    let len = match random.below(40) {
        0 => 0,
        1..=29 => random.between(1, 12),
        30..=38 => random.between(12, 80),
        _ => random.between(80, 4_000),
    };
    let [uri, other] = [(), ()].map(|()| letters(random, len));
    let any = random.pick(&[calls::any_window, calls::any_row]);
    line.pair(&uri, &other, |line| {
        let call = calls::without_matches(&any(random, line));
        lending::around_need(random, call, line)
    })
}

fn without_backspace(mut line: Vec<u8>) -> Vec<u8> {
    line.retain(|&byte| byte != 0x08);
    line
}

fn any_id(random: &mut Random) -> Vec<u8> {
    let mut id = Vec::new();
    for _ in 0..random.below(4) {
        id.extend(
            random
                .pick(&["id=1", " ", "\u{301}", "\u{6F22}", "\u{1F1E6}", "~"])
                .bytes(),
        );
    }
    id
}

/// Bytes 20 to 7E but for 3B.
fn letters(random: &mut Random, len: usize) -> Vec<u8> {
    let letter = |_| match random.between(0x20, 0x7D) as u8 {
        byte if byte < 0x3B => byte,
        byte => byte + 1,
    };
    (0..len).map(letter).collect()
}

// ---- short pairs

const IDS: [&str; 3] = ["", "i", "\u{6F22}\u{301}"];
const BEHIND: [&[u8]; 5] = [b"", b"a\x1B[m", b"\xCC\x81b", b"\xFFa", b"b\x1B]8;;\x07c"];
const URIS: [(&[u8], &[u8]); 5] = [
    (b"u", b"v"),
    (b"a", b" "),
    (b"~m", b"0;"),
    (b"\\[", b"]8"),
    (b"", b""),
];

/// Each short line before a hyperlink of each form, each of some drawings of it.
fn short_pairs() -> Set<Pair> {
    let before = short(DRAWN, 3);
    let calls: Vec<Call> = CALLS.iter().flat_map(|name| calls::few(name)).collect();
    let sizes = [IDS.len(), ENDS.len(), BEHIND.len(), URIS.len(), calls.len()];
    let count = before.count * sizes.iter().product::<usize>();
    let case = move |mut number: usize| {
        let [id, end, behind, uris, call] = sizes.map(|size| {
            let choice = number % size;
            number /= size;
            choice
        });
        let line = Line {
            before: without_backspace((before.line)(number)),
            id: IDS[id].as_bytes().to_vec(),
            end: ENDS[end],
            behind: BEHIND[behind].to_vec(),
        };
        let (uri, other) = URIS[uris];
        line.pair(uri, other, |line| {
            Case::new(line, calls[call].clone(), [8 * line.len(), 64, 0, 4_000])
        })
    };
    Set {
        name: "short lines with another URI",
        count,
        case: Box::new(case),
    }
}
