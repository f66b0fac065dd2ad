//! The sets of cases for each call.

use crate::alphabets::{self, Alphabet, ATTRIBUTES, DRAWN as SPANS, JOINED, SEARCHED, SHIFTED};
use crate::calls::{self, MODES, WIDTHS};
use crate::comparison::Set;
use crate::lending;
use crate::lines::{self, few, line_drawn, longest, scalars, sequences, short};
use crate::lines::{Context, Lines};
use crate::orders::orders;
use oracle::random::Random;
use oracle::{sample, Answer, Call, Case, Sizes};

/// Makes a call for a line.
type AnyCall = fn(&mut Random, &[u8]) -> Call;

/// Makes a line and a call for it.
type AnyLine = dyn Fn(&mut Random, usize) -> (Vec<u8>, Call) + Sync;

/// The calls of one name in the oracle's sample, with the sizes that are lent there.
pub fn sample(call: &str, seed: u64) -> Vec<Case> {
    let mut cases = sample::cases(seed);
    cases.retain(|case| case.call.name() == call);
    cases
}

/// How many random cases a set has.
const RANDOM: usize = 2_000_000;

/// The sets for a call, the oracle's sample first.
pub fn sets(call: &'static str, seed: u64) -> Vec<Set<Case>> {
    let mut sets = vec![
        Set::of("the oracle's sample", sample(call, seed)),
        lent(call, "sizes lent", lending::each_choice),
    ];
    if matches!(call, "draw_window" | "draw_row") {
        let name = "change lists of each size";
        sets.push(lent(call, name, lending::each_list));
    }
    sets.extend(call_sets(call).into_iter().map(|set| set.with_seed(seed)));
    sets
}

/// The sets for a call whose lines and arguments are made from numbers.
pub fn call_sets(call: &'static str) -> Vec<CallSet> {
    let mut sets = vec![CallSet::each(
        "numbers at each limit",
        few(),
        calls::at_limits(call),
    )];
    sets.extend(match call {
        "convert" => convert(),
        "read" => read(),
        "rows" | "height" => wrapped(call),
        "draw_window" => draw_window(),
        _ => draw_row(),
    });
    sets
}

/// A few calls on short lines, each with each of the sizes lent.
fn lent(call: &str, name: &'static str, sizes: fn(&Call, &[u8]) -> Vec<Sizes>) -> Set<Case> {
    let lines = short(SPANS, 2);
    let mut cases = Vec::new();
    for line in (0..lines.count).map(lines.line) {
        for call in calls::few(call) {
            let sizes = sizes(&call, &line).into_iter();
            cases.extend(sizes.map(|sizes| Case::new(&line, call.clone(), sizes)));
        }
    }
    Set::of(name, cases)
}

// ---- contexts that every scalar is tried in

/// Behind each class and before each class: what is erased tells what was joined.
#[rustfmt::skip]
const STRUCK: &[Context] = &[
    (b"a", b"\x08\x08"), (b"\xCC\x81", b"\x08\x08"), (b"\xE1\x84\x80", b"\x08\x08"),
    (b"\xE1\x85\xA1", b"\x08\x08"), (b"\xE1\x86\xA8", b"\x08\x08"), (b"\xEA\xB0\x80", b"\x08\x08"),
    (b"\xEA\xB0\x81", b"\x08\x08"), (b"\xF0\x9F\x87\xA6", b"\x08\x08"), (b"\r", b"\x08\x08"),
    (b"", b"\xCC\x81\x08\x08"), (b"", b"\xE1\x84\x80\x08\x08"), (b"", b"\xE1\x85\xA1\x08\x08"),
    (b"", b"\xE1\x86\xA8\x08\x08"), (b"", b"\xEA\xB0\x80\x08\x08"),
    (b"", b"\xF0\x9F\x87\xA6\x08\x08"), (b"", b"\n\x08\x08"), (b"", b"a\x08\x08"),
];

const READ: &[Context] = &[
    (b"", b""),
    (b"a", b""),
    (b"", b"\xCC\x81"),
    (b"\x1B[m", b""),
];
const WRAPPED: &[Context] = &[(b"", b""), (b"a", b"b c")];
const DRAWN: &[Context] = &[(b"a", b"\xFF"), (b"\x1B(0", b""), (b"\x1B(0\x1B(B", b"")];

// ---- arguments of row drawings

/// First rows and counts, inside the rows of a short line and beyond.
#[rustfmt::skip]
const ROWS: &[(usize, usize)] = &[
    (0, 1), (1, 1), (2, 1), (3, 1), (9, 1), (0, 2), (1, 2), (4, 9), (0, 65_535), (1, 65_535),
    (65_535, 65_535), (0, 0), (1, 0), (0, 65_536), (65_536, 1),
];
const NARROW_ROWS: &[(usize, usize)] = &[(0, 1), (1, 1), (2, 1), (1, 2), (9, 1)];

/// How the lines of a set are made.
#[derive(Clone, Copy, PartialEq)]
pub enum Kind {
    /// Each of them from its number.
    Every,
    Random,
    /// As long as is admitted, of one symbol.
    Longest,
}

/// Calls on lines, made from their numbers; what the number does not tell is random.
pub struct CallSet {
    pub name: &'static str,
    pub kind: Kind,
    pub count: usize,
    make: Box<AnyLine>,
}

impl CallSet {
    /// The call of a number lent just enough, and its answer.
    pub fn just(&self, random: &mut Random, number: usize) -> (Case, Answer) {
        let (line, call) = (self.make)(random, number);
        lending::just(call, &line)
    }

    /// The call of a number, with sizes lent around its need.
    fn case(&self, random: &mut Random, number: usize) -> Case {
        let (just, _) = self.just(random, number);
        lending::around_just(random, &just)
    }

    fn with_seed(self, seed: u64) -> Set<Case> {
        Set {
            name: self.name,
            count: self.count,
            case: Box::new(move |number| self.case(&mut Random::of_case(seed, number), number)),
        }
    }

    /// A call on every line.
    fn every(name: &'static str, lines: Lines, call: AnyCall) -> CallSet {
        let make = move |random: &mut Random, number| {
            let line = (lines.line)(number);
            let call = call(random, &line);
            (line, call)
        };
        CallSet {
            name,
            kind: Kind::Every,
            count: lines.count,
            make: Box::new(make),
        }
    }

    /// Each of the calls on every line.
    fn each(name: &'static str, lines: Lines, calls: Vec<Call>) -> CallSet {
        let count = lines.count * calls.len();
        let make = move |_: &mut Random, number: usize| {
            let (line, call) = (number / calls.len(), number % calls.len());
            ((lines.line)(line), calls[call].clone())
        };
        CallSet {
            name,
            kind: Kind::Every,
            count,
            make: Box::new(make),
        }
    }

    fn random(name: &'static str, alphabet: Alphabet, call: AnyCall) -> CallSet {
        let make = move |random: &mut Random, number| {
            let line = lines::random(random, alphabet, number);
            let call = call(random, &line);
            (line, call)
        };
        CallSet {
            name,
            kind: Kind::Random,
            count: RANDOM,
            make: Box::new(make),
        }
    }

    fn longest(alphabet: Alphabet, call: AnyCall) -> CallSet {
        CallSet {
            kind: Kind::Longest,
            ..CallSet::every("longest lines", longest(alphabet), call)
        }
    }
}

fn convert() -> Vec<CallSet> {
    use alphabets::{CLASSES, STRUCK as CLUSTERS, STRUCK_BYTES};
    let call = |_: &mut Random, _: &[u8]| Call::Convert;
    vec![
        CallSet::every("short lines of bytes", short(STRUCK_BYTES, 6), call),
        CallSet::every("short lines of clusters", short(CLUSTERS, 7), call),
        CallSet::every("short lines of classes", short(CLASSES, 6), call),
        CallSet::every("joined pictures", short(JOINED, 8), call),
        CallSet::every("every scalar", scalars(STRUCK), call),
        CallSet::longest(CLUSTERS, call),
        CallSet::random("random lines", CLUSTERS, call),
        CallSet::random("random joined pictures", JOINED, call),
    ]
}

fn read() -> Vec<CallSet> {
    use alphabets::{CLASSES, LEFT_OUT, LINKS, PARAMETERS, TELLING_BYTES};
    let plain = |_: &mut Random, _: &[u8]| calls::reading(Vec::new());
    let matched =
        |random: &mut Random, line: &[u8]| calls::reading(calls::any_matches(random, line));
    let [one, two] = [(10, 2), (5, 4)].map(|(base, count)| {
        let matches = calls::each_matches(base, count).into_iter();
        matches.map(calls::reading).collect()
    });
    vec![
        CallSet::every("short lines of bytes", short(TELLING_BYTES, 5), plain),
        CallSet::every("short style orders", short(PARAMETERS, 6), plain),
        CallSet::every("short hyperlinks", short(LINKS, 6), plain),
        CallSet::every("short lines of classes", short(CLASSES, 5), plain),
        CallSet::every("joined pictures", short(JOINED, 7), plain),
        CallSet::every("every scalar", scalars(READ), plain),
        CallSet::every("sequences of bytes", sequences(), plain),
        CallSet::every("sequences at ESC", orders(), plain),
        CallSet::each("short lines, one match", short(SEARCHED, 4), one),
        CallSet::each("short lines, two matches", short(SEARCHED, 3), two),
        CallSet::every("short lines, any matches", short(LEFT_OUT, 6), matched),
        CallSet::every("sequences at ESC, any matches", orders(), matched),
        CallSet::longest(TELLING_BYTES, matched),
        CallSet::random("random lines", TELLING_BYTES, plain),
        CallSet::random("random lines with matches", SEARCHED, matched),
    ]
}

/// Rows and height.
fn wrapped(call: &str) -> Vec<CallSet> {
    use alphabets::{WIDTHS_OF_SPANS, WORDS};
    let any = match call {
        "rows" => calls::any_rows,
        _ => calls::any_height,
    };
    let each = calls::each_wrapping(call, &WIDTHS, &MODES);
    let narrow = [1, 2].map(|number| calls::wrapping(call, number, number));
    let (words, spans) = (short(WORDS, 5), short(WIDTHS_OF_SPANS, 4));
    vec![
        CallSet::each("short words, each width and mode", words, each.clone()),
        CallSet::each("short spans, each width and mode", spans, each),
        CallSet::every("short words", short(WORDS, 7), any),
        CallSet::every("joined pictures", short(JOINED, 7), any),
        CallSet::each("every scalar", scalars(WRAPPED), narrow.to_vec()),
        CallSet::longest(WORDS, any),
        CallSet::random("random lines", WORDS, any),
    ]
}

fn draw_window() -> Vec<CallSet> {
    let each = calls::each_window(26);
    let mut sets = vec![
        CallSet::each("short lines, each window", short(SPANS, 3), each.clone()),
        CallSet::each("shifted columns, each window", short(SHIFTED, 3), each),
    ];
    sets.extend(drawn("draw_window", calls::any_window));
    sets
}

fn draw_row() -> Vec<CallSet> {
    let each = calls::each_row(ROWS, &[0, 1, 2, 3, 4, 8, 11], &MODES);
    let narrow = calls::each_row(NARROW_ROWS, &[0, 1, 2, 3, 5, 8, 9, 10, 16], &MODES[1..]);
    let mut sets = vec![
        CallSet::each("short lines, each row", short(SPANS, 3), each),
        CallSet::each("shifted columns, each row", short(SHIFTED, 4), narrow),
    ];
    sets.extend(drawn("draw_row", calls::any_row));
    sets
}

/// What both drawings are tried with.
fn drawn(call: &str, any: AnyCall) -> Vec<CallSet> {
    let few = calls::few(call);
    let one = calls::each_search(&few, &calls::each_matches(5, 2));
    let two = calls::each_search(&few[..1], &calls::each_matches(4, 4));
    let searched = calls::each_search(&few[..1], &[vec![], vec![0, 1], vec![1, 2]]);
    let whole = few[..1].to_vec();
    vec![
        CallSet::every("short lines", short(SPANS, 5), any),
        CallSet::every("short lines of attributes", short(ATTRIBUTES, 5), any),
        CallSet::every("shifted columns", short(SHIFTED, 6), any),
        CallSet::every("joined pictures", short(JOINED, 6), any),
        CallSet::each("short lines, one match", short(SEARCHED, 3), one),
        CallSet::each("short lines, two matches", short(SEARCHED, 2), two),
        CallSet::each("line drawing of each byte", line_drawn(), searched),
        CallSet::each("every scalar", scalars(DRAWN), whole.clone()),
        CallSet::each("sequences at ESC", orders(), whole),
        CallSet::longest(SPANS, any),
        CallSet::random("random lines", SPANS, any),
    ]
}
