//! Answers and kept keys that are stated, where document 02's words are short.

use super::model::{answers, Wraps, HEAD};
use super::sequence::{list, Sequence};
use oracle::format::hex;
use oracle::Answer;

struct Statement {
    sequence: Sequence,
    says: Says,
}

enum Says {
    /// The last call's number, count and rows.
    Last(&'static str),
    /// Width and mode of each kept wrap, the last used first.
    Kept(&'static str),
}

/// The stated sequences; the model is held to each of them here.
pub fn sequences() -> Vec<Sequence> {
    let statements = statements();
    for Statement { sequence, says } in &statements {
        let (answers, array) = answers(sequence);
        let (said, stated) = match says {
            Says::Last(stated) => (answers.last().map(shown).unwrap_or_default(), stated),
            Says::Kept(stated) => (kept(&array), stated),
        };
        assert_eq!(said, *stated, "{sequence}");
    }
    statements.into_iter().map(|said| said.sequence).collect()
}

fn shown(answer: &Answer) -> String {
    let rows = list(answer.pairs.iter().copied());
    format!("{} {} {rows}", answer.number, answer.count)
}

fn kept(array: &[usize]) -> String {
    let keys = Wraps::of(array).keys().into_iter();
    let keys = keys.map(|[version, width, mode]| match version {
        0 => format!("{width},{mode}"),
        _ => format!("version {version}: {width},{mode}"),
    });
    keys.collect::<Vec<_>>().join(" ")
}

fn sequence(line: &[u8], steps: &str) -> Sequence {
    let text = format!("sequence {} {steps}", hex(line));
    text.parse().expect("a stated sequence")
}

/// What the last of the calls on `abcdef` answers.
fn last(steps: &str, answer: &'static str) -> Statement {
    Statement {
        sequence: sequence(b"abcdef", steps),
        says: Says::Last(answer),
    }
}

/// What the calls on `abcdef` leave.
fn keeps(steps: &str, keys: &'static str) -> Statement {
    keeps_of(b"abcdef", steps, keys)
}

fn keeps_of(line: &[u8], steps: &str, keys: &'static str) -> Statement {
    Statement {
        sequence: sequence(line, steps),
        says: Says::Kept(keys),
    }
}

fn statements() -> Vec<Statement> {
    let mut said = kept_and_answered();
    said.extend(any_contents());
    said.extend(questions());
    said.extend(uses());
    said.extend(limits());
    said
}

/// What is kept is answered, whatever the line is by then.
fn kept_and_answered() -> Vec<Statement> {
    vec![
        last("r4,1", "0 2 0,4,4,6"),
        last("r4,1 r4,1", "0 2 0,4,4,6"),
        last("r4,1 h4,1", "0 2 -"),
        // another line
        last("r4,1 l6162 r4,1", "0 2 0,4,4,6"),
        last("r4,1 l6162 h4,1", "0 2 -"),
        last("r4,1 l6162 r3,1", "0 1 0,2"),
        // a kept row is altered: this key answers it, another does not
        last("r4,1 w21,9 r4,1", "0 2 0,9,4,6"),
        last("r4,1 w21,9 r4,1 r4,1", "0 2 0,9,4,6"),
        last("r4,1 w21,9 r5,1", "0 2 0,5,5,6"),
        // a height that is not kept keeps the rows
        last("h3,1 w20,7 r3,1", "0 2 7,3,3,6"),
        keeps("h3,1", "3,1"),
        // no bytes: one row
        keeps_of(b"", "r4,1", "4,1"),
        // width and mode are compared as they are
        last("r4,1 w21,9 r4,2", "0 2 0,4,4,6"),
        keeps("r4,1 r4,2 r4,3 r4,4", "4,4 4,3 4,2 4,1"),
    ]
}

/// Arrays of any contents.
fn any_contents() -> Vec<Statement> {
    let full = usize::MAX;
    let sound = |second: &str| last(&format!("w0,0,4,1,1,0,{second} w20,7,8 r4,1"), "0 1 7,8");
    let none = |heads: &str| last(&format!("{heads} r4,1"), "0 2 0,4,4,6");
    vec![
        // FF.. holds none, and the next use writes sound heads
        none(&format!("f{full}")),
        keeps(&format!("f{full} r4,1"), "4,1"),
        keeps(&format!("f{full} r4,1 r5,1"), "5,1 4,1"),
        keeps(&format!("f{full} h4,0"), ""),
        none("s1"),
        // sound heads with false rows
        sound("0"),
        sound("0,5,1,1,1"),
        sound("0,5,1,1024,1"),
        // a head of no rows is the end
        sound("0,5,1,0,0"),
        sound(&format!("0,5,1,0,9,{full},{full},{full},{full},{full}")),
        none("w0,0,9,9,0,0,0,4,1,1,0"),
        // a count above 1,024, a block beyond the heads, one twice, one left out: none
        none("w0,0,4,1,1025,0"),
        none("w0,0,4,1,1,0,0,5,1,1025,1"),
        none("w0,0,4,1,1,0,0,5,1,1,2"),
        none("w0,0,4,1,1,0,0,5,1,1,0"),
        none("w0,0,4,1,1,1"),
        none(&format!("w0,0,4,1,1,{}", 1_usize << 32)),
        none(&format!("w0,0,4,1,{},0", 1_usize << 32)),
        // another version, width or mode
        none("w0,1,4,1,1,0"),
        none(&format!("w0,{},4,1,1,0", 1_usize << 32)),
        none(&format!("w0,0,{},1,1,0", (1_usize << 32) + 4)),
        none(&format!("w0,0,4,{},1,0", (1_usize << 32) + 1)),
        keeps("w0,1,4,1,1,0 r4,1", "4,1 version 1: 4,1"),
        // the first of two heads of a key is found, and only that one stays
        last("w0,0,4,1,1,0,0,4,1,1,1 w20,7,8 w2068,5,6 r4,1", "0 1 7,8"),
        keeps("w0,0,4,1,1,0,0,4,1,1,1 r4,1", "4,1"),
        keeps("w0,0,4,1,1,1,0,4,1,1,0 r4,1", ""),
    ]
}

/// A kept key is asked all questions, but skips wrapping.
fn questions() -> Vec<Statement> {
    let forged = format!("w0,0,70000,1,1,0,0,4,5,1,1,{}", list([0; HEAD].into_iter()));
    vec![
        last("r4,1 r4,1,0,-1,0", "4 0 -"),
        last("r4,1 r4,1,-1,0,0", "2 0 -"),
        last("r4,1 h4,1,0,-1,0", "4 0 -"),
        keeps("r4,1 r4,1,0,-1,0", "4,1"),
        // the kept count
        last("r1,1 r1,1,0,0,-2", "6 0 -"),
        last("r1,1 l6162 r1,1,0,0,-1", "6 0 -"),
        last("r1,1 l6162 r1,1", "0 6 0,1,1,2,2,3,3,4,4,5,5,6"),
        // 5 stands before looking
        last(&format!("{forged} r70000,1,0,0,9"), "5 0 -"),
        last(&format!("{forged} h70000,1"), "5 0 -"),
        last(&format!("{forged} r4,5,0,0,9"), "5 0 -"),
        last(&format!("{forged} h4,5"), "5 0 -"),
    ]
}

/// What a use is, and what is none.
fn uses() -> Vec<Statement> {
    let four = "r1,1 r2,1 r3,1 r4,1";
    let then = |steps: &str, keys| keeps(&format!("{four} {steps}"), keys);
    vec![
        then("r5,1", "5,1 4,1 3,1 2,1"),
        // a refused call is none
        then("r1,1,0,0,-1 r5,1", "5,1 4,1 3,1 2,1"),
        then("r1,1,-1,0,0 r5,1", "5,1 4,1 3,1 2,1"),
        then("h1,1,0,-1,0 r5,1", "5,1 4,1 3,1 2,1"),
        then("r5,1,0,0,-1", "4,1 3,1 2,1 1,1"),
        then("r65536,1 r5,5 h5,5", "4,1 3,1 2,1 1,1"),
        // a use moves its key to the front
        then("h1,1 r5,1", "5,1 1,1 4,1 3,1"),
        then("r1,1 r5,1", "5,1 1,1 4,1 3,1"),
        then("r4,1 h4,1", "4,1 3,1 2,1 1,1"),
        then("r2,1 r1,1 r3,1", "3,1 1,1 2,1 4,1"),
        then("h5,1 h6,1 h1,1 h2,1", "2,1 1,1 6,1 5,1"),
        // Unwrapped height is none, also of a kept key, and is 1 whatever is kept
        keeps("r1,0 r2,1 r3,1 r4,1 h1,0 r5,1", "5,1 4,1 3,1 2,1"),
        keeps("h1,0", ""),
        last("w0,0,1,0,3,0 h1,0", "0 1 -"),
        last("h1,0,0,-1,0", "4 0 -"),
        last("h65536,0", "5 0 -"),
        // Unwrapped rows are one, found by width, too
        last("r1,0", "0 1 0,18446744073709551615"),
        keeps("r1,0 r2,0 r3,0 r4,0 r5,0", "5,0 4,0 3,0 2,0"),
    ]
}

/// Wraps of about 1,024 rows.
fn limits() -> Vec<Statement> {
    let letters = |count: usize| vec![b'a'; count];
    let four = "r2,1 r3,1 r4,1 r5,1";
    vec![
        keeps_of(&letters(1_024), "r1,1", "1,1"),
        keeps_of(&letters(1_024), "h1,1", "1,1"),
        keeps_of(&letters(1_025), "r1,1", ""),
        keeps_of(&letters(1_025), "h1,1", ""),
        keeps_of(
            &letters(1_025),
            &format!("{four} r1,1 h1,1"),
            "5,1 4,1 3,1 2,1",
        ),
        keeps_of(&letters(1_024), &format!("{four} h1,1"), "1,1 5,1 4,1 3,1"),
        keeps_of(
            &letters(2_048),
            "r1,1 r2,1 h1,1 r1,2 h2,2 r3,1",
            "3,1 2,2 2,1",
        ),
    ]
}
