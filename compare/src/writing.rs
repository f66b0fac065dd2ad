//! Calls that are handed bytes and leave bytes: screen_row, store, restore, write_cells.

use crate::comparison::Comparison;
use crate::lent::{Lent, Place};
use crate::library::{BYTE, CALLS_BETWEEN_WHOLE_CHECKS};
use oracle::format::buffer;
use std::fmt;
use std::marker::PhantomData;

/// What a call returns, and what it leaves in front of the zeros.
#[derive(Clone, Debug, Default, PartialEq, Eq)]
pub struct Answer {
    pub number: usize,
    pub count: usize,
    pub out: Vec<u8>,
}

impl Answer {
    /// The bytes that are left, or the number of the refusal.
    pub fn of(result: Result<Vec<u8>, usize>) -> Answer {
        match result {
            Ok(out) => Answer {
                number: 0,
                count: out.len(),
                out,
            },
            Err(number) => Answer {
                number,
                ..Answer::default()
            },
        }
    }
}

/// The text behind ` = `.
impl fmt::Display for Answer {
    fn fmt(&self, f: &mut fmt::Formatter<'_>) -> fmt::Result {
        let Answer { number, count, out } = self;
        write!(f, "{number} {count} {}", buffer(out))
    }
}

/// A call with what is lent to it.
pub trait Writing: fmt::Display {
    /// What the call is handed to read.
    fn input(&self) -> &[u8];

    /// How many bytes are lent for the result.
    fn size(&self) -> usize;

    /// What the model answers.
    fn answer(&self) -> Answer;

    /// Makes the call of the library.
    fn call(&self, input: &[u8], out: &mut [u8]) -> console_lines::raw::Answer;

    /// What more is said of the call, and is not so of the library: as text.
    fn broken(&self, _answer: &Answer) -> Option<String> {
        None
    }

    /// The whole line of text.
    fn answered(&self) -> String {
        format!("{self} = {}", self.answer())
    }
}

/// The memory that calls are handed.
pub struct Memory<C> {
    input: Lent<u8>,
    out: Lent<u8>,
    calls: usize,
    call: PhantomData<C>,
}

impl<C: Writing> Comparison for Memory<C> {
    type Case = C;

    fn new() -> Memory<C> {
        Memory {
            input: Lent::new(BYTE),
            out: Lent::new(BYTE),
            calls: 0,
            call: PhantomData,
        }
    }

    fn compare(&mut self, case: &C) -> (usize, Option<String>) {
        let expected = case.answer();
        let answer = self.call(case);
        let difference = self.difference(case, &expected, answer);
        let broken = || case.broken(&expected);
        (expected.number, difference.or_else(broken))
    }
}

impl<C: Writing> Memory<C> {
    fn call(&mut self, case: &C) -> console_lines::raw::Answer {
        let input = self.input.lend_copy(case.input());
        let out = self.out.lend(case.size());
        case.call(input, out)
    }

    /// The difference, as text, between what the last call returned and left and what
    /// is expected. All memory is taken back.
    fn difference(
        &mut self,
        case: &C,
        expected: &Answer,
        answer: console_lines::raw::Answer,
    ) -> Option<String> {
        let same = answer.number == expected.number
            && answer.count == expected.count
            && self.out.holds(expected.out.iter().copied());
        let mut faults = Vec::new();
        if !same {
            faults.push(format!("= {}", self.left(answer)));
        }
        faults.extend(self.take_back(case).map(str::to_string));
        if faults.is_empty() {
            return None;
        }
        let faults = faults.join("; ");
        Some(format!("{case} = {expected}\n  library: {faults}"))
    }

    fn left(&self, answer: console_lines::raw::Answer) -> Answer {
        Answer {
            number: answer.number,
            count: answer.count,
            out: self.out.lent().to_vec(),
        }
    }

    /// Fills what was lent with the pattern again. What the call did to memory that is
    /// not lent for writing is returned, as text.
    fn take_back(&mut self, case: &C) -> Option<&'static str> {
        let mut guarded = self.input.guarded() && self.out.guarded();
        guarded &= self.input.lent() == case.input();
        self.input.take_back();
        self.out.take_back();
        self.calls += 1;
        if self.calls.is_multiple_of(CALLS_BETWEEN_WHOLE_CHECKS) {
            guarded &= self.input.untouched() && self.out.untouched();
        }
        if guarded {
            return None;
        }
        self.input.restore();
        self.out.restore();
        Some("what is read, or memory around what is lent, is written")
    }
}

// ---- faults

/// Plants each fault in each of the cases: the number, the count, each byte lent for the
/// result, what is read, and the bytes around both. Whether all were found.
pub fn try_marks<C: Writing>(name: &str, cases: &[C]) -> bool {
    let mut memory = Memory::new();
    let (mut planted, mut found) = (0, 0);
    for case in cases {
        for mark in marks(case) {
            planted += 1;
            if is_found(&mut memory, case, mark) {
                found += 1;
            } else {
                println!("{case}: {mark:?} is not found");
            }
        }
    }
    println!("{name}: {found} of {planted} planted faults found");
    found == planted
}

#[derive(Clone, Copy, Debug)]
enum Mark {
    Number,
    Count,
    /// A byte that is lent for the result.
    Byte(usize),
    Input(Place),
    Out(Place),
}

fn marks<C: Writing>(case: &C) -> Vec<Mark> {
    let mut marks = vec![Mark::Number, Mark::Count];
    marks.extend((0..case.size()).map(Mark::Byte));
    let around = [Place::Before, Place::Behind];
    marks.extend(around.map(Mark::Input));
    marks.extend(around.map(Mark::Out));
    if !case.input().is_empty() {
        marks.extend([Place::First, Place::Last].map(Mark::Input));
    }
    marks
}

fn is_found<C: Writing>(memory: &mut Memory<C>, case: &C, mark: Mark) -> bool {
    let mut answer = memory.call(case);
    match mark {
        Mark::Number => answer.number ^= 1,
        Mark::Count => answer.count += 1,
        Mark::Byte(number) => memory.out.damage_item(number),
        Mark::Input(place) => drop(memory.input.damage(place)),
        Mark::Out(place) => drop(memory.out.damage(place)),
    }
    let expected = case.answer();
    memory.difference(case, &expected, answer).is_some()
}

/// A call as it would be wrong.
pub struct Twist<C> {
    pub name: &'static str,
    pub answer: fn(&C) -> Answer,
}

/// Leaves each wrong answer in the stead of the library's; whether each is found in one of
/// the cases at least.
pub fn try_twists<C: Writing>(name: &str, twists: &[Twist<C>], cases: &[C]) -> bool {
    let mut memory = Memory::<C>::new();
    let mut found = 0;
    for twist in twists {
        let mut cases = cases.iter();
        if cases.any(|case| is_seen(&mut memory, case, (twist.answer)(case))) {
            found += 1;
        } else {
            println!("{name}: not found where {}", twist.name);
        }
    }
    println!("{name}: {found} of {} wrong calls found", twists.len());
    found == twists.len()
}

fn is_seen<C: Writing>(memory: &mut Memory<C>, case: &C, wrong: Answer) -> bool {
    memory.call(case);
    memory.out.leave(wrong.out.iter().copied());
    let answer = console_lines::raw::Answer {
        number: wrong.number,
        count: wrong.count,
    };
    let difference = memory.difference(case, &case.answer(), answer);
    difference.is_some()
}
