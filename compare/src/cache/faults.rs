//! Faults planted behind the calls, to see that they are found.

use super::check::{Asked, Checker, Judge};
use super::line::Line;
use super::model::{block_start, BLOCK, HEADS, MOST_KEPT};
use super::sequence::Sequence;
use super::twists::{Left, Twist, TWISTS};
use super::{sample, sets, stated};
use crate::faults::{faults, Fault};
use crate::lent::Place;
use std::fmt;

/// Plants each fault; whether all were found.
pub fn try_faults(seed: u64) -> bool {
    try_marks() & try_twists(seed)
}

// ---- one number or byte

/// Something that is altered behind one call.
#[derive(Clone, Copy)]
enum Mark {
    /// In its answer, or in memory other than the kept wraps.
    Answer(Fault),
    /// One of the kept wraps' numbers.
    Number(usize),
    Around(Place),
}

impl fmt::Display for Mark {
    fn fmt(&self, f: &mut fmt::Formatter<'_>) -> fmt::Result {
        match self {
            Mark::Answer(fault) => fault.fmt(f),
            Mark::Number(place) => write!(f, "number {place} of the kept wraps"),
            Mark::Around(place) => write!(f, "the kept wraps, {place}"),
        }
    }
}

fn marks() -> Vec<Mark> {
    let mut marks: Vec<Mark> = faults().into_iter().map(Mark::Answer).collect();
    marks.extend((0..HEADS).map(Mark::Number));
    for start in (0..MOST_KEPT).map(block_start) {
        let places = [start, start + 1, start + 5, start + BLOCK - 1];
        marks.extend(places.map(Mark::Number));
    }
    marks.extend([Place::Before, Place::Behind].map(Mark::Around));
    marks
}

/// Plants each mark behind each call of the sample and of the stated sequences.
fn try_marks() -> bool {
    let mut checker = Checker::new();
    let (mut planted, mut found) = (0, 0);
    for sequence in stated::sequences().into_iter().chain(sample::sequences()) {
        for call in 0..sequence.calls().count() {
            for mark in marks() {
                let (was_planted, was_found) = try_mark(&mut checker, &sequence, call, mark);
                planted += usize::from(was_planted);
                found += usize::from(was_planted && was_found);
                if was_planted && !was_found {
                    println!("{sequence}: {mark} behind call {call} is not found");
                }
            }
        }
    }
    println!("kept wraps: {found} of {planted} planted marks found");
    found == planted
}

/// Whether there is such a place, and whether the mark is found there.
fn try_mark(checker: &mut Checker, sequence: &Sequence, call: usize, mark: Mark) -> (bool, bool) {
    let (mut calls, mut planted) = (0, false);
    let mut answerer = |asked: &mut Asked| {
        let mut answer = asked.memory.call(asked.case);
        if calls == call {
            planted = plant(asked, mark, &mut answer);
        }
        calls += 1;
        answer
    };
    let found = checker.check(sequence, Judge::Both, &mut answerer).is_err();
    (planted, found)
}

fn plant(asked: &mut Asked, mark: Mark, answer: &mut console_lines::raw::Answer) -> bool {
    let memory = &mut asked.memory;
    match mark {
        Mark::Answer(fault) => memory.library.plant(fault, answer),
        Mark::Number(place) => {
            memory.wraps.damage_item(place);
            true
        }
        Mark::Around(place) => memory.wraps.damage(place),
    }
}

// ---- another behaviour

/// So many sequences of each set are tried with each twist.
const OF_EACH_SET: usize = 300;

fn try_twists(seed: u64) -> bool {
    let mut sequences = Vec::new();
    for set in sets::sets(seed) {
        let step = set.count.div_ceil(OF_EACH_SET);
        sequences.extend((0..set.count).step_by(step).map(&set.case));
    }
    let mut checker = Checker::new();
    let missed = TWISTS.iter().filter(|twist| {
        let tried = try_twist(&mut checker, twist, &sequences);
        println!("kept wraps, {}: {tried}", twist.name);
        !tried.is_found(twist)
    });
    missed.count() == 0
}

/// In how many sequences a twist changes something, and in how many it is found.
#[derive(Default)]
struct Tried {
    planted: usize,
    found: usize,
    by_theorem: usize,
}

impl Tried {
    fn is_found(&self, twist: &Twist) -> bool {
        let found = self.found == self.planted && self.planted > 0;
        found && twist.breaks == (self.by_theorem > 0)
    }
}

impl fmt::Display for Tried {
    fn fmt(&self, f: &mut fmt::Formatter<'_>) -> fmt::Result {
        let Tried {
            planted,
            found,
            by_theorem,
        } = self;
        write!(f, "{found} of {planted} found")?;
        if *by_theorem > 0 {
            write!(f, ", {by_theorem} by the theorem alone")?;
        }
        Ok(())
    }
}

fn try_twist(checker: &mut Checker, twist: &Twist, sequences: &[Sequence]) -> Tried {
    let mut tried = Tried::default();
    for sequence in sequences {
        let (planted, found) = is_found(checker, twist, sequence, Judge::Model);
        tried.planted += usize::from(planted);
        tried.found += usize::from(planted && found);
        if planted && !found {
            println!("{sequence}: {} is not found", twist.name);
        }
        if planted && sequence.is_of_calls() {
            let (_, found) = is_found(checker, twist, sequence, Judge::Theorem);
            tried.by_theorem += usize::from(found);
        }
    }
    tried
}

/// Whether the twist changes something, and whether the judge finds a difference.
fn is_found(
    checker: &mut Checker,
    twist: &Twist,
    sequence: &Sequence,
    judge: Judge,
) -> (bool, bool) {
    let mut line = Line::new(&sequence.line);
    let mut planted = false;
    let mut answerer = |asked: &mut Asked| {
        if line.bytes() != asked.case.line {
            line = Line::new(&asked.case.line);
        }
        let (answer, changed) = twisted(asked, twist, &mut line);
        planted |= changed;
        answer
    };
    let found = checker.check(sequence, judge, &mut answerer).is_err();
    (planted, found)
}

/// Makes a call and changes what it left; whether that is anything else.
fn twisted(
    asked: &mut Asked,
    twist: &Twist,
    line: &mut Line,
) -> (console_lines::raw::Answer, bool) {
    let before = asked.memory.wraps.lent().to_vec();
    let answer = asked.memory.call(asked.case);
    let memory = &mut asked.memory;
    let (right, array) = (
        memory.library.whole_answer(answer),
        memory.wraps.lent().to_vec(),
    );
    let mut left = Left {
        ask: *asked.ask,
        sizes: asked.case.sizes(),
        line,
        before,
        answer: right.clone(),
        array: array.clone(),
    };
    (twist.change)(&mut left);
    let Left {
        answer: other,
        array: other_array,
        ..
    } = left;
    memory.library.leave(&other);
    memory.wraps.leave(other_array.iter().copied());
    let answer = console_lines::raw::Answer {
        number: other.number,
        count: other.count,
    };
    let changed = memory.library.whole_answer(answer) != right || other_array != array;
    (answer, changed)
}
