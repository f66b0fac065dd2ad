//! Faults that a library with kept wraps could have.

use super::line::Line;
use super::model::{block_start, Model, Wrap, Wraps, BLOCK, HEAD, HEADS, MOST_KEPT, MOST_ROWS};
use super::sequence::Ask;
use oracle::{Answer, Sizes};
use std::iter;

/// A call, the kept wraps before it, and what it left, which is to be changed.
pub struct Left<'a> {
    pub ask: Ask,
    pub sizes: Sizes,
    pub line: &'a mut Line,
    pub before: Vec<usize>,
    pub answer: Answer,
    pub array: Vec<usize>,
}

impl Left<'_> {
    fn is_accepted(&self) -> bool {
        self.answer.number == 0
    }

    /// The wrap of the key, where it was kept.
    fn kept(&self) -> Option<Wrap> {
        Wraps::of(&self.before).find(self.ask.key()).cloned()
    }

    /// The wrap that an accepted call keeps, where it was not.
    fn newly_kept(&mut self) -> Option<Wrap> {
        let wrap = self.not_kept()?;
        (self.is_accepted() && wrap.count() <= MOST_ROWS).then_some(wrap)
    }

    /// The wrap of a key that was not kept.
    fn not_kept(&mut self) -> Option<Wrap> {
        let [_, width, mode] = self.ask.key();
        if self.ask.is_unwrapped_height() || self.kept().is_some() {
            return None;
        }
        Some(Wrap {
            key: self.ask.key(),
            block: Wraps::of(&self.before).room(),
            rows: self.line.rows(width, mode).to_vec(),
        })
    }

    fn leave_as_before(&mut self) {
        self.array.clone_from(&self.before);
    }

    /// Leaves these wraps.
    fn keep(&mut self, wraps: &Wraps) {
        self.leave_as_before();
        wraps.write(&mut self.array);
    }

    /// Leaves what a use of the wrap leaves.
    fn use_wrap(&mut self, wrap: Wrap) {
        let mut wraps = Wraps::of(&self.before);
        wraps.use_wrap(wrap);
        self.keep(&wraps);
    }

    /// Leaves the answer of an accepted call, as far as there is room.
    fn accept(&mut self, wrap: &Wrap) {
        self.answer = Answer {
            number: 0,
            count: wrap.count(),
            ..self.line.reading().clone()
        };
        if self.ask.rows {
            self.answer.pairs = wrap.rows.clone();
        }
    }

    /// Leaves what the call would with other kept wraps before it.
    fn answer_from(&mut self, array: Vec<usize>) {
        let mut model = Model::new(self.line.bytes());
        model.array = array;
        self.answer = model.answer(&self.ask, self.sizes).0;
        self.array = model.array;
    }
}

pub struct Twist {
    pub name: &'static str,
    /// Whether it breaks what is said of calls on one line.
    pub breaks: bool,
    pub change: fn(&mut Left),
}

const fn breaks(name: &'static str, change: fn(&mut Left)) -> Twist {
    Twist {
        name,
        breaks: true,
        change,
    }
}

const fn holds(name: &'static str, change: fn(&mut Left)) -> Twist {
    Twist {
        name,
        breaks: false,
        change,
    }
}

pub const TWISTS: [Twist; 31] = [
    // which gives way
    breaks("a use moves nothing", |left| {
        if left.is_accepted() && left.kept().is_some() {
            left.leave_as_before();
        }
    }),
    breaks("the last used gives way", |left| {
        let mut wraps = Wraps::of(&left.before);
        if let (Some(wrap), MOST_KEPT) = (left.newly_kept(), wraps.0.len()) {
            let block = wraps.0[0].block;
            wraps.0[0] = Wrap { block, ..wrap };
            left.keep(&wraps);
        }
    }),
    breaks("the least recently used but one gives way", |left| {
        let mut wraps = Wraps::of(&left.before);
        if let (Some(wrap), MOST_KEPT) = (left.newly_kept(), wraps.0.len()) {
            wraps.0.swap(2, 3);
            let block = wraps.room();
            wraps.use_wrap(Wrap { block, ..wrap });
            left.keep(&wraps);
        }
    }),
    breaks("a fourth is not kept", |left| {
        if left.newly_kept().is_some() && Wraps::of(&left.before).0.len() == 3 {
            left.leave_as_before();
        }
    }),
    breaks("a new wrap has the last block", |left| {
        let full = Wraps::of(&left.before).0.len() == MOST_KEPT;
        if let (Some(wrap), true) = (left.newly_kept(), full) {
            left.use_wrap(Wrap { block: 3, ..wrap });
        }
    }),
    // refusals
    breaks("a refused call is a use", |left| {
        if let (Some(wrap), false) = (left.kept(), left.is_accepted()) {
            left.use_wrap(wrap);
        }
    }),
    breaks("a refusal zeroes the kept wraps", |left| {
        if !left.is_accepted() {
            left.array.fill(0);
        }
    }),
    breaks("a wrap refused by 6 is kept", |left| {
        if left.answer.number == 6 {
            let wrap = left.not_kept().filter(|wrap| wrap.count() <= MOST_ROWS);
            wrap.into_iter().for_each(|wrap| left.use_wrap(wrap));
        }
    }),
    breaks("question 6 is not asked of a kept key", |left| {
        if let (Some(wrap), 6) = (left.kept(), left.answer.number) {
            left.accept(&wrap);
            left.use_wrap(wrap);
        }
    }),
    breaks("question 4 is not asked of a kept key", |left| {
        if let (Some(wrap), 4) = (left.kept(), left.answer.number) {
            left.accept(&wrap);
            left.use_wrap(wrap);
        }
    }),
    // many rows
    breaks("a wrap of 1,025 rows is kept", |left| {
        let wrap = left.not_kept().filter(|wrap| wrap.count() == MOST_ROWS + 1);
        if let (Some(mut wrap), true) = (wrap, left.is_accepted()) {
            wrap.rows.truncate(BLOCK);
            left.use_wrap(wrap);
            left.array[3] = MOST_ROWS + 1;
        }
    }),
    breaks("a wrap of 1,024 rows is not kept", |left| {
        if left
            .newly_kept()
            .is_some_and(|wrap| wrap.count() == MOST_ROWS)
        {
            left.leave_as_before();
        }
    }),
    breaks("a wrap above 1,024 rows lets one give way", |left| {
        let mut wraps = Wraps::of(&left.before);
        let long = left.not_kept().is_some_and(|wrap| wrap.count() > MOST_ROWS);
        if long && left.is_accepted() && wraps.0.len() == MOST_KEPT {
            wraps.0.pop_back();
            left.keep(&wraps);
        }
    }),
    // Unwrapped
    breaks("Unwrapped height is a use", |left| {
        if left.is_accepted() && left.ask.is_unwrapped_height() {
            let wraps = Wraps::of(&left.before);
            left.use_wrap(left.kept().unwrap_or_else(|| Wrap {
                key: left.ask.key(),
                block: wraps.room(),
                rows: vec![0, usize::MAX],
            }));
        }
    }),
    holds("Unwrapped height is answered from what is kept", |left| {
        if left.is_accepted() && left.ask.is_unwrapped_height() {
            let kept = left.kept();
            left.answer.count = kept.map_or(1, |wrap| wrap.count());
        }
    }),
    breaks("Unwrapped rows are no use", |left| {
        if left.ask.rows && left.ask.mode == 0 {
            left.leave_as_before();
        }
    }),
    // height
    breaks("height keeps nothing", |left| {
        if !left.ask.rows && left.newly_kept().is_some() {
            left.leave_as_before();
        }
    }),
    breaks("the height of a kept key is no use", |left| {
        if !left.ask.rows && left.kept().is_some() {
            left.leave_as_before();
        }
    }),
    // what is kept
    breaks("a kept row is altered", |left| {
        if let Some(wrap) = left.newly_kept() {
            let last = block_start(wrap.block) + wrap.rows.len() - 1;
            left.array[last] ^= 1;
        }
    }),
    breaks("a kept row is left out", |left| {
        if left.newly_kept().is_some_and(|wrap| wrap.count() > 1) {
            left.array[3] -= 1;
        }
    }),
    breaks("a head has version 1", |left| {
        if left.newly_kept().is_some() {
            left.array[0] = 1;
        }
    }),
    holds("a block is zeroed behind its rows", |left| {
        if let Some(wrap) = left.newly_kept() {
            let start = block_start(wrap.block);
            left.array[start + wrap.rows.len()..start + BLOCK].fill(0);
        }
    }),
    holds("all heads are cleared of no rows", |left| {
        let heads = left.array[..HEADS].chunks_mut(HEAD);
        let empty = heads.filter(|head| head[3] == 0);
        empty.for_each(|head| head.fill(0));
    }),
    // what is answered
    breaks("the mode is not looked at", |left| {
        let [_, width, _] = left.ask.key();
        let wraps = Wraps::of(&left.before);
        let alike = wraps.0.iter().find(|wrap| wrap.key[..2] == [0, width]);
        if let (Some(_), Some(alike)) = (left.newly_kept(), alike) {
            left.accept(alike);
            left.use_wrap(alike.clone());
        }
    }),
    breaks("the list is not zeroed behind kept rows", |left| {
        if let (Some(wrap), true) = (left.kept(), left.is_accepted() && left.ask.rows) {
            let behind = iter::repeat_n(9, left.sizes[2] - wrap.rows.len());
            left.answer.pairs.splice(wrap.rows.len().., behind);
        }
    }),
    breaks("a kept key leaves no spans", |left| {
        if left.is_accepted() && left.kept().is_some() {
            left.answer.records.clear();
        }
    }),
    holds("a kept key is wrapped anew", |left| {
        if let (Some(wrap), true) = (left.kept(), left.is_accepted()) {
            let rows = left.line.rows(left.ask.width, left.ask.mode).to_vec();
            left.accept(&Wrap { rows, ..wrap });
        }
    }),
    // arrays of any contents
    holds("an array that holds none stays so", |left| {
        if left.before[3] > 0 && Wraps::of(&left.before).0.is_empty() {
            left.leave_as_before();
        }
    }),
    holds("heads before a false one are kept", |left| {
        if Wraps::of(&left.before).0.is_empty() {
            let mut array = left.before.clone();
            for heads in (1..MOST_KEPT).rev() {
                array[HEAD * heads..HEADS].fill(0);
                if !Wraps::of(&array).0.is_empty() {
                    return left.answer_from(array);
                }
            }
        }
    }),
    holds("both heads of a key stay", |left| {
        let mut wraps = Wraps::of(&left.before);
        let place = wraps.0.iter().position(|wrap| wrap.key == left.ask.key());
        let used = left.is_accepted() && !left.ask.is_unwrapped_height();
        if let (Some(place), true) = (place, used) {
            let wrap = wraps.0.remove(place).expect("a kept wrap");
            wraps.0.push_front(wrap);
            left.keep(&wraps);
        }
    }),
    holds("widths are cut to 32 bits", |left| {
        let mut array = left.before.clone();
        let widths = array[..HEADS].iter_mut().skip(1).step_by(HEAD);
        widths.for_each(|width| *width &= u32::MAX as usize);
        if array != left.before {
            left.answer_from(array);
        }
    }),
];
