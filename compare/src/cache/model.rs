//! A model of kept wraps, by document 02's words. The wraps are taken out of the array
//! with their rows, the last used first; a use changes their order; then all of them are
//! put back.

use super::line::Line;
use super::sequence::{Ask, Sequence, Step};
use oracle::{Answer, Case, Sizes};
use std::collections::{BTreeSet, VecDeque};

/// An array is four heads and four blocks.
pub const NUMBERS: usize = HEADS + MOST_KEPT * BLOCK;
pub const MOST_KEPT: usize = 4;
pub const MOST_ROWS: usize = 1_024;
/// Version, width, mode, rows, block.
pub const HEAD: usize = 5;
pub const HEADS: usize = MOST_KEPT * HEAD;
/// Start and end of each row.
pub const BLOCK: usize = 2 * MOST_ROWS;

const LONGEST_LINE: usize = 4_096;
const LARGEST_WIDTH: usize = 65_535;
const LARGEST_MODE: usize = 4;

/// Version, width and mode.
pub type Key = [usize; 3];

#[derive(Clone, Debug, PartialEq, Eq)]
pub struct Wrap {
    pub key: Key,
    pub block: usize,
    /// Start and end of each row, one behind the other.
    pub rows: Vec<usize>,
}

impl Wrap {
    pub fn count(&self) -> usize {
        self.rows.len() / 2
    }

    /// The wrap that a head tells of, if it can be one.
    fn of(head: &[usize], array: &[usize]) -> Option<Wrap> {
        let &[version, width, mode, count, block] = head else {
            return None;
        };
        if count > MOST_ROWS || block >= MOST_KEPT {
            return None;
        }
        Some(Wrap {
            key: [version, width, mode],
            block,
            rows: array[block_start(block)..][..2 * count].to_vec(),
        })
    }
}

/// Where a block begins in the array.
pub fn block_start(block: usize) -> usize {
    HEADS + BLOCK * block
}

/// The wraps that are kept, the last used first.
#[derive(Clone, Debug, Default)]
pub struct Wraps(pub VecDeque<Wrap>);

impl Wraps {
    /// What an array of any contents holds: all of its wraps up to a head of no rows or,
    /// where one of them cannot be or their blocks are not the first, none.
    pub fn of(array: &[usize]) -> Wraps {
        let heads = array[..HEADS].chunks(HEAD).take_while(|head| head[3] > 0);
        let wraps: Option<VecDeque<Wrap>> = heads.map(|head| Wrap::of(head, array)).collect();
        let wraps = wraps.unwrap_or_default();
        let blocks: BTreeSet<usize> = wraps.iter().map(|wrap| wrap.block).collect();
        if blocks.into_iter().eq(0..wraps.len()) {
            Wraps(wraps)
        } else {
            Wraps::default()
        }
    }

    pub fn keys(&self) -> Vec<Key> {
        self.0.iter().map(|wrap| wrap.key).collect()
    }

    pub fn find(&self, key: Key) -> Option<&Wrap> {
        self.0.iter().find(|wrap| wrap.key == key)
    }

    /// A free block, or that of the wrap that gives way.
    pub fn room(&self) -> usize {
        let taken = |block: &usize| self.0.iter().any(|wrap| wrap.block == *block);
        let free = (0..MOST_KEPT).find(|block| !taken(block));
        free.unwrap_or_else(|| self.0[MOST_KEPT - 1].block)
    }

    /// A wrap is used: it is the only one of its key, and the first.
    pub fn use_wrap(&mut self, wrap: Wrap) {
        self.0.retain(|kept| kept.key != wrap.key);
        self.0.push_front(wrap);
        self.0.truncate(MOST_KEPT);
    }

    /// Writes all heads, and the rows of each wrap to its block.
    pub fn write(&self, array: &mut [usize]) {
        array[..HEADS].fill(0);
        for (number, wrap) in self.0.iter().enumerate() {
            let [version, width, mode] = wrap.key;
            let head = [version, width, mode, wrap.count(), wrap.block];
            array[HEAD * number..][..HEAD].copy_from_slice(&head);
            array[block_start(wrap.block)..][..wrap.rows.len()].copy_from_slice(&wrap.rows);
        }
    }
}

/// What a call is to the kept wraps.
#[derive(Clone, Copy, Debug, PartialEq, Eq)]
pub enum Use {
    /// None: the call is refused.
    Refused,
    /// None: Unwrapped height.
    Unwrapped,
    /// The wrap has too many rows.
    NotKept,
    /// The wrap was kept before.
    Again,
    /// The wrap is kept from now on.
    New,
    /// The same, and another gives way.
    InStead,
}

/// A line and kept wraps.
pub struct Model {
    pub line: Line,
    pub array: Vec<usize>,
}

impl Model {
    /// None kept.
    pub fn new(line: &[u8]) -> Model {
        Model {
            line: Line::new(line),
            array: vec![0; NUMBERS],
        }
    }

    /// Begins a sequence anew.
    pub fn begin(&mut self, line: &[u8]) {
        self.set_line(line);
        self.array.fill(0);
    }

    pub fn set_line(&mut self, line: &[u8]) {
        if self.line.bytes() != line {
            self.line = Line::new(line);
        }
    }

    /// The same call without kept wraps, with the sizes that are lent.
    pub fn case(&mut self, ask: &Ask) -> Case {
        let mut sizes = self.need(ask);
        for (size, more) in sizes.iter_mut().zip(ask.lent) {
            *size = size.saturating_add_signed(more);
        }
        Case::new(self.line.bytes(), ask.call(), sizes)
    }

    /// What a call needs: bytes, spans, numbers, no changes.
    fn need(&mut self, ask: &Ask) -> Sizes {
        let conv = 8 * self.line.bytes().len();
        let spans = self.line.reading().records.len();
        let rows = match Wraps::of(&self.array).find(ask.key()) {
            _ if !ask.rows || !is_allowed(ask) => 0,
            Some(wrap) => wrap.rows.len(),
            None => self.line.rows(ask.width, ask.mode).len(),
        };
        [conv, spans, rows, 0]
    }

    /// Answers a call, and changes the kept wraps.
    pub fn answer(&mut self, ask: &Ask, sizes: Sizes) -> (Answer, Use) {
        self.accepted(ask, sizes).unwrap_or_else(|number| {
            let refusal = Answer {
                number,
                ..Answer::default()
            };
            (refusal, Use::Refused)
        })
    }

    fn accepted(&mut self, ask: &Ask, sizes: Sizes) -> Result<(Answer, Use), usize> {
        self.questions(ask, sizes)?;
        if ask.is_unwrapped_height() {
            return Ok((self.with_rows(1, Vec::new()), Use::Unwrapped));
        }
        let mut wraps = Wraps::of(&self.array);
        let (wrap, its_use) = self.wrap(ask, &wraps);
        if ask.rows && wrap.rows.len() > sizes[2] {
            return Err(6);
        }
        let listed = match ask.rows {
            true => wrap.rows.clone(),
            false => Vec::new(),
        };
        let answer = self.with_rows(wrap.count(), listed);
        if its_use != Use::NotKept {
            wraps.use_wrap(wrap);
            wraps.write(&mut self.array);
        }
        Ok((answer, its_use))
    }

    /// The questions that stand before wrapping.
    fn questions(&self, ask: &Ask, [conv, spans, ..]: Sizes) -> Result<(), usize> {
        let len = self.line.bytes().len();
        if len > LONGEST_LINE {
            return Err(1);
        }
        if conv < 8 * len {
            return Err(2);
        }
        if spans < self.line.reading().records.len() {
            return Err(4);
        }
        is_allowed(ask).then_some(()).ok_or(5)
    }

    /// The wrap of a key as it is kept, or else anew.
    fn wrap(&mut self, ask: &Ask, wraps: &Wraps) -> (Wrap, Use) {
        if let Some(kept) = wraps.find(ask.key()) {
            return (kept.clone(), Use::Again);
        }
        let wrap = Wrap {
            key: ask.key(),
            block: wraps.room(),
            rows: self.line.rows(ask.width, ask.mode).to_vec(),
        };
        let its_use = match wraps.0.len() {
            _ if wrap.count() > MOST_ROWS => Use::NotKept,
            MOST_KEPT => Use::InStead,
            _ => Use::New,
        };
        (wrap, its_use)
    }

    /// The answer of an accepted call.
    fn with_rows(&self, count: usize, rows: Vec<usize>) -> Answer {
        Answer {
            number: 0,
            count,
            pairs: rows,
            ..self.line.reading().clone()
        }
    }
}

fn is_allowed(ask: &Ask) -> bool {
    ask.mode <= LARGEST_MODE && ask.width <= LARGEST_WIDTH
}

/// The model's answers to the calls of a sequence, and the kept wraps at its end.
pub fn answers(sequence: &Sequence) -> (Vec<Answer>, Vec<usize>) {
    let mut model = Model::new(&sequence.line);
    let mut answers = Vec::new();
    for step in &sequence.steps {
        match step {
            Step::Call(ask) => {
                let sizes = model.case(ask).sizes();
                answers.push(model.answer(ask, sizes).0);
            }
            Step::Line(line) => model.set_line(line),
            _ => step.write(&mut model.array),
        }
    }
    (answers, model.array)
}
