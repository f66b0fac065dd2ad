//! Memory lent to the library, with guard zones before and behind it.

use std::fmt;

/// Items in a guard zone.
const GUARD: usize = 64;
/// Items that are there from the start, so that writing far outside is seen.
const SPARE: usize = 16_384;

/// A place in lent memory, or beside it.
#[derive(Clone, Copy, Debug)]
pub enum Place {
    Before,
    First,
    Last,
    Behind,
}

impl Place {
    pub const ALL: [Place; 4] = [Place::Before, Place::First, Place::Last, Place::Behind];
}

impl fmt::Display for Place {
    fn fmt(&self, f: &mut fmt::Formatter<'_>) -> fmt::Result {
        f.write_str(match self {
            Place::Before => "before it",
            Place::First => "first item",
            Place::Last => "last item",
            Place::Behind => "behind it",
        })
    }
}

/// All of the memory holds the pattern, which is not zero, before each call; so
/// every zero found afterwards was written.
pub struct Lent<T> {
    memory: Vec<T>,
    len: usize,
    pattern: T,
}

impl<T: Copy + PartialEq + Default> Lent<T> {
    pub fn new(pattern: T) -> Lent<T> {
        assert!(pattern != T::default());
        Lent {
            memory: vec![pattern; GUARD + SPARE + GUARD],
            len: 0,
            pattern,
        }
    }

    pub fn lend(&mut self, len: usize) -> &mut [T] {
        let whole = GUARD + len + GUARD;
        if self.memory.len() < whole {
            self.memory.resize(whole, self.pattern);
        }
        self.len = len;
        &mut self.memory[GUARD..GUARD + len]
    }

    pub fn lend_copy(&mut self, items: &[T]) -> &[T] {
        let lent = self.lend(items.len());
        lent.copy_from_slice(items);
        lent
    }

    pub fn lent(&self) -> &[T] {
        &self.memory[GUARD..GUARD + self.len]
    }

    /// The same once more, as it is.
    pub fn lent_again(&mut self) -> &mut [T] {
        &mut self.memory[GUARD..GUARD + self.len]
    }

    /// Fills what was lent with `items` and zeros after them.
    pub fn leave(&mut self, items: impl Iterator<Item = T>) {
        let items = items.chain(std::iter::repeat(T::default()));
        let lent = &mut self.memory[GUARD..GUARD + self.len];
        lent.iter_mut()
            .zip(items)
            .for_each(|(place, item)| *place = item);
    }

    /// Whether what was lent holds `items` and zeros after them.
    pub fn holds(&self, items: impl ExactSizeIterator<Item = T>) -> bool {
        if items.len() > self.len {
            return false;
        }
        let (written, rest) = self.lent().split_at(items.len());
        let zero = T::default();
        written.iter().copied().eq(items) && rest.iter().all(|item| *item == zero)
    }

    /// Whether the guard zones hold the pattern.
    pub fn guarded(&self) -> bool {
        let end = GUARD + self.len;
        self.is_pattern(0..GUARD) && self.is_pattern(end..end + GUARD)
    }

    /// Whether all of the memory holds the pattern, far places too.
    pub fn untouched(&self) -> bool {
        self.is_pattern(0..self.memory.len())
    }

    fn is_pattern(&self, places: std::ops::Range<usize>) -> bool {
        self.memory[places].iter().all(|item| *item == self.pattern)
    }

    /// Fills what was lent with the pattern again.
    pub fn take_back(&mut self) {
        let end = GUARD + self.len;
        self.memory[GUARD..end].fill(self.pattern);
    }

    /// Fills all of the memory with the pattern again.
    pub fn restore(&mut self) {
        self.memory.fill(self.pattern);
    }

    /// Changes an item; whether there is one at that place.
    pub fn damage(&mut self, place: Place) -> bool {
        let index = match place {
            Place::Before => GUARD - 1,
            Place::Behind => GUARD + self.len,
            _ if self.len == 0 => return false,
            Place::First => GUARD,
            Place::Last => GUARD + self.len - 1,
        };
        self.alter(index);
        true
    }

    /// Changes one of the items that were lent.
    pub fn damage_item(&mut self, number: usize) {
        self.alter(GUARD + number);
    }

    fn alter(&mut self, index: usize) {
        let item = &mut self.memory[index];
        *item = if *item == self.pattern {
            T::default()
        } else {
            self.pattern
        };
    }
}
