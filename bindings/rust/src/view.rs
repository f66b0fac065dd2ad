//! What a drawing is for.

use crate::raw;
use crate::span::Match;

/// Who is sent a drawing.
#[derive(Clone, Copy, Debug, Default, PartialEq, Eq, Hash)]
pub enum Reader {
    /// The bench, which sees all of it.
    #[default]
    Bench = raw::BENCH as isize,
    /// The crew, to whom no link is named. The change list is theirs; the converted line and
    /// its spans, which tell of links, are not to be handed on to them.
    Crew = raw::CREW as isize,
}

impl Reader {
    /// The reader's number.
    ///
    /// ```
    /// assert_eq!(console_lines::Reader::Crew.number(), 1);
    /// ```
    pub const fn number(self) -> usize {
        self as usize
    }
}

/// Who a drawing is for, and the matches that are marked in it; by default it is for the bench
/// and has no matches.
///
/// ```
/// use console_lines::{draw_window, Reader, View};
///
/// let view = View {
///     reader: Reader::Crew,
///     matches: &[[0, 3], [6, 9]],
///     current: Some(1),
/// };
/// let drawn = draw_window(b"set 7 set 8", &view, 0..80)?;
/// assert!(drawn.list.len() > draw_window(b"set 7 set 8", &View::default(), 0..80)?.list.len());
/// # Ok::<(), console_lines::Refusal>(())
/// ```
#[derive(Clone, Copy, Debug, Default, PartialEq, Eq)]
pub struct View<'a> {
    /// Who is sent it.
    pub reader: Reader,
    /// The matches of a search.
    pub matches: &'a [Match],
    /// The number, counted from 0, of the match that is drawn as the current one. One that is
    /// none is as no number.
    pub current: Option<usize>,
}

impl View<'_> {
    pub(crate) fn current_number(&self) -> usize {
        self.current.unwrap_or(raw::NO_MATCH)
    }
}
