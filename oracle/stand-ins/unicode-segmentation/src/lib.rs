//! Stands in for unicode-segmentation: document 01, "Text profile", "Clusters", and GB11
//! of document 02's U2.

use profile::{class, joins, Class, Ending};

pub trait UnicodeSegmentation {
    /// The clusters of a text.
    fn graphemes(&self, extended: bool) -> Graphemes<'_>;

    /// The clusters of a text, each with its byte place in the text.
    fn grapheme_indices(&self, extended: bool) -> GraphemeIndices<'_>;
}

impl UnicodeSegmentation for str {
    fn graphemes(&self, _extended: bool) -> Graphemes<'_> {
        Graphemes { rest: self }
    }

    /// Notes the text for the probe: the source reads each valid run with this.
    fn grapheme_indices(&self, extended: bool) -> GraphemeIndices<'_> {
        trace::run(self.as_bytes());
        GraphemeIndices {
            place: 0,
            graphemes: self.graphemes(extended),
        }
    }
}

pub struct Graphemes<'t> {
    rest: &'t str,
}

impl<'t> Iterator for Graphemes<'t> {
    type Item = &'t str;

    fn next(&mut self) -> Option<&'t str> {
        if self.rest.is_empty() {
            return None;
        }
        let (cluster, rest) = self.rest.split_at(first_end(self.rest));
        self.rest = rest;
        Some(cluster)
    }
}

pub struct GraphemeIndices<'t> {
    place: usize,
    graphemes: Graphemes<'t>,
}

impl<'t> Iterator for GraphemeIndices<'t> {
    type Item = (usize, &'t str);

    fn next(&mut self) -> Option<(usize, &'t str)> {
        let cluster = self.graphemes.next()?;
        let place = self.place;
        self.place += cluster.len();
        Some((place, cluster))
    }
}

/// Where the first cluster of a text ends.
fn first_end(text: &str) -> usize {
    let mut scalars = text.char_indices().map(|(place, c)| (place, class(c)));
    let Some((_, mut before)) = scalars.next() else {
        return 0;
    };
    let mut ending = Ending {
        odd: before == Class::Ri,
        joiner: false,
    };
    let mut pictograph = before == Class::ExtPict;
    for (place, after) in scalars {
        if !joins(before, ending, after) {
            return place;
        }
        ending.odd = after == Class::Ri && !ending.odd;
        ending.joiner = after == Class::Zwj && pictograph;
        pictograph = after == Class::ExtPict || after == Class::Extend && pictograph;
        before = after;
    }
    text.len()
}

/// Where the last cluster of a text begins.
fn last_start(text: &str) -> usize {
    let mut scalars = text
        .char_indices()
        .rev()
        .map(|(place, c)| (place, class(c)));
    let Some((mut place, mut after)) = scalars.next() else {
        return 0;
    };
    for (before_place, before) in scalars {
        let front = &text[..place];
        let ending = Ending {
            odd: before == Class::Ri && indicators_at_end(front) % 2 == 1,
            joiner: before == Class::Zwj && after == Class::ExtPict && ends_in_joiner(front),
        };
        if !joins(before, ending, after) {
            return place;
        }
        (place, after) = (before_place, before);
    }
    0
}

fn indicators_at_end(text: &str) -> usize {
    let scalars = text.chars().rev();
    scalars.take_while(|&c| class(c) == Class::Ri).count()
}

/// Whether ExtPict, any number of Extend, and ZWJ end a text.
fn ends_in_joiner(text: &str) -> bool {
    let mut classes = text.chars().rev().map(class);
    classes.next() == Some(Class::Zwj)
        && classes.find(|&class| class != Class::Extend) == Some(Class::ExtPict)
}

/// The part of the cursor that the source uses: the boundary before the end of
/// a text that is given whole.
pub struct GraphemeCursor {
    offset: usize,
}

#[derive(Debug)]
pub struct GraphemeIncomplete;

impl GraphemeCursor {
    pub fn new(offset: usize, _len: usize, _extended: bool) -> GraphemeCursor {
        GraphemeCursor { offset }
    }

    pub fn prev_boundary(
        &mut self,
        chunk: &str,
        _chunk_start: usize,
    ) -> Result<Option<usize>, GraphemeIncomplete> {
        if self.offset == 0 {
            return Ok(None);
        }
        self.offset = last_start(&chunk[..self.offset]);
        Ok(Some(self.offset))
    }
}
