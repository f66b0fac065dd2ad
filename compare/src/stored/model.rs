//! A model of the stored form, by document 02's words. A list is taken apart into changes
//! whose fields have names, and they are put together again in the other form.

use crate::writing::Answer;

/// The longest body that a stored change has.
pub const LONGEST_BODY: usize = 65_535;

/// A form of change lists: how many bytes a body's length has, and which sizes the body of
/// attributes may have.
#[derive(Clone, Copy)]
struct Form {
    length: usize,
    attributes: &'static [usize],
}

/// What is stored from: document 01's changes, with the alignment or without it.
const OLD: Form = Form {
    length: 4,
    attributes: &[24, 25],
};

const STORED: Form = Form {
    length: 2,
    attributes: &[25],
};

#[derive(Clone, Copy)]
enum Colour {
    Default,
    Index(u8),
    TrueColor(u8, u8, u8),
}

impl Colour {
    /// Bytes that are not used are 0.
    fn of(bytes: &[u8]) -> Option<Colour> {
        let colour = match *bytes {
            [0, ..] => Colour::Default,
            [1, index, ..] => Colour::Index(index),
            [2, red, green, blue] => Colour::TrueColor(red, green, blue),
            _ => return None,
        };
        (colour.bytes() == bytes).then_some(colour)
    }

    fn bytes(self) -> [u8; 4] {
        match self {
            Colour::Default => [0; 4],
            Colour::Index(index) => [1, index, 0, 0],
            Colour::TrueColor(red, green, blue) => [2, red, green, blue],
        }
    }
}

struct Attributes {
    intensity: u8,
    underline: u8,
    blink: u8,
    flags: u8,
    /// Foreground, background, underline.
    colours: [Colour; 3],
    /// Byte place and length, any.
    uri: [u8; 8],
    alignment: u8,
}

impl Attributes {
    /// A body of 24 bytes has no alignment: that is the baseline.
    fn of(body: &[u8]) -> Option<Attributes> {
        let (fields, alignment) = match *body {
            [ref fields @ .., alignment] if body.len() == 25 => (fields, alignment),
            _ => (body, 0),
        };
        let (styles, fields) = fields.split_first_chunk::<4>()?;
        let (colours, uri) = fields.split_first_chunk::<12>()?;
        let mut colours = colours.chunks(4).map(Colour::of);
        let mut colour = || colours.next().flatten();
        let attributes = Attributes {
            intensity: at_most(2, styles[0])?,
            underline: at_most(2, styles[1])?,
            blink: at_most(2, styles[2])?,
            flags: at_most(31, styles[3])?,
            colours: [colour()?, colour()?, colour()?],
            uri: uri.try_into().ok()?,
            alignment: at_most(2, alignment)?,
        };
        Some(attributes)
    }

    fn bytes(&self) -> Vec<u8> {
        let mut body = vec![self.intensity, self.underline, self.blink, self.flags];
        body.extend(self.colours.iter().flat_map(|colour| colour.bytes()));
        body.extend(self.uri);
        body.push(self.alignment);
        body
    }
}

fn at_most(largest: u8, value: u8) -> Option<u8> {
    (value <= largest).then_some(value)
}

enum Change<'l> {
    Text(&'l str),
    Attributes(Attributes),
    Clear(Colour),
    CursorRight,
}

impl Change<'_> {
    fn of<'l>(kind: u16, body: &'l [u8], form: Form) -> Option<Change<'l>> {
        match kind {
            1 => std::str::from_utf8(body).ok().map(Change::Text),
            2 if form.attributes.contains(&body.len()) => {
                Attributes::of(body).map(Change::Attributes)
            }
            3 => Colour::of(body).map(Change::Clear),
            4 if body.is_empty() => Some(Change::CursorRight),
            _ => None,
        }
    }

    /// Kind and body, attributes with their alignment.
    fn parts(&self) -> (u16, Vec<u8>) {
        match self {
            Change::Text(text) => (1, text.as_bytes().to_vec()),
            Change::Attributes(attributes) => (2, attributes.bytes()),
            Change::Clear(colour) => (3, colour.bytes().to_vec()),
            Change::CursorRight => (4, Vec::new()),
        }
    }
}

/// The changes of a list; none where it is malformed.
fn changes(mut list: &[u8], form: Form) -> Option<Vec<Change<'_>>> {
    let mut changes = Vec::new();
    while !list.is_empty() {
        let (length, rest) = list.split_at_checked(form.length)?;
        let (kind, rest) = rest.split_first_chunk()?;
        let digits = length.iter().rev();
        let length = digits.fold(0, |value, &byte| 256 * value + usize::from(byte));
        let (body, rest) = rest.split_at_checked(length)?;
        changes.push(Change::of(u16::from_le_bytes(*kind), body, form)?);
        list = rest;
    }
    Some(changes)
}

/// The list in a form, cut in no length.
fn written(changes: &[Change], form: Form) -> Vec<u8> {
    let mut list = Vec::new();
    for (kind, body) in changes.iter().map(Change::parts) {
        list.extend(&body.len().to_le_bytes()[..form.length]);
        list.extend(kind.to_le_bytes());
        list.extend(body);
    }
    list
}

fn fits(bytes: Vec<u8>, size: usize) -> Result<Vec<u8>, usize> {
    if bytes.len() <= size {
        Ok(bytes)
    } else {
        Err(9)
    }
}

/// A change list in the stored form, where `size` bytes are lent for it.
pub fn store(list: &[u8], size: usize) -> Answer {
    Answer::of((|| {
        let changes = changes(list, OLD).ok_or(10_usize)?;
        let longest = changes.iter().map(|change| change.parts().1.len()).max();
        if longest > Some(LONGEST_BODY) {
            return Err(12);
        }
        fits(written(&changes, STORED), size)
    })())
}

/// A stored list as a change list again.
pub fn restore(stored: &[u8], size: usize) -> Answer {
    Answer::of((|| {
        let changes = changes(stored, STORED).ok_or(10_usize)?;
        fits(written(&changes, OLD), size)
    })())
}

/// The list, if it is well formed, with an alignment in all attributes.
pub fn lengthened(list: &[u8]) -> Option<Vec<u8>> {
    Some(written(&changes(list, OLD)?, OLD))
}
