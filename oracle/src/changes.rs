//! The change list in bytes: document 01, "Drawing", and document 02, U7.

use std::ops::Range;
use streampager::probe::Reading;
use termwiz::cell::CellAttributes;
use termwiz::color::ColorAttribute;
use termwiz::surface::{change::Change, Position};

pub fn encode(changes: &[Change], conv: &[u8], reading: &Reading) -> Vec<u8> {
    let mut out = Vec::new();
    for change in changes {
        match change {
            Change::Text(text) => push(&mut out, 1, text.as_bytes()),
            Change::AllAttributes(attrs) => push(&mut out, 2, &attributes(attrs, conv, reading)),
            Change::ClearToEndOfLine(end) => push(&mut out, 3, &colour(*end)),
            Change::CursorPosition {
                x: Position::Relative(1),
                y: Position::Relative(0),
            } => push(&mut out, 4, &[]),
            other => panic!("document 01 has no form for {other:?}"),
        }
    }
    out
}

/// A change: length of its body, kind, body.
fn push(out: &mut Vec<u8>, kind: u16, body: &[u8]) {
    out.extend_from_slice(&word(body.len()));
    out.extend_from_slice(&kind.to_le_bytes());
    out.extend_from_slice(body);
}

fn word(value: usize) -> [u8; 4] {
    u32::try_from(value).expect("a 4-byte value").to_le_bytes()
}

fn attributes(attrs: &CellAttributes, conv: &[u8], reading: &Reading) -> Vec<u8> {
    let flags = u8::from(attrs.italic())
        | u8::from(attrs.reverse()) << 1
        | u8::from(attrs.invisible()) << 2
        | u8::from(attrs.strikethrough()) << 3
        | u8::from(attrs.overline()) << 4;
    let mut body = vec![
        attrs.intensity() as u8,
        attrs.underline() as u8,
        attrs.blink() as u8,
        flags,
    ];
    body.extend(colour(attrs.foreground()));
    body.extend(colour(attrs.background()));
    body.extend(colour(attrs.underline_color()));
    let (place, len) = uri(attrs, conv, reading);
    body.extend(word(place));
    body.extend(word(len));
    body.push(attrs.vertical_align() as u8);
    body
}

/// Byte place and length of the URI in the converted line; 0, 0 for none.
fn uri(attrs: &CellAttributes, conv: &[u8], reading: &Reading) -> (usize, usize) {
    let Some(link) = attrs.hyperlink() else {
        return (0, 0);
    };
    let (place, len) = (reading.uri_place(link), link.uri().len());
    assert_eq!(&conv[place..place + len], link.uri());
    (place, len)
}

fn colour(colour: ColorAttribute) -> [u8; 4] {
    match colour {
        ColorAttribute::Default => [0, 0, 0, 0],
        ColorAttribute::PaletteIndex(index) => [1, index, 0, 0],
        ColorAttribute::TrueColor(red, green, blue) => [2, red, green, blue],
    }
}

/// The changes of a list: the kind of each, and where its body stands. None where the
/// list is not a whole number of changes.
pub fn places(list: &[u8]) -> Option<Vec<(u16, Range<usize>)>> {
    let mut changes = Vec::new();
    let mut end = 0;
    while end < list.len() {
        let [a, b, c, d, e, f] = *list[end..].first_chunk::<6>()?;
        let start = end + 6;
        end = start + u32::from_le_bytes([a, b, c, d]) as usize;
        list.get(start..end)?;
        changes.push((u16::from_le_bytes([e, f]), start..end));
    }
    Some(changes)
}

/// The changes of a list: kind and body of each.
pub fn decode(list: &[u8]) -> Vec<(u16, &[u8])> {
    let changes = places(list).expect("a whole number of changes");
    let changes = changes.into_iter();
    changes.map(|(kind, body)| (kind, &list[body])).collect()
}
