//! Changes in bytes, well formed or not.

use super::model::BODY;

/// A change with any kind and body.
pub fn change(kind: u16, body: &[u8]) -> Vec<u8> {
    with_length(body.len() as u32, kind, body)
}

/// The same with any length in its head.
pub fn with_length(len: u32, kind: u16, body: &[u8]) -> Vec<u8> {
    [&len.to_le_bytes()[..], &kind.to_le_bytes(), body].concat()
}

pub fn text(text: impl AsRef<[u8]>) -> Vec<u8> {
    change(1, text.as_ref())
}

/// Default attributes but for some bytes.
pub fn attributes(bytes: &[(usize, u8)]) -> Vec<u8> {
    let mut body = [0; BODY];
    for &(place, byte) in bytes {
        body[place] = byte;
    }
    change(2, &body)
}

/// A clear whose colour is an index.
pub fn clear(index: u8) -> Vec<u8> {
    change(3, &[1, index, 0, 0])
}

pub fn cursor_right() -> Vec<u8> {
    change(4, &[])
}
