//! The alphabets of short lines: telling bytes, and bytes that belong together.

/// The symbols of a line.
pub type Alphabet = &'static [&'static [u8]];

#[rustfmt::skip]
pub const STRUCK_BYTES: Alphabet = &[
    b"a", b"_", b"\x08", b"\xCC", b"\x81", b"\xE6", b"\xBC", b"\xA2", b"\xFF", b"\x1B", b"m",
];

#[rustfmt::skip]
pub const STRUCK: Alphabet = &[
    b"a", b"b", b"_", b"\x08", b"\xCC\x81", b"\xF0\x9F\x87\xA6", b"\r", b"\n",
];

#[rustfmt::skip]
pub const TELLING_BYTES: Alphabet = &[
    b"\x1B", b"[", b"1", b"3", b";", b"m", b"K", b"]", b"8", b"\x07", b"\\", b"\xCC\x81", b"\t",
    b"\r", b"\n", b"\xFF",
];

#[rustfmt::skip]
pub const PARAMETERS: Alphabet = &[
    b"\x1B[", b"\x1B", b"1", b"38", b"5", b"2", b";", b"m", b"K", b"H", b"\xCC\x81", b"a",
];

#[rustfmt::skip]
pub const LINKS: Alphabet = &[
    b"\x1B]8;", b";", b"u", b"\x07", b"\x1B\\", b"\x1B", b"\\", b"\xCC\x81", b"\t", b"\xFF",
];

#[rustfmt::skip]
pub const SEARCHED: Alphabet = &[
    b"a", b"\x1B[m", b"\x1B", b"\xCC\x81", b"\r", b"\n", b"\xFF",
];

/// What a search leaves out, and what is like it.
pub const LEFT_OUT: Alphabet = &[b"\x1B[", b"\x1B", b"[", b"1", b"?", b"m", b"a", b"\n"];

pub const WORDS: Alphabet = &[
    b"a",
    b" ",
    b"-",
    b"\t",
    b"\xE6\xBC\xA2",
    b"\xCC\x81",
    b"\xFF",
    b"\x1B",
];

#[rustfmt::skip]
pub const WIDTHS_OF_SPANS: Alphabet = &[
    b"ab", b" ", b"\xE3\x80\x80", b"\xE2\x80\x8B", b"\x1B[1m", b"\xF3\xA0\x84\x80", b"\r\n", b"\x08",
];

#[rustfmt::skip]
pub const DRAWN: Alphabet = &[
    b"q", b"\xE6\xBC\xA2", b"\xCC\x81", b"\t", b"\xFF", b"\x1B[1m", b"\x1B[41m", b"\x1B[K",
    b"\x1B(0", b"\x1B(B", b"\x1B]8;;u\x07", b"\n",
];

/// What a row may end with, and what goes on behind its end.
#[rustfmt::skip]
pub const PAGED: Alphabet = &[
    b"q", b" ", b"-", b"\t", b"\xE6\xBC\xA2", b"\xCC\x81", b"\xF3\xA0\x84\x80", b"\xFF", b"\x1B[1m",
    b"\x1B]8;;u\x07", b"\x1B(0",
];

/// What the attributes of a drawing come from, and what they are seen on.
#[rustfmt::skip]
pub const ATTRIBUTES: Alphabet = &[
    b"a", b"q\x01", b"\xFF", b"\x1B[m", b"\x1B[1;3;73;31m", b"\x1B[22;4;74;48;5;9m", b"\x1B[7;58;2;1;2;3m",
    b"\x1B]8;;u\x07", b"\x1B]8;;\x1B\\", b"\x1B[K", b"\x1B(0", b"\x1B(B",
];

/// Clusters that are drawn wider than they are wrapped, or wider than two columns.
#[rustfmt::skip]
pub const SHIFTED: Alphabet = &[
    b"a", b" ", b"\t", b"\xCC\x81", b"\xF3\xA0\x84\x80", b"\xE6\xBC\xA2", b"\xE1\x84\x80",
    b"\xF0\x9F\x87\xA6",
];

/// Each class of scalars, one of each width where there are several, and 08.
#[rustfmt::skip]
pub const CLASSES: Alphabet = &[
    b"a", b"\x08", b"\xCC\x81", b"\xE2\x80\x8D", b"\xE1\x84\x80", b"\xE1\x85\xA1",
    b"\xE1\x86\xA8", b"\xEA\xB0\x80", b"\xEA\xB0\x81", b"\xF0\x9F\x87\xA6", b"\xE2\x80\x8B",
    b"\xF0\x9F\x91\xA9",
];

/// What GB11 asks for, and what comes between.
#[rustfmt::skip]
pub const JOINED: Alphabet = &[
    b"\xF0\x9F\x91\xA9", b"\xE2\x80\x8D", b"\xCC\x81", b"a", b"\x08", b"\xFF",
];
