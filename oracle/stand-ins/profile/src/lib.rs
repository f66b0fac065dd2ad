//! Document 01, "Text profile", with document 02's U2: classes, widths, whitespace,
//! and the cluster rules of UAX #29 on these classes.

/// A range of scalars, both ends counted in.
pub type Range = (u32, u32);

/// A scalar's class.
#[derive(Clone, Copy, Debug, PartialEq, Eq)]
pub enum Class {
    Cr,
    Lf,
    Control,
    Extend,
    Zwj,
    L,
    V,
    T,
    Lv,
    Lvt,
    Ri,
    ExtPict,
    Other,
}

/// Control; CR and LF are within the first range and have classes of their own.
pub const CONTROL: &[Range] = &[
    (0x0000, 0x001F),
    (0x007F, 0x009F),
    (0x200B, 0x200B),
    (0x200E, 0x200F),
    (0x2028, 0x202E),
    (0x2060, 0x206F),
    (0xFEFF, 0xFEFF),
];

pub const EXTEND: &[Range] = &[
    (0x0300, 0x036F),
    (0x0483, 0x0489),
    (0x1DC0, 0x1DFF),
    (0x200C, 0x200C),
    (0x20D0, 0x20F0),
    (0xFE00, 0xFE0F),
    (0xFE20, 0xFE2F),
    (0xE0100, 0xE01EF),
];

pub const ZWJ: Range = (0x200D, 0x200D);
pub const L: &[Range] = &[(0x1100, 0x115F), (0xA960, 0xA97C)];
pub const V: &[Range] = &[(0x1160, 0x11A7), (0xD7B0, 0xD7C6)];
pub const T: &[Range] = &[(0x11A8, 0x11FF), (0xD7CB, 0xD7FB)];
pub const SYLLABLE: Range = (0xAC00, 0xD7A3);
pub const RI: Range = (0x1F1E6, 0x1F1FF);
pub const EXT_PICT: &[Range] = &[(0x1F300, 0x1F64F), (0x1F900, 0x1F9FF)];

/// Scalars of width 2.
pub const WIDE: &[Range] = &[
    (0x1100, 0x115F),
    (0x2E80, 0x303E),
    (0x3041, 0xA4CF),
    (0xA960, 0xA97C),
    (0xAC00, 0xD7A3),
    (0xF900, 0xFAFF),
    (0xFE30, 0xFE6F),
    (0xFF01, 0xFF60),
    (0xFFE0, 0xFFE6),
    (0x1F300, 0x1F64F),
    (0x1F900, 0x1F9FF),
    (0x20000, 0x2FFFD),
    (0x30000, 0x3FFFD),
];

pub const WHITESPACE: &[Range] = &[
    (0x0009, 0x000D),
    (0x0020, 0x0020),
    (0x0085, 0x0085),
    (0x00A0, 0x00A0),
    (0x1680, 0x1680),
    (0x2000, 0x200A),
    (0x2028, 0x2029),
    (0x202F, 0x202F),
    (0x205F, 0x205F),
    (0x3000, 0x3000),
];

pub fn within(range: Range, scalar: u32) -> bool {
    range.0 <= scalar && scalar <= range.1
}

pub fn in_any(ranges: &[Range], scalar: u32) -> bool {
    ranges.iter().any(|&range| within(range, scalar))
}

pub fn class(c: char) -> Class {
    match c {
        ' '..='~' => Class::Other,
        '\r' => Class::Cr,
        '\n' => Class::Lf,
        _ => class_by_table(c as u32),
    }
}

fn class_by_table(scalar: u32) -> Class {
    if in_any(CONTROL, scalar) {
        Class::Control
    } else if in_any(EXTEND, scalar) {
        Class::Extend
    } else if within(ZWJ, scalar) {
        Class::Zwj
    } else if in_any(L, scalar) {
        Class::L
    } else if in_any(V, scalar) {
        Class::V
    } else if in_any(T, scalar) {
        Class::T
    } else if within(SYLLABLE, scalar) {
        if (scalar - SYLLABLE.0).is_multiple_of(28) {
            Class::Lv
        } else {
            Class::Lvt
        }
    } else if within(RI, scalar) {
        Class::Ri
    } else if in_any(EXT_PICT, scalar) {
        Class::ExtPict
    } else {
        Class::Other
    }
}

/// A scalar's width.
pub fn width(c: char) -> usize {
    if matches!(c, ' '..='~') {
        return 1;
    }
    match class(c) {
        Class::Cr | Class::Lf | Class::Control | Class::Extend | Class::Zwj => 0,
        Class::V | Class::T => 0,
        _ if in_any(WIDE, c as u32) => 2,
        _ => 1,
    }
}

/// What the rules ask of a text besides its last scalar's class.
#[derive(Clone, Copy, Debug, Default)]
pub struct Ending {
    /// An odd number of RI ends the text.
    pub odd: bool,
    /// ExtPict, any number of Extend, and ZWJ end the text.
    pub joiner: bool,
}

/// Whether there is no boundary between a text that ends in class `before` and a scalar of
/// class `after`.
pub fn joins(before: Class, ending: Ending, after: Class) -> bool {
    use Class::*;
    match (before, after) {
        (Cr, Lf) => true,                // GB3
        (Control | Cr | Lf, _) => false, // GB4
        (_, Control | Cr | Lf) => false, // GB5
        (L, L | V | Lv | Lvt) => true,   // GB6
        (Lv | V, V | T) => true,         // GB7
        (Lvt | T, T) => true,            // GB8
        (_, Extend | Zwj) => true,       // GB9
        (Zwj, ExtPict) => ending.joiner, // GB11
        (Ri, Ri) => ending.odd,          // GB12, GB13
        _ => false,                      // GB999
    }
}
