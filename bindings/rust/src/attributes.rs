//! Attributes of text, as change lists and screen rows have them.

/// The size of an attribute body, and of one without an alignment, as they were before.
pub(crate) const BODY: usize = 25;
const OLD_BODY: usize = 24;

/// How strong text is.
#[derive(Clone, Copy, Debug, Default, PartialEq, Eq, Hash)]
pub enum Intensity {
    /// Normal.
    #[default]
    Normal = 0,
    /// Bold.
    Bold = 1,
    /// Half.
    Half = 2,
}

/// The lines below text.
#[derive(Clone, Copy, Debug, Default, PartialEq, Eq, Hash)]
pub enum Underline {
    /// None.
    #[default]
    None = 0,
    /// One.
    Single = 1,
    /// Two.
    Double = 2,
}

/// How text blinks.
#[derive(Clone, Copy, Debug, Default, PartialEq, Eq, Hash)]
pub enum Blink {
    /// Not.
    #[default]
    None = 0,
    /// Slowly.
    Slow = 1,
    /// Rapidly.
    Rapid = 2,
}

/// Where text stands in its row.
#[derive(Clone, Copy, Debug, Default, PartialEq, Eq, Hash)]
pub enum VerticalAlign {
    /// On the baseline.
    #[default]
    BaseLine = 0,
    /// Raised.
    SuperScript = 1,
    /// Lowered.
    SubScript = 2,
}

/// A colour.
#[derive(Clone, Copy, Debug, Default, PartialEq, Eq, Hash)]
pub enum ColorAttribute {
    /// The screen's own.
    #[default]
    Default,
    /// One of the palette.
    PaletteIndex(u8),
    /// Red, green and blue.
    TrueColor(u8, u8, u8),
}

impl ColorAttribute {
    /// The colour of 4 bytes; those that it does not use are 0.
    pub(crate) fn from_bytes(bytes: [u8; 4]) -> Option<ColorAttribute> {
        match bytes {
            [0, 0, 0, 0] => Some(ColorAttribute::Default),
            [1, index, 0, 0] => Some(ColorAttribute::PaletteIndex(index)),
            [2, red, green, blue] => Some(ColorAttribute::TrueColor(red, green, blue)),
            _ => None,
        }
    }
}

/// Where the URI of a link stands in the converted line.
#[derive(Clone, Copy, Debug, PartialEq, Eq, Hash)]
pub struct Link {
    /// Its place.
    pub place: u32,
    /// How many bytes it has.
    pub len: u32,
}

impl Link {
    /// The URI's bytes; none where the converted line is another, and ends before them.
    ///
    /// ```
    /// use console_lines::{draw_window, Change, View};
    ///
    /// let drawn = draw_window(b"\x1B]8;;https://bench.example\x07set 7", &View::default(), 0..80)?;
    /// let link = drawn.changes().find_map(|change| match change {
    ///     Change::AllAttributes(attributes) => attributes.link,
    ///     _ => None,
    /// });
    /// let uri = link.unwrap().uri(&drawn.line.converted);
    /// assert_eq!(uri, Some(&b"https://bench.example"[..]));
    /// # Ok::<(), console_lines::Refusal>(())
    /// ```
    pub fn uri<'c>(&self, converted: &'c [u8]) -> Option<&'c [u8]> {
        let place = usize::try_from(self.place).ok()?;
        let len = usize::try_from(self.len).ok()?;
        converted.get(place..place.checked_add(len)?)
    }
}

/// How text is drawn.
#[derive(Clone, Copy, Debug, Default, PartialEq, Eq, Hash)]
pub struct CellAttributes {
    /// How strong it is.
    pub intensity: Intensity,
    /// The lines below it.
    pub underline: Underline,
    /// How it blinks.
    pub blink: Blink,
    /// Whether it is slanted.
    pub italic: bool,
    /// Whether foreground and background are exchanged.
    pub reverse: bool,
    /// Whether it is not shown.
    pub invisible: bool,
    /// Whether it is struck through.
    pub strikethrough: bool,
    /// Whether it has a line above it.
    pub overline: bool,
    /// Its colour.
    pub foreground: ColorAttribute,
    /// The colour behind it.
    pub background: ColorAttribute,
    /// The colour of its underline.
    pub underline_color: ColorAttribute,
    /// The link that it is part of; none for the crew.
    pub link: Option<Link>,
    /// Where it stands in its row.
    pub vertical_align: VerticalAlign,
}

impl CellAttributes {
    /// The attributes of a body of 25 bytes, or of an old one of 24, which has no alignment
    /// and stands on the baseline. None where a value is not one of the header's.
    pub(crate) fn from_body(body: &[u8]) -> Option<CellAttributes> {
        let align = match body.len() {
            BODY => body[OLD_BODY],
            OLD_BODY => 0,
            _ => return None,
        };
        let flags = Some(body[3]).filter(|flags| *flags < 32)?;
        let color = |place| ColorAttribute::from_bytes(four(body, place));
        Some(CellAttributes {
            intensity: one_of(
                [Intensity::Normal, Intensity::Bold, Intensity::Half],
                body[0],
            )?,
            underline: one_of(
                [Underline::None, Underline::Single, Underline::Double],
                body[1],
            )?,
            blink: one_of([Blink::None, Blink::Slow, Blink::Rapid], body[2])?,
            italic: flags & 1 != 0,
            reverse: flags & 2 != 0,
            invisible: flags & 4 != 0,
            strikethrough: flags & 8 != 0,
            overline: flags & 16 != 0,
            foreground: color(4)?,
            background: color(8)?,
            underline_color: color(12)?,
            link: link(four(body, 16), four(body, 20)),
            vertical_align: one_of(
                [
                    VerticalAlign::BaseLine,
                    VerticalAlign::SuperScript,
                    VerticalAlign::SubScript,
                ],
                align,
            )?,
        })
    }
}

fn one_of<T: Copy>(values: [T; 3], number: u8) -> Option<T> {
    values.get(usize::from(number)).copied()
}

/// The 4 bytes at a place of a body.
fn four(body: &[u8], place: usize) -> [u8; 4] {
    std::array::from_fn(|i| body[place + i])
}

/// No link is place 0 and length 0.
fn link(place: [u8; 4], len: [u8; 4]) -> Option<Link> {
    let link = Link {
        place: u32::from_le_bytes(place),
        len: u32::from_le_bytes(len),
    };
    (link != Link { place: 0, len: 0 }).then_some(link)
}

#[cfg(test)]
mod tests {
    use super::*;

    const PLAIN: [u8; BODY] = [0; BODY];

    fn with(place: usize, value: u8) -> Option<CellAttributes> {
        let mut body = PLAIN;
        body[place] = value;
        CellAttributes::from_body(&body)
    }

    #[test]
    fn each_field_is_decoded() {
        let body = [
            1, 2, 1, 31, 1, 4, 0, 0, 2, 7, 8, 9, 0, 0, 0, 0, 1, 2, 0, 0, 3, 0, 0, 0, 2,
        ];
        let attributes = CellAttributes {
            intensity: Intensity::Bold,
            underline: Underline::Double,
            blink: Blink::Slow,
            italic: true,
            reverse: true,
            invisible: true,
            strikethrough: true,
            overline: true,
            foreground: ColorAttribute::PaletteIndex(4),
            background: ColorAttribute::TrueColor(7, 8, 9),
            underline_color: ColorAttribute::Default,
            link: Some(Link { place: 513, len: 3 }),
            vertical_align: VerticalAlign::SubScript,
        };
        assert_eq!(CellAttributes::from_body(&body), Some(attributes));
        let old = CellAttributes::from_body(&body[..OLD_BODY]);
        let vertical_align = VerticalAlign::BaseLine;
        assert_eq!(
            old,
            Some(CellAttributes {
                vertical_align,
                ..attributes
            })
        );
    }

    #[test]
    fn each_flag_is_its_own() {
        let flags = [1, 2, 4, 8, 16].map(|flag| with(3, flag).unwrap());
        let [italic, reverse, invisible, strikethrough, overline] = flags;
        assert!(italic.italic && reverse.reverse && invisible.invisible);
        assert!(strikethrough.strikethrough && overline.overline);
        let mut all = flags.to_vec();
        all.dedup();
        assert_eq!(all.len(), 5);
    }

    #[test]
    fn other_values_are_none() {
        assert_eq!(
            CellAttributes::from_body(&PLAIN),
            Some(CellAttributes::default())
        );
        for (place, value) in [(0, 3), (1, 3), (2, 3), (3, 32), (4, 3), (5, 1), (24, 3)] {
            assert_eq!(with(place, value), None, "{value} at {place}");
        }
        for size in [0, 23, 26] {
            assert_eq!(CellAttributes::from_body(&[0; 26][..size]), None);
        }
    }

    #[test]
    fn unused_bytes_of_a_colour_are_zero() {
        for bytes in [
            [0, 1, 0, 0],
            [0, 0, 0, 1],
            [1, 5, 1, 0],
            [1, 5, 0, 1],
            [3, 0, 0, 0],
        ] {
            assert_eq!(ColorAttribute::from_bytes(bytes), None);
        }
    }

    #[test]
    fn a_link_may_stand_outside() {
        let link = Link { place: 2, len: 2 };
        assert_eq!(link.uri(b"abcd"), Some(&b"cd"[..]));
        assert_eq!(link.uri(b"abc"), None);
        let far = Link {
            place: u32::MAX,
            len: u32::MAX,
        };
        assert_eq!(far.uri(b"abc"), None);
    }
}
