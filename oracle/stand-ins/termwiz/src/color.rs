//! Colours: document 01, "Drawing".

/// The first eight palette entries and silver, by the names that the source uses.
#[derive(Clone, Copy, Debug, PartialEq, Eq)]
pub enum AnsiColor {
    Black = 0,
    Olive = 3,
    Navy = 4,
    Teal = 6,
    Silver = 7,
}

#[derive(Clone, Copy, Debug, Default, PartialEq, Eq)]
pub enum ColorAttribute {
    #[default]
    Default,
    PaletteIndex(u8),
    TrueColor(u8, u8, u8),
}

impl From<AnsiColor> for ColorAttribute {
    fn from(color: AnsiColor) -> ColorAttribute {
        ColorAttribute::PaletteIndex(color as u8)
    }
}
