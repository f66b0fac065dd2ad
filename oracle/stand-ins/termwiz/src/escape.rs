//! What a sequence at ESC says.

pub mod parser;

#[derive(Clone, Debug, PartialEq, Eq)]
pub enum Action {
    CSI(csi::CSI),
    Esc(esc::Esc),
    OperatingSystemCommand(Box<osc::OperatingSystemCommand>),
    /// No sequence of document 01 gives it; the source has an arm for it.
    Other,
}

pub mod csi {
    use crate::cell::{Blink, Intensity, Underline, VerticalAlign};
    use crate::color::ColorAttribute;

    #[derive(Clone, Debug, PartialEq, Eq)]
    #[allow(clippy::upper_case_acronyms)]
    pub enum CSI {
        Sgr(Sgr),
        Cursor(Cursor),
        Edit(Edit),
    }

    #[derive(Clone, Copy, Debug, PartialEq, Eq)]
    pub enum Sgr {
        Reset,
        Intensity(Intensity),
        Underline(Underline),
        UnderlineColor(ColorAttribute),
        Blink(Blink),
        Italic(bool),
        Inverse(bool),
        Invisible(bool),
        StrikeThrough(bool),
        Overline(bool),
        Foreground(ColorAttribute),
        Background(ColorAttribute),
        VerticalAlign(VerticalAlign),
        /// No known parameter gives it; the source has an arm for it.
        Font(u8),
    }

    /// A sequence that the source ignores, by its final byte.
    #[derive(Clone, Copy, Debug, PartialEq, Eq)]
    pub struct Cursor(pub u8);

    #[derive(Clone, Copy, Debug, PartialEq, Eq)]
    pub enum Edit {
        EraseInLine(EraseInLine),
    }

    #[derive(Clone, Copy, Debug, PartialEq, Eq)]
    pub enum EraseInLine {
        EraseToEndOfLine,
        EraseToStartOfLine,
        EraseLine,
    }
}

pub mod esc {
    #[derive(Clone, Copy, Debug, PartialEq, Eq)]
    pub enum Esc {
        Code(EscCode),
    }

    #[derive(Clone, Copy, Debug, PartialEq, Eq)]
    pub enum EscCode {
        DecLineDrawingG0,
        AsciiCharacterSetG0,
        /// No sequence of document 01 gives it; the source has an arm for it.
        StringTerminator,
    }
}

pub mod osc {
    use crate::hyperlink::Hyperlink;

    #[derive(Clone, Debug, PartialEq, Eq)]
    pub enum OperatingSystemCommand {
        SetHyperlink(Option<Hyperlink>),
        /// No sequence of document 01 gives it; the source has an arm for it.
        Other,
    }
}
