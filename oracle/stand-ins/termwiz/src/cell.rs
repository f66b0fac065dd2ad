//! The attributes that document 01's change list shows.

use crate::color::ColorAttribute;
use crate::hyperlink::Hyperlink;
use std::sync::Arc;

#[derive(Clone, Copy, Debug, Default, PartialEq, Eq)]
pub enum Intensity {
    #[default]
    Normal = 0,
    Bold = 1,
    Half = 2,
}

#[derive(Clone, Copy, Debug, Default, PartialEq, Eq)]
pub enum Underline {
    #[default]
    None = 0,
    Single = 1,
    Double = 2,
}

#[derive(Clone, Copy, Debug, Default, PartialEq, Eq)]
pub enum Blink {
    #[default]
    None = 0,
    Slow = 1,
    Rapid = 2,
}

#[derive(Clone, Copy, Debug, Default, PartialEq, Eq)]
pub enum VerticalAlign {
    #[default]
    BaseLine = 0,
    SuperScript = 1,
    SubScript = 2,
}

#[derive(Clone, Debug, Default, PartialEq, Eq)]
pub struct CellAttributes {
    intensity: Intensity,
    underline: Underline,
    blink: Blink,
    italic: bool,
    reverse: bool,
    invisible: bool,
    strikethrough: bool,
    overline: bool,
    vertical_align: VerticalAlign,
    foreground: ColorAttribute,
    background: ColorAttribute,
    underline_color: ColorAttribute,
    hyperlink: Option<Arc<Hyperlink>>,
}

/// A getter and a setter; a setter of a colour also takes a colour by its name.
macro_rules! attribute {
    ($get:ident, $set:ident, $type:ty) => {
        pub fn $get(&self) -> $type {
            self.$get
        }

        pub fn $set(&mut self, value: impl Into<$type>) -> &mut Self {
            self.$get = value.into();
            self
        }
    };
}

impl CellAttributes {
    attribute!(intensity, set_intensity, Intensity);
    attribute!(underline, set_underline, Underline);
    attribute!(blink, set_blink, Blink);
    attribute!(italic, set_italic, bool);
    attribute!(reverse, set_reverse, bool);
    attribute!(invisible, set_invisible, bool);
    attribute!(strikethrough, set_strikethrough, bool);
    attribute!(overline, set_overline, bool);
    attribute!(vertical_align, set_vertical_align, VerticalAlign);
    attribute!(foreground, set_foreground, ColorAttribute);
    attribute!(background, set_background, ColorAttribute);
    attribute!(underline_color, set_underline_color, ColorAttribute);

    pub fn hyperlink(&self) -> Option<&Arc<Hyperlink>> {
        self.hyperlink.as_ref()
    }

    pub fn set_hyperlink(&mut self, link: Option<Arc<Hyperlink>>) -> &mut Self {
        self.hyperlink = link;
        self
    }
}
