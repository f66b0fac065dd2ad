//! Stands in for unicode-width: document 01, "Text profile", "Width".

pub trait UnicodeWidthStr {
    /// A text's width is the sum of its scalars' widths.
    fn width(&self) -> usize;
}

impl UnicodeWidthStr for str {
    fn width(&self) -> usize {
        self.chars().map(profile::width).sum()
    }
}
