//! Changes.

#[derive(Clone, Copy, Debug, PartialEq, Eq)]
pub enum Position {
    Absolute(usize),
    Relative(isize),
}

pub mod change {
    use super::Position;
    use crate::cell::CellAttributes;
    use crate::color::ColorAttribute;

    #[derive(Clone, Debug, PartialEq, Eq)]
    pub enum Change {
        Text(String),
        AllAttributes(CellAttributes),
        ClearToEndOfLine(ColorAttribute),
        CursorPosition { x: Position, y: Position },
    }

    impl From<&str> for Change {
        fn from(text: &str) -> Change {
            Change::Text(text.to_string())
        }
    }
}
