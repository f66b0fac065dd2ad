//! The units of a line as wrapping counts them in modes 1 and 2: clusters, marks,
//! Unprintable spans, tabs.

use oracle::Answer;
use unicode_segmentation::UnicodeSegmentation;
use unicode_width::UnicodeWidthStr;

/// Tabs stop at multiples of so many columns.
const TAB: usize = 8;

#[derive(Clone, Copy, Debug, PartialEq, Eq)]
pub enum Unit {
    Columns(usize),
    Tab,
}

/// The units of a line that was read, in order.
pub fn units(reading: &Answer) -> Vec<Unit> {
    let mut units = Vec::new();
    for record in &reading.records {
        let bytes = &reading.conv[record.place..record.place + record.len];
        match record.kind {
            1 => {
                let text = std::str::from_utf8(bytes).expect("text in UTF-8");
                let clusters = text.graphemes(true);
                units.extend(clusters.map(|cluster| Unit::Columns(cluster.width())));
            }
            3 | 4 => units.push(Unit::Columns(4)),
            5 => units.push(Unit::Columns(8)),
            10 => units.push(Unit::Tab),
            _ => (),
        }
    }
    units
}

/// The line's last column.
pub fn last_column(units: &[Unit]) -> usize {
    units.iter().fold(0, |column, unit| match unit {
        Unit::Columns(columns) => column + columns,
        Unit::Tab => (column / TAB + 1) * TAB,
    })
}
