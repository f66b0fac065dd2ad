//! Lists that the library's own drawings leave.

use super::model::LARGEST_WIDTH;
use super::Case;
use console_lines::raw::SpanRecord;
use library_calls::Lent;
use oracle::changes::decode;
use oracle::Call;
use unicode_width::UnicodeWidthStr;

/// The change list that the library leaves for a drawing; none where it is refused.
pub fn list(call: &Call, line: &[u8]) -> Option<Vec<u8>> {
    let mut conv = vec![0; 8 * line.len()];
    let mut spans = vec![SpanRecord::default(); 2 * line.len() + 8];
    let mut list = vec![0; 2_048];
    loop {
        let lent = Lent {
            conv: &mut conv,
            spans: &mut spans,
            rows: &mut [],
            list: &mut list,
        };
        let answer = library_calls::make(call, line, call.matches(), lent);
        match answer.number {
            0 => list.truncate(answer.count),
            4 => spans = vec![SpanRecord::default(); 4 * spans.len()],
            9 => list = vec![0; 4 * list.len()],
            _ => return None,
        }
        if answer.number == 0 {
            return Some(list);
        }
    }
}

/// The columns of a drawing's texts without those of the right arrow, which is `>`
/// behind a cursor right.
pub fn columns(list: &[u8]) -> usize {
    let changes = decode(list).into_iter();
    let columns = changes.map(|(kind, body)| match kind {
        1 => std::str::from_utf8(body).map_or(0, |text| text.width() as isize),
        4 => -1,
        _ => 0,
    });
    columns.sum::<isize>() as usize
}

/// A drawing's list is never refused by 10, and by 11 precisely in fewer columns than
/// its texts take. What is not so of a case, as text.
pub fn broken(case: &Case, number: usize) -> Option<String> {
    if !case.drawn || !(1..=LARGEST_WIDTH).contains(&case.width) {
        return None;
    }
    let narrow = case.width < columns(&case.list);
    if number != 10 && narrow == (number == 11) {
        return None;
    }
    Some(format!("{case}\n  a drawing's list is refused by {number}"))
}
