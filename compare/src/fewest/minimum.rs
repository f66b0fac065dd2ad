//! The fewest rows of a width that units can be put into, cut between them only.

/// By the fewest rows of each number of first units: the last row of these holds one or
/// more of them. Without units it is one row, as a list has one or more.
pub fn fewest(units: &[usize], width: usize) -> usize {
    let mut fewest = vec![0];
    for end in 1..=units.len() {
        let mut columns = 0;
        let starts = (0..end).rev().take_while(|&start| {
            columns += units[start];
            columns <= width
        });
        let rows = starts.map(|start| fewest[start] + 1).min();
        fewest.push(rows.expect("no unit is wider than the width"));
    }
    fewest[units.len()].max(1)
}

/// The same by every choice of cuts.
pub fn fewest_of_all(units: &[usize], width: usize) -> usize {
    let places = units.len().saturating_sub(1);
    let choices = (0..1_usize << places).filter(|cuts| {
        let mut columns = 0;
        units.iter().enumerate().all(|(place, unit)| {
            let cut = place > 0 && cuts >> (place - 1) & 1 == 1;
            columns = if cut { *unit } else { columns + unit };
            columns <= width
        })
    });
    let rows = choices.map(|cuts| cuts.count_ones() as usize + 1);
    rows.min().expect("no unit is wider than the width")
}
