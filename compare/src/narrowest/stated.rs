//! Widths and refusals that are stated, where document 02's words are short.

use super::model::Model;
use super::Case;

struct Statement {
    case: Case,
    /// Number, count and tried.
    answer: [usize; 3],
}

/// The stated cases; the model is held to each of them here.
pub fn cases() -> Vec<Case> {
    let mut statements = short();
    statements.extend(long());
    for Statement { case, answer } in &statements {
        let expected = Model::new(&case.line).answer(case);
        let said = [
            expected.answer.number,
            expected.answer.count,
            expected.tried,
        ];
        assert_eq!(said, *answer, "{case}");
    }
    statements.into_iter().map(|said| said.case).collect()
}

/// The same that can be recorded: crates/vectors has room for so many spans.
pub fn recorded() -> Vec<Case> {
    let mut cases = cases();
    cases.retain(|case| case.lent[1] <= 1_024 && case.line.len() < 5_000);
    cases
}

/// Found, or not, where just enough is lent.
fn says(line: &[u8], [mode, wanted, greatest]: [usize; 3], answer: [usize; 3]) -> Statement {
    let case = Case::snug(line, mode, wanted, greatest);
    Statement { case, answer }
}

fn found(line: &[u8], asked: [usize; 3], width: usize) -> Statement {
    says(line, asked, [0, width, width])
}

fn none(line: &[u8], asked: [usize; 3]) -> Statement {
    says(line, asked, [0, 0, asked[2]])
}

fn refused(line: &[u8], asked: [usize; 3], number: usize) -> Statement {
    says(line, asked, [number, 0, 0])
}

/// Lent more or less than just enough.
fn lent(said: Statement, conv: isize, spans: isize) -> Statement {
    let Statement { mut case, answer } = said;
    let [enough_conv, enough_spans] = case.lent;
    case.lent = [
        enough_conv.wrapping_add_signed(conv),
        enough_spans.wrapping_add_signed(spans),
    ];
    Statement { case, answer }
}

const LARGEST: usize = 65_535;

fn short() -> Vec<Statement> {
    let mut said = vec![
        // none is accepted
        none(b"ab", [1, 1, 1]),
        found(b"ab", [1, 1, 2], 2),
        found(b"ab", [1, 1, LARGEST], 2),
        found(b"ab", [1, 2, LARGEST], 1),
        found(b"ab", [2, 1, LARGEST], 2),
        none(b"abcdef", [1, 2, 2]),
        found(b"abcdef", [1, 2, 3], 3),
        // the larger of 1 and the last column
        found(b"", [1, 1, 1], 1),
        found(b"", [2, LARGEST, LARGEST], 1),
        found(b"\n", [1, 1, LARGEST], 1),
        found(b"\x1B[1m", [2, 1, 1], 1),
        // the width found may be below the last column
        found(b"\t\t", [1, 1, LARGEST], 8),
        found(b"\t\t", [2, 1, LARGEST], 8),
        none(b"\t\t", [1, 1, 7]),
        // a wide cluster at width 1 has an empty row before it
        found(b"\xE6\xBC\xA2", [1, 1, LARGEST], 2),
        found(b"\xE6\xBC\xA2", [1, 2, LARGEST], 1),
        // marks count 4, an Unprintable span 8 however many scalars it has
        found(b"\xFF", [1, 1, LARGEST], 4),
        found(b"\x1B", [2, 1, LARGEST], 4),
        found(b"\xCC\x81", [1, 1, LARGEST], 8),
        found(b"\xCC\x81\xCC\x81", [1, 1, LARGEST], 8),
        // by words and by clusters
        found(b"ab cd ef", [2, 3, LARGEST], 3),
        found(b"ab cd ef", [1, 3, LARGEST], 3),
        found(b"abc d ef", [2, 2, LARGEST], 4),
        found(b"abc d ef", [1, 2, LARGEST], 4),
        found(b"a bb cc ", [2, 2, LARGEST], 5),
        found(b"a bb cc ", [1, 2, LARGEST], 4),
    ];
    // question 5
    for asked in [
        [0, 1, 80],
        [3, 1, 80],
        [4, 1, 80],
        [(1 << 32) + 1, 1, 80],
        [1, 0, 80],
        [1, LARGEST + 1, 80],
        [1, (1 << 32) + 1, 80],
        [1, 1, 0],
        [1, 1, LARGEST + 1],
        [2, 1, usize::MAX],
        [2, usize::MAX, 1],
    ] {
        said.push(refused(b"a", asked, 5));
    }
    // 2 and 4 stand before it, 1 before all
    said.push(lent(refused(b"ab", [1, 1, 80], 2), -1, 0));
    said.push(lent(refused(b"ab", [3, 0, 0], 2), -1, 0));
    said.push(lent(refused(b"ab", [1, 1, 80], 4), 0, -1));
    said.push(lent(refused(b"a\tb", [3, 0, 0], 4), 0, -1));
    said.push(lent(refused(b"ab", [3, 1, 80], 5), 9, 5));
    said.push(lent(found(b"ab\xFF", [1, 1, 80], 6), 9, 5));
    said.push(lent(none(b"ab\xFF", [1, 1, 5]), 9, 5));
    said
}

fn long() -> Vec<Statement> {
    let letters = |count: usize| vec![b'a'; count];
    vec![
        found(&letters(4_096), [1, 1, LARGEST], 4_096),
        found(&letters(4_096), [1, 2, LARGEST], 2_048),
        found(&letters(4_096), [2, 4_096, LARGEST], 1),
        none(&letters(4_096), [1, 1, 4_095]),
        refused(&letters(4_097), [1, 1, LARGEST], 1),
        lent(refused(&letters(4_097), [3, 0, 0], 1), -1, 0),
        found(&vec![0xFF; 4_096], [1, 1, LARGEST], 16_384),
        found(&vec![b'\t'; 4_096], [1, 1, LARGEST], 32_760),
        none(&vec![b'\t'; 4_096], [1, 1, 32_759]),
        found(&vec![b'\t'; 4_096], [2, 4_096, LARGEST], 1),
    ]
}
