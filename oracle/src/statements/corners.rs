//! Corners of document 01, of joined emoji, of modes 3 and 4 and of vertical alignment, by
//! what they are about.

use super::*;

/// The corners of document 01.
pub fn corners() -> Vec<Statement> {
    let mut list = Vec::new();
    let parts = [
        noise_and_runs,
        questions,
        clusters,
        joined_emoji,
        rows_and_bytes,
        drawn_columns,
        overstrike,
        style_orders,
        alignment,
        other_sequences,
        hyperlinks,
        dropped_marks,
        matches,
        drawing,
        traps,
    ];
    for part in parts {
        part(&mut list);
    }
    list
}

fn noise_and_runs(list: &mut Vec<Statement>) {
    let mut s = about(list, "noise and runs");
    s.converts("C3 61 08 A9", "C3 A9");
    s.reads("C3 61 08 A9", &[TEXT]);
    s.reads("C3 61 08", &[INVALID]);
    s.reads("61 CC 81", &[TEXT]);
    s.reads("CC 81", &[UNPRINTABLE]);
    s.reads("61 FF CC 81", &[TEXT, INVALID, UNPRINTABLE]);
}

fn questions(list: &mut Vec<Statement>) {
    let mut s = about(list, "questions");
    s.matching("", &[0, 0], &[]);
    s.accepts(read(b"a", &[1, 1]));
    s.refuses(read(b"a", &[1, 2]), 3);
    s.refuses(read(b"a\n", &[0, 2]), 3);
    s.accepts(read(b"a\n", &[0, 1]));
    s.accepts(read(b"a\r\n\n", &[0, 3]));
    s.refuses(read(b"a\r\n\n", &[0, 4]), 3);
    s.accepts(read(b"a\r\n", &[0, 1]));
    s.refuses(read(b"a\r\n", &[0, 2]), 3);
    s.accepts(read(b"a\r", &[0, 2]));
    s.refuses(read(b"a", &[0]), 3);
    s.refuses(read(b"a", &[0, 1, 1]), 3);
    s.refuses(read(b"abc", &[2, 1]), 3);
    s.refuses(read(b"abc", &[0, 2, 1, 3]), 3);
    s.refuses(draw_window_with(b"abc", &[0, 2, 1, 3], NONE, 0, 9), 3);
    s.refuses(draw_row_with(b"abc", &[0, 4], NONE, 0, 1, 9, 1), 3);
    let none = draw_window_with(b"ab", &[0, 1], NONE, 0, 9);
    s.say(
        draw_window_with(b"ab", &[0, 1], 7, 0, 9),
        Says::SameAs(Box::new(none)),
    );
    let large = 1 << 32;
    s.refuses(rows(b"a", large + 4, 1), 5);
    s.refuses(rows(b"a", 4, large + 1), 5);
    s.refuses(rows(b"a", 4, 5), 5);
    s.refuses(height(b"a", 4, 5), 5);
    s.refuses(draw_row(b"a", 0, 1, 4, 5), 5);
    s.refuses(height(b"a", large + 4, 1), 5);
    s.refuses(height(b"a", 4, usize::MAX), 5);
    s.refuses(draw_row(b"a", large, 1, 4, 1), 5);
    s.refuses(draw_row(b"a", 0, large + 1, 4, 1), 5);
    s.refuses(draw_row(b"a", 0, 0, 4, 1), 5);
    s.accepts(draw_row(b"a", 65_535, 65_535, 4, 1));
    s.refuses(draw_row(b"a", 65_536, 1, 4, 1), 5);
    s.refuses(draw_row(b"a", 0, 65_536, 4, 1), 5);
    s.refuses(draw_window(b"a", large, large + 9), 5);
    s.refuses(draw_window(b"a", 1_048_577, 1_048_577), 5);
    s.refuses(draw_window(b"a", 1_048_576, 1_048_576), 7);
    s.refuses(draw_window(b"a", 0, 1_048_577), 5);
    s.accepts(draw_window(b"a", 0, 1_048_576));
    s.accepts(draw_window(b"a", 1_048_575, 1_048_576));
    s.accepts(draw_window(b"a", 0, 0));
    s.refuses(draw_window(b"a", 1, 1), 7);
    s.refuses(draw_window(b"a", 2, 1), 7);
    s.rows("E1 84 80 E1 84 80", 1, 1, &[(0, 0), (0, 4)]);
    s.refuses(draw_window(&bytes("E1 84 80 E1 84 80"), 1, 3), 8);
    s.accepts(draw_window(&bytes("E1 84 80 E1 84 80"), 1, 4));
    s.refuses(draw_row(&bytes("F3 A0 84 80 E6 BC A2"), 9, 1, 80, 1), 8);
    s.draws_row("'a'", [1, 1, 80, 0], "c d");
    s.draws_row("'a'", [1, 1, 0, 0], "d");
    s.draws_row("'a'", [0, 1, 80, 0], "t61 d");
    s.matching("65 CC 81", &[0, 1], &[MATCH, UNPRINTABLE]);
    let moved = draw_row_with(&bytes("65 CC 81"), &[0, 1], NONE, 1, 1, 8, 1);
    s.say(moved, Says::Changes("a00000002 t3C552B303330313E d"));
}

/// Rows at width 0 show the clusters: a row for each, behind an empty first one.
fn clusters(list: &mut Vec<Statement>) {
    let mut s = about(list, "clusters");
    let (ri, zwj, mark) = ("F0 9F 87 A6", "E2 80 8D", "CC 81");
    s.rows(&format!("{ri} {ri} {ri}"), 0, 1, &[(0, 0), (0, 2), (2, 3)]);
    s.rows(
        &format!("{ri} {mark} {ri} {ri}"),
        0,
        1,
        &[(0, 0), (0, 1), (1, 3)],
    );
    s.rows(&format!("61 {zwj} 62"), 0, 1, &[(0, 0), (0, 1), (1, 2)]);
    let (l, v, t) = ("E1 84 80", "E1 85 A1", "E1 86 A8");
    let (lv, lvt) = ("EA B0 80", "EA B0 81");
    s.reads(&format!("{l} {l} {v} {v} {t} {t}"), &[TEXT]);
    s.rows(&format!("{l} {l} {v} {v} {t} {t}"), 0, 1, &[(0, 0), (0, 4)]);
    s.rows(&format!("{l} {lv} {v} {t}"), 0, 1, &[(0, 0), (0, 4)]);
    s.rows(&format!("{l} {lvt} {t}"), 0, 1, &[(0, 0), (0, 4)]);
    s.reads(&format!("{lvt} {v}"), &[TEXT, UNPRINTABLE]);
    s.reads(&format!("{l} {t}"), &[TEXT, UNPRINTABLE]);
    s.reads(&format!("{v} {l}"), &[UNPRINTABLE, TEXT]);
    s.reads(&format!("{t} {v}"), &[UNPRINTABLE, UNPRINTABLE]);
    s.rows(&format!("{lv} {l}"), 0, 1, &[(0, 0), (0, 2), (2, 4)]);
    s.reads("0D 0A 0A 0D", &[CRLF, LF, CONTROL]);
    s.reads(
        &format!("0A {mark} 09 {mark} C2 80 {mark}"),
        &[LF, UNPRINTABLE, TAB, UNPRINTABLE, UNPRINTABLE, UNPRINTABLE],
    );
}

/// Document 02, U2: GB11. M, W and G are U+1F468, U+1F469 and U+1F467, Z is U+200D.
fn joined_emoji(list: &mut Vec<Statement>) {
    const M: &str = "F0 9F 91 A8";
    const W: &str = "F0 9F 91 A9";
    const G: &str = "F0 9F 91 A7";
    const Z: &str = "E2 80 8D";
    const MARK: &str = "CC 81";
    let line = |parts: &[&str]| parts.join(" ");
    let mut s = about(list, "joined emoji");
    // one cluster, as wide as its pictures together
    let one = [(0, 0), (0, 4)];
    s.rows(&line(&[M, Z, W]), 0, 1, &one);
    s.rows(&line(&[M, MARK, Z, W]), 0, 1, &one);
    s.rows(&line(&[M, Z, W]), 2, 1, &one);
    s.rows(&line(&[M, Z, W, Z, G]), 0, 1, &[(0, 0), (0, 6)]);
    // two clusters
    let two = [(0, 0), (0, 2), (2, 4)];
    s.rows(&line(&[M, Z, MARK, W]), 0, 1, &two);
    s.rows(&line(&[M, Z, Z, W]), 0, 1, &two);
    s.rows(&line(&[M, MARK, W]), 0, 1, &two);
    s.rows(&line(&[M, Z, MARK, Z, W]), 0, 1, &two);
    s.rows(&line(&[M, W]), 0, 1, &two);
    s.rows(&line(&["61", Z, W]), 0, 1, &[(0, 0), (0, 1), (1, 3)]);
    // U+1F680, U+1F650 and U+1F8FF are no Extended_Pictographic here; a skin tone is one
    let other = [(0, 0), (0, 2), (2, 3)];
    s.rows(&line(&[W, Z, "F0 9F 9A 80"]), 0, 1, &other);
    s.rows(&line(&[W, Z, "F0 9F 99 90"]), 0, 1, &other);
    s.rows(&line(&[W, Z, "F0 9F A3 BF"]), 0, 1, &other);
    s.rows(&line(&[W, "F0 9F 8F BD"]), 0, 1, &two);
    // question 8 refuses a window inside it
    s.refuses(draw_window(&bytes(&line(&[M, Z, W])), 1, 3), 8);
    // overstrike takes it as one cluster, and an erasure finds it in the output, where its
    // halves may never have stood together in the line
    s.converts(
        &line(&[M, Z, W, "08", M, Z, W]),
        &line(&["1B 5B 31 6D", M, Z, W, "1B 5B 32 32 6D"]),
    );
    s.converts(&line(&[M, Z, "61 08", W, "62 08 08"]), "");
    // a damaged byte and a match's edge separate the halves
    s.reads(&line(&[M, Z, "FF", W]), &[TEXT, INVALID, TEXT]);
    s.matching(&line(&[M, Z, W]), &[0, 7], &[MATCH, TEXT]);
}

fn rows_and_bytes(list: &mut Vec<Statement>) {
    let mut s = about(list, "rows and bytes");
    s.rows("'--'", 0, 2, &[(0, 0), (0, 1), (1, 1), (1, 2)]);
    let pairs = [(0, 0), (0, 2), (2, 3), (3, 3), (3, 5), (5, 6)];
    s.rows("E6 BC A2 2D E6 BC A2 2D", 1, 2, &pairs);
    s.say(height(&[b'-'; 4096], 0, 2), Says::Count(8192));
    s.say(height(&[b'a'; 4096], 0, 1), Says::Count(4097));
    s.say(rows(&[b'-'; 4096], 0, 2), Says::Count(8192));
    let lent = |line: &[u8], mode: usize| {
        let width = 0;
        Case::new(line, Call::Rows { width, mode }, [32_768, 2_048, 8_192, 0])
    };
    s.refuses(lent(&[b'-'; 2049], 2), 6);
    s.accepts(lent(&[b'-'; 2048], 2));
    s.refuses(lent(&[b'a'; 4096], 1), 6);
    s.accepts(lent(&[b'a'; 4095], 1));
    s.rows("'ab' 1B '[1m' 'cd'", 3, 2, &[(0, 2), (2, 4)]);
    s.rows("'abcd'", 3, 2, &[(0, 3), (3, 4)]);
    let most: Vec<u8> = [0xFF, 0x09].repeat(2048);
    s.say(draw_window(&most, 1, 16_383), Says::Count(168_084));
    s.say(read(&most, &[]), Says::Count(4096));
}

/// Modes 3 and 4: an Unprintable span counts the columns that it draws, as one unit.
fn drawn_columns(list: &mut Vec<Statement>) {
    let mut s = about(list, "drawn columns");
    let (mark, above) = ("CC 81", "F3 A0 84 80");
    let marks = format!("{mark} {mark}");
    for (grapheme, word) in [(1, 2), (3, 4)] {
        let drawn = grapheme == 3;
        for mode in [grapheme, word] {
            s.rows(&marks, 80, mode, &[(0, if drawn { 16 } else { 8 })]);
            s.rows(above, 80, mode, &[(0, if drawn { 9 } else { 8 })]);
            let both = format!("{mark} {above}");
            s.rows(&both, 80, mode, &[(0, if drawn { 17 } else { 8 })]);
            let tab = format!("{marks} 09");
            s.rows(&tab, 80, mode, &[(0, if drawn { 24 } else { 16 })]);
            s.rows(mark, 8, mode, &[(0, 8)]);
        }
    }
    s.rows(&marks, 8, 3, &[(0, 0), (0, 16)]);
    s.rows(&marks, 15, 4, &[(0, 0), (0, 16)]);
    s.rows(&format!("FF {marks} 'b'"), 20, 3, &[(0, 20), (20, 21)]);
    let wide = bytes(&format!("{above} E3 80 80 2D"));
    s.refuses(draw_row(&wide, 4, 1, 0, 2), 8);
    s.accepts(draw_row(&wide, 4, 1, 0, 4));
    s.say(
        draw_row(&bytes(&marks), 1, 1, 8, 3),
        Says::Changes("a00000002 t3C552B303330313E t3C552B303330313E d"),
    );
}

fn overstrike(list: &mut Vec<Statement>) {
    let mut s = about(list, "overstrike");
    s.converts("08", "08");
    s.converts("08 08", "08 08");
    s.converts("61 08 61 08", "");
    s.converts("61 08 61 62 08 08 63", "1B 5B 31 6D 63");
    s.converts("61 08 61 62 08 08", "1B 5B 31 6D 1B 5B 32 32 6D");
    s.converts("0A 08 08", "08");
    s.converts(
        "1B 5B 31 6D 08 6D",
        "1B 5B 31 1B 5B 31 6D 6D 1B 5B 32 32 6D",
    );
    s.reads("5F 08 CC 81", &[STYLE, STYLE]);
    s.converts("61 08 61", "1B 5B 31 6D 61 1B 5B 32 32 6D");
    // the most that 4,096 bytes give
    let (bold, under) = ("61 08 61", "5F 08 62");
    let pairs = format!("{bold} 63").repeat(1018);
    let triples = format!("{bold} {under} 63").repeat(3);
    let most = bytes(&format!("{pairs}{triples}{bold}"));
    s.say(convert(&most), Says::Count(11_265));
    s.converts("61 08 FF", "FF");
    s.converts("61 FF 08 61", "61 FF 08 61");
}

fn style_orders(list: &mut Vec<Statement>) {
    let mut s = about(list, "style orders");
    for text in [
        "'[m'",
        "'[;m'",
        "'[1;10;65535m'",
        "'[000000000001m'",
        "'[38;05;007m'",
    ] {
        s.reads(&format!("1B {text}"), &[STYLE]);
    }
    for text in [
        "'[1;38;7m'",
        "'[38;5;m'",
        "'[38;2;1;2;3m'",
        "'[48;5;255m'",
        "'[58;2;0;0;255m'",
    ] {
        s.reads(&format!("1B {text}"), &[STYLE]);
    }
    let none = [
        "'[1;10;65536m'",
        "'[38;5m'",
        "'[38;5;256m'",
        "'[38;;1m'",
        "'[38m'",
        "'[38;2;1;2m'",
        "'[38;2;1;2;256m'",
        "'[4:3m'",
        "'[?1m'",
        "'[10m'",
        "'[108m'",
        "'[1 m'",
        "'[1'",
        "'['",
        "'m'",
    ];
    for text in none {
        s.reads(&format!("1B {text}"), &[CONTROL, TEXT]);
    }
    s.reads("1B", &[CONTROL]);
    s.reads(&format!("1B '[{}m'", ";".repeat(31)), &[STYLE]);
    s.reads(&format!("1B '[{}m'", ";".repeat(32)), &[CONTROL, TEXT]);
    s.reads(&format!("1B '[10{}m'", ";".repeat(32)), &[CONTROL, TEXT]);
    s.reads(&format!("1B '[1{}10m'", ";".repeat(32)), &[CONTROL, TEXT]);
    s.draws("1B '[1m' 1B '[m' 61", 0, 1, "d t61 d");
    s.draws("1B '[1m' 1B '[;m' 61", 0, 1, "d t61 d");
    s.draws("1B '[1;38;7m' 61", 0, 1, "a01 t61 d");
    s.draws("1B '[38;5;m' 61", 0, 1, "a0000000001 t61 d");
    s.draws("1B '[38;5;7m' 61", 0, 1, "a000000000107 t61 d");
    s.draws("1B '[1;10;3m' 61", 0, 1, "a01 t61 d");
    s.records(
        "1B '[1;10;99m' 61",
        &[],
        &[[STYLE, 0, 10, 0], [TEXT, 10, 1, 0]],
    );
    // absent from the text searched, though not read as style orders
    for text in ["'[4:3m'", "'[?1m'", "'[10m'"] {
        let line = bytes(&format!("1B {text} 61"));
        s.accepts(read(&line, &[0, 1]));
        s.refuses(read(&line, &[0, 2]), 3);
    }
    // read as a style order, and a part of the text searched
    let long = format!("1B '[{}1m' 61", "0".repeat(32));
    s.reads(&long, &[STYLE, TEXT]);
    s.accepts(read(&bytes(&long), &[36, 37]));
    s.matching(&long, &[3, 4], &[CONTROL, TEXT, MATCH, TEXT]);
    let short = format!("1B '[{}1m' 61", "0".repeat(31));
    s.refuses(read(&bytes(&short), &[0, 2]), 3);
}

/// Document 02, U7: 73 raised, 74 lowered, 75 baseline.
fn alignment(list: &mut Vec<Statement>) {
    let mut s = about(list, "alignment");
    for known in [73, 74, 75] {
        s.reads(&format!("1B '[{known}m' 61"), &[STYLE, TEXT]);
    }
    for unknown in [72, 76] {
        s.reads(&format!("1B '[{unknown}m' 61"), &[CONTROL, TEXT]);
        s.draws_as(&format!("1B '[1;{unknown};4m' 61"), "a01 t61 d");
    }
    s.rows("1B '[73m' 61", 8, 1, &[(0, 1)]);
    s.rows("1B '[72m' 61", 8, 1, &[(0, 8), (8, 9)]);
    for (parameters, changes) in [
        ("73", "a^ t61 d"),
        ("74", "a_ t61 d"),
        ("75", "d t61 d"),
        ("073", "a^ t61 d"),
        ("1;73;4", "a0101^ t61 d"),
        ("38;5;73", "a000000000149 t61 d"),
        ("48;2;73;74;75", "a000000000000000002494A4B t61 d"),
        ("73;74", "a_ t61 d"),
        ("74;73", "a^ t61 d"),
        ("73;75", "d t61 d"),
        ("73;0", "d t61 d"),
        ("0;73", "a^ t61 d"),
        ("73;", "d t61 d"),
        ("73;22", "a^ t61 d"),
        ("73;10;74", "a^ t61 d"),
    ] {
        s.draws_as(&format!("1B '[{parameters}m' 61"), changes);
    }
    // a reset keeps the link alone
    s.draws_as(
        "1B ']8;;u' 07 1B '[73m' 1B '[0m' 61",
        "a000000000000000000000000000000000500000001 t61 d",
    );
    s.draws_as(
        "1B ']8;;u' 07 1B '[73m' 61",
        "a000000000000000000000000000000000500000001^ t61 d",
    );
    // matches keep it; marks, arrows and the closing attributes have none
    let raised = bytes("1B '[73m' 61");
    let matched = draw_window_with(&raised, &[0, 1], NONE, 0, 1);
    s.say(matched, Says::Changes("a00000000010000000103^ t61 d"));
    let current = draw_window_with(&raised, &[0, 1], 0, 0, 1);
    s.say(current, Says::Changes("a00000000010000000106^ t61 d"));
    s.draws("1B '[73m' 01", 0, 4, "a00000002 t3C30313E d");
    s.draws(
        "1B '[73mabcd'",
        1,
        3,
        "a010000000104 t3C d a^ t63 t08 r a010000000104 t3E d",
    );
}

fn other_sequences(list: &mut Vec<Statement>) {
    let mut s = about(list, "other sequences");
    for text in ["'[00K'", "'[;K'", "'[01K'", "'[0;K'", "'[3K'", "'[?K'"] {
        s.reads(&format!("1B {text}"), &[CONTROL, TEXT]);
    }
    s.reads("1B '[K'", &[ERASE]);
    s.reads("1B '[0K'", &[ERASE]);
    s.reads("1B '[1K'", &[IGNORE]);
    s.reads("1B '[2K'", &[IGNORE]);
    for last in "@ABCDEFGHJLMPSTXZdf".chars() {
        s.reads(&format!("1B '[{last}'"), &[IGNORE]);
        s.reads(&format!("1B '[12;3{last}' 61"), &[IGNORE, TEXT]);
    }
    for last in "INOQRUVWY[\\]^_`abceghijklnopqrstuvwxyz{|}~".chars() {
        s.reads(&format!("1B '[1{last}'"), &[CONTROL, TEXT]);
    }
    s.reads(&format!("1B '[{}A'", "99999;".repeat(40)), &[IGNORE]);
    s.reads("1B '(0'", &[LINE_DRAWING]);
    s.reads("1B '(B'", &[LINE_DRAWING]);
    s.reads("1B '(A'", &[CONTROL, TEXT]);
    s.reads("1B ')0'", &[CONTROL, TEXT]);
    s.reads("1B 5C", &[CONTROL, TEXT]);
    s.reads("1B 1B '[m'", &[CONTROL, STYLE]);
    s.reads("1B '[1' FF 'm'", &[CONTROL, TEXT, INVALID, TEXT]);
}

fn hyperlinks(list: &mut Vec<Statement>) {
    let mut s = about(list, "hyperlinks");
    for text in [
        "1B ']8;;u' 07",
        "1B ']8;;u' 1B 5C",
        "1B ']8;;' 07",
        "1B ']8;;' 1B 5C",
        "1B ']8;id=1;u' 07",
        "1B ']8;;x;y' 07",
        "1B ']8;;' C2 9C 07",
    ] {
        s.reads(text, &[LINK]);
    }
    s.reads("1B ']8;;u' C2 9C", &[CONTROL, TEXT, UNPRINTABLE]);
    s.reads("1B ']8;;u'", &[CONTROL, TEXT]);
    s.reads("1B ']8;;u' 1B", &[CONTROL, TEXT, CONTROL]);
    s.reads("1B ']8;;u' 1B '[m' 07", &[CONTROL, TEXT, STYLE, CONTROL]);
    s.reads("1B ']8;' 09 ';u' 07", &[CONTROL, TEXT, TAB, TEXT, CONTROL]);
    s.reads("1B ']8;a' 07", &[CONTROL, TEXT, CONTROL]);
    s.reads("1B ']8;;u' 7F 07", &[CONTROL, TEXT, CONTROL, CONTROL]);
    s.reads("1B ']08;;u' 07", &[CONTROL, TEXT, CONTROL]);
    s.reads("1B ']8;;u' FF 07", &[CONTROL, TEXT, INVALID, CONTROL]);
    s.reads("1B ']8;;u' 07 CC 81", &[LINK, UNPRINTABLE]);
    s.reads("1B ']8;;u' 1B 5C CC 81", &[LINK]);
    s.draws(
        "1B ']8;;uv' 07 'a'",
        0,
        1,
        "a000000000000000000000000000000000500000002 t61 d",
    );
    s.draws(
        "1B ']8;;uv' 07 1B '[m' 'a'",
        0,
        1,
        "a000000000000000000000000000000000500000002 t61 d",
    );
    s.draws(
        "1B ']8;;uv' 07 'a' 1B ']8;;' 07 'b'",
        0,
        2,
        "a000000000000000000000000000000000500000002 t61 d t62 d",
    );
}

fn dropped_marks(list: &mut Vec<Statement>) {
    let mut s = about(list, "dropped marks");
    s.records(
        "1B 5B 31 6D CC 81 61",
        &[],
        &[[STYLE, 0, 4, 0], [TEXT, 6, 1, 0]],
    );
    s.matching("1B 5B 31 6D CC 81 61", &[0, 2], &[STYLE, UNPRINTABLE, TEXT]);
    s.matching("1B ']8;;u' 07 61", &[0, 1], &[CONTROL, TEXT, CONTROL, TEXT]);
    s.reads("1B '[K' E2 80 8D", &[ERASE]);
    s.reads("1B '(0' EF B8 8F 61", &[LINE_DRAWING, TEXT]);
    s.reads("1B '[A' CC 81 CC 81 1B", &[IGNORE, CONTROL]);
    s.reads("1B CC 81", &[CONTROL, UNPRINTABLE]);
}

fn matches(list: &mut Vec<Statement>) {
    let mut s = about(list, "matches");
    s.matching("61 1B '[1m' 62", &[1, 2], &[TEXT, STYLE, MATCH]);
    s.matching("61 1B '[1m' 62", &[0, 1], &[MATCH, STYLE, TEXT]);
    s.matching("61 1B '[1m' 62", &[1, 1], &[TEXT, STYLE, TEXT]);
    s.matching("61 1B '[1m' 0A", &[0, 1], &[MATCH, STYLE, LF]);
    s.matching("61 1B '[1m' 0D 0A", &[0, 1], &[MATCH, STYLE, CRLF]);
    s.records("'a'", &[0, 0, 0, 1], &[[MATCH, 0, 1, 1]]);
    s.records("61 09", &[0, 0, 0, 2], &[[MATCH, 0, 1, 1], [TAB, 1, 1, 0]]);
    s.matching("C3 A9", &[0, 1], &[INVALID, INVALID]);
    s.matching("61 0D 0A 62", &[0, 2], &[MATCH, CONTROL, LF, TEXT]);
    s.matching("'abc'", &[0, 1, 1, 2], &[MATCH, MATCH, TEXT]);
    s.matching(
        "'ab' 1B '[1m' 'cd'",
        &[1, 3],
        &[TEXT, MATCH, STYLE, MATCH, TEXT],
    );
}

fn drawing(list: &mut Vec<Statement>) {
    let mut s = about(list, "drawing");
    s.draws("E6 BC A2 E6 BC A2", 2, 4, "a010000000104 t3C d t d");
    s.draws("E6 BC A2", 0, 1, "t20 t08 r a010000000104 t3E d");
    s.draws("61 E6 BC A2 62", 1, 10, "a010000000104 t3C d t2062 c d");
    s.draws("61 E6 BC A2", 1, 10, "a010000000104 t3C d t c d");
    s.draws("F3 A0 84 80", 0, 9, "a00000002 t3C552B45303130303E d");
    s.draws(
        "CC 81 CC 80",
        0,
        16,
        "a00000002 t3C552B303330313E t3C552B303330303E d",
    );
    let red_then_green = "1B '[41m' 1B '[K' 1B '[42m' 61";
    s.draws(red_then_green, 0, 9, "a00000000000000000102 t61 c0101 d");
    s.draws("'ab' 1B '[41m' 1B '[K'", 0, 9, "t6162 c0101 d");
    s.draws(
        "'ab' 1B '[41m' 1B '[K'",
        0,
        1,
        "t61 t08 r a010000000104 t3E d",
    );
    s.draws_row("'abcd' 1B '[41m' 1B '[K'", [0, 1, 2, 1], "t6162 d");
    s.draws_row("'abc' 1B '[41m' 1B '[K'", [1, 1, 2, 1], "t63 c0101 d");
    s.draws("'ab'", 0, 2, "t6162 d");
    s.draws("'abc'", 0, 2, "t6162 t08 r a010000000104 t3E d");
    s.draws("", 0, 0, "d");
    s.say(draw_window(b"", 0, 0), Says::Count(31));
    s.draws("1B ']8;;u' 07 1B", 0, 4, "a00000002 t3C31423E d");
    s.draws(
        "1B '(0q' 1B '[mq' 1B '(Bq'",
        0,
        3,
        "tE29480 d tE29480 t71 d",
    );
    let linked = bytes("1B ']8;;u' 07 61");
    let matched = draw_window_with(&linked, &[7, 8], 0, 0, 1);
    s.say(
        matched,
        Says::Changes("a000000000100000001060000000000000500000001 t61 d"),
    );
    let drawn = draw_window_with(&bytes("1B '(0q'"), &[3, 4], NONE, 0, 1);
    s.say(drawn, Says::Changes("a00000000010000000103 tE29480 d"));
    let bold = draw_window_with(&bytes("1B '[1;3mq'"), &[0, 1], NONE, 0, 1);
    s.say(bold, Says::Changes("a00000001010000000103 t71 d"));
}

/// Document 01, "Traps for the translator".
fn traps(list: &mut Vec<Statement>) {
    let mut s = about(list, "traps");
    // tabs stop at multiples of 8 of the line's column, not of the row's
    s.rows("'abcdef' 09 'x'", 5, 1, &[(0, 5), (5, 9)]);
    s.rows("'abc' 09 'de' 09 'f'", 10, 2, &[(0, 16), (16, 17)]);
    // a style that the source leaves on
    s.converts("61 08 61 62 08 08 63", "1B 5B 31 6D 63");
    s.converts("5F 08 61 62 08 08 63 64", "1B 5B 34 6D 63 64");
    // clusters across an Invalid byte
    s.reads("65 FF CC 81", &[TEXT, INVALID, UNPRINTABLE]);
    s.rows("E1 84 80 FF E1 85 A1", 80, 1, &[(0, 14)]);
    s.reads("0D FF 0A", &[CONTROL, INVALID, LF]);
    // nothing padded
    s.draws("E6 BC A2 E6 BC A2", 2, 4, "a010000000104 t3C d t d");
}
