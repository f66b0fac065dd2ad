//! The lines that are measured.

/// A kind of line, made in any length by repeating it.
pub struct Kind {
    pub name: &'static str,
    /// The parts of a line: each takes an equal share of its bytes.
    parts: &'static [&'static [u8]],
    pub hostile: bool,
    /// How many times as fast as the source the library is wanted to be.
    pub wanted: f64,
}

impl Kind {
    /// One repetition.
    pub fn short(&self) -> Vec<u8> {
        self.parts.concat()
    }

    /// A line of `len` bytes.
    pub fn line(&self, len: usize) -> Vec<u8> {
        let share = len / self.parts.len();
        let mut line = Vec::with_capacity(len);
        for part in self.parts {
            let bytes = part.iter().copied().cycle();
            line.extend(bytes.take(share / part.len() * part.len()));
        }
        let fill = len - line.len();
        line.extend(std::iter::repeat_n(b' ', fill));
        line
    }
}

const fn common(name: &'static str, wanted: f64, parts: &'static [&'static [u8]]) -> Kind {
    Kind {
        name,
        parts,
        hostile: false,
        wanted,
    }
}

const fn hostile(name: &'static str, parts: &'static [&'static [u8]]) -> Kind {
    Kind {
        name,
        parts,
        hostile: true,
        wanted: 2.0,
    }
}

const LOG: &[u8] = b"2024-05-17T08:14:22.517Z rx-07 sweep 118204: gain 41.5 dB, tune 9410 MHz, \
    noise floor -97 dBm, 14 tracks kept\n";

const COLOURED: &[u8] = b"\x1B[32mok\x1B[0m set \x1B[1;38;5;208mtune\x1B[22;39m 9410 MHz, see \
    \x1B]8;;https://bench.example/cards/118204\x1B\\card 118204\x1B]8;;\x1B\\ \x1B[7mchecked\x1B[27m\x1B[K\n";

const MAN_PAGE: &[u8] = b"N\x08NA\x08AM\x08ME\x08E tune - set the _\x08m_\x08a_\x08g_\x08n_\x08e_\x08t_\x08r_\x08o_\x08n of a \
    r\x08re\x08ec\x08ce\x08ei\x08iv\x08ve\x08er\x08r by _\x08s_\x08t_\x08e_\x08p_\x08s\n";

const SCRIPTS: &[u8] = "Höhe 12 м · 受信機 調整値 9410 · 송신기 각도 · e\u{301}cho \u{1F6A2} \u{1F1F3}\u{1F1F4} 完了\n".as_bytes();

const NOISY: &[u8] =
    b"rx-03 \xFF\xFEsweep 11\xC08204: g\xF5in 41.5 dB\xE6\xBC tune\x80 94\xF8\xF810 \
    MHz \x00\x01 noise\x7F floor\xED\xA0\x80\n";

/// A family of four, joined.
const FAMILY: &str = "\u{1F468}\u{200D}\u{1F469}\u{200D}\u{1F467}\u{200D}\u{1F466}";

/// A letter with 1,022 marks and a ZWJ: no picture after them joins (GB11), which a look back over
/// all the marks tells.
const MARKED: [u8; 2048] = {
    let (mark, joiner) = ("\u{301}".as_bytes(), "\u{200D}".as_bytes());
    let mut line = [b'a'; 2048];
    let mut i = 1;
    while i < 2048 {
        line[i] = if i < 2045 { mark[(i - 1) % 2] } else { joiner[i - 2045] };
        i += 1;
    }
    line
};

/// 16 regional indicators and the 8 backspaces that erase them.
const CYCLE: [u8; 72] = {
    let indicator = "\u{1F1E6}".as_bytes();
    let mut cycle = [8; 72];
    let mut i = 0;
    while i < 64 {
        cycle[i] = indicator[i % 4];
        i += 1;
    }
    cycle
};

pub static KINDS: [Kind; 30] = [
    common("plain log line", 3.0, &[LOG]),
    common("coloured, with a link", 3.0, &[COLOURED]),
    common("man page", 2.0, &[MAN_PAGE]),
    common("mixed scripts", 2.0, &[SCRIPTS]),
    common("noisy line", 2.0, &[NOISY]),
    hostile("indicators, backspaces", &["\u{1F1E6}".as_bytes(), b"\x08"]),
    hostile(
        "indicators, erasures",
        &["\u{1F1E6}".as_bytes(), b"ba\x08\x08a\x08\x08"],
    ),
    hostile("indicators", &["\u{1F1E6}".as_bytes()]),
    hostile("marks, backspaces", &["\u{301}".as_bytes(), b"\x08"]),
    hostile("marks", &["\u{301}".as_bytes()]),
    hostile("backspaces", &[b"\x08"]),
    hostile("letters, backspaces", &[b"a", b"\x08"]),
    hostile("struck letters", &[b"a\x08"]),
    hostile("struck accents", &["e\u{301}\u{8}e\u{301}".as_bytes()]),
    hostile("bold wide characters", &["漢\u{8}漢".as_bytes()]),
    hostile("underlined wide", &["_\u{8}漢".as_bytes()]),
    hostile("bold syllables", &["각\u{8}각".as_bytes()]),
    hostile("bold emoji", &["🚢\u{8}🚢".as_bytes()]),
    hostile("bold flags", &["🇳🇴\u{8}🇳🇴".as_bytes()]),
    hostile(
        "bold jamo",
        &["\u{1100}\u{1161}\u{8}\u{1100}\u{1161}".as_bytes()],
    ),
    hostile(
        "indicators, nested runs",
        &["\u{1F1E6}".as_bytes(), "\u{1F1E6}x\u{8}\u{8}".as_bytes()],
    ),
    hostile("indicators, cycles", &["\u{1F1E6}".as_bytes(), &CYCLE]),
    hostile("joined emoji", &[FAMILY.as_bytes()]),
    hostile(
        "marks, ZWJ, pictures erased",
        &[&MARKED, "\u{1F469}x\u{8}\u{8}".as_bytes()],
    ),
    hostile("ESC", &[b"\x1B"]),
    hostile("ESC [ 1 ;", &[b"\x1B[1;1;1;1;1;1;1"]),
    hostile("ESC ] 8 ; ; u", &[b"\x1B]8;;u"]),
    hostile("one word", &[b"a"]),
    hostile("spaces", &[b" "]),
    hostile("tabs", &[b"\t"]),
];

/// For screen rows.
pub static WIDE: Kind = hostile("wide characters", &["漢".as_bytes()]);

/// For rows at width 0.
pub static HYPHENS: Kind = hostile("hyphens", &[b"-"]);
