//! Noise bytes exchanged for others: the answers differ in the bytes exchanged and in
//! the digits of their marks alone.

use super::{is_noise, reading, row, short_lines, window};
use super::{Half, Program, Said, Symbols, INVALID};
use crate::answer::Answer;
use crate::call::{Call, Case};
use crate::changes;
use crate::drawn::{self, Window};
use crate::generate::{self, NOISE};
use crate::random::Random;
use crate::statements;
use std::collections::BTreeMap;

/// The same call on two lines of equal length that differ only at places where both
/// hold a noise byte.
pub struct Exchange {
    one: Case,
    two: Case,
}

impl Half for Exchange {
    const NAME: &'static str = "exchange";
    const FURTHER: &'static str = "with other digits";

    fn random(random: &mut Random) -> Exchange {
        let line = noisy_line(random);
        let other = exchanged(random, &line);
        let one = generate::case_on(random, &line, false);
        let two = one.on(&other);
        Exchange { one, two }
    }

    fn short() -> impl Iterator<Item = Exchange> {
        let mut lines = short_lines(BYTES, 4);
        lines.retain(|line| line.contains(&0xFF));
        let pairs = lines.into_iter().map(|line| {
            let other = |&byte: &u8| if byte == 0xFF { 0xC0 } else { byte };
            let other: Vec<u8> = line.iter().map(other).collect();
            (line, other)
        });
        let single = |one| NOISE.map(|two| (vec![one], vec![two]));
        let pairs = pairs.chain(NOISE.into_iter().flat_map(single));
        pairs.flat_map(|(line, other)| {
            let on_both = move |call| {
                let one = Case::new(&line, call, [32, 4, 16, 400]);
                let two = one.on(&other);
                Exchange { one, two }
            };
            few_calls().into_iter().map(on_both)
        })
    }

    fn calls(&self) -> Vec<&'static str> {
        match self.one.call {
            Call::DrawRow { .. } => vec!["draw_row", "rows"],
            _ => vec![self.one.call.name()],
        }
    }

    fn check(&self, program: &mut Program) -> Result<Said, String> {
        let (a, b) = (program(&self.one), program(&self.two));
        let fault = |what: &str| Err(format!("# exchange: {what}\n{}\n{}", self.one, self.two));
        if (a.number, a.count) != (b.number, b.count) {
            return fault("another number or count");
        }
        if a.records != b.records || a.pairs != b.pairs {
            return fault("other spans or rows");
        }
        let accepted = a.number == 0;
        if !self.is_converted_alike(&a, &b) {
            return fault("other converted lines");
        }
        if accepted && self.one.call.is_lent()[3] {
            let alike = self.is_drawn_alike(program, &a, &b);
            if !alike.unwrap_or(false) {
                return fault("other change lists");
            }
        } else if a.list != b.list {
            return fault("other bytes in the change lists");
        }
        Ok(Said {
            accepted,
            further: a.list != b.list,
        })
    }
}

impl Exchange {
    /// Whether the converted lines differ at most in the noise bytes exchanged: each
    /// has the noise bytes of its line in their order.
    fn is_converted_alike(&self, a: &Answer, b: &Answer) -> bool {
        if a.number != 0 {
            return a.conv == b.conv;
        }
        let noise = |bytes: &[u8]| -> Vec<u8> { bytes.iter().copied().filter(is_noise).collect() };
        let mut places = a.conv.iter().zip(&b.conv);
        a.conv.len() == b.conv.len()
            && places.all(|(a, b)| a == b || is_noise(a) && is_noise(b))
            && noise(&a.conv) == noise(&self.one.line)
            && noise(&b.conv) == noise(&self.two.line)
    }

    /// Whether the change lists are equal in every byte but the digits of the marks of
    /// bytes exchanged, and each has its own line's digits there. None where a list is
    /// none.
    fn is_drawn_alike(&self, program: &mut Program, a: &Answer, b: &Answer) -> Option<bool> {
        let window = self.window(program)?;
        let exchanged = |place: usize| a.conv[place] != b.conv[place];
        let digits_a = self.digits(window, a, exchanged)?;
        let digits_b = self.digits(window, b, exchanged)?;
        let own = |list: &[u8], digits: &Digits| {
            let mut digits = digits.iter();
            digits.all(|(&place, digit)| list.get(place) == Some(digit))
        };
        let equal = |place| digits_a.contains_key(&place) || a.list[place] == b.list[place];
        Some(
            a.list.len() == b.list.len()
                && digits_a.keys().eq(digits_b.keys())
                && own(&a.list, &digits_a)
                && own(&b.list, &digits_b)
                && (0..a.list.len()).all(equal),
        )
    }

    /// The window of the drawing, the same for both lines.
    fn window(&self, program: &mut Program) -> Option<Window> {
        match self.one.call {
            Call::DrawWindow { start, end, .. } => Some(Window::of_columns(start, end)),
            Call::DrawRow {
                first,
                count,
                width,
                mode,
                ..
            } => {
                let rows = program(&statements::rows(&self.one.line, width, mode));
                let pairs = rows.pairs.get(..2 * rows.count)?.chunks(2);
                let rows: Vec<_> = pairs.map(|pair| (pair[0], pair[1])).collect();
                Some(Window::of_rows(&rows, first, count))
            }
            _ => None,
        }
    }

    /// Where the list has digits of marks of bytes exchanged, and which its own line's
    /// are. Each text handed on that meets the window is one text change, behind the
    /// left arrow where there is one. None where the list has fewer.
    fn digits(
        &self,
        window: Window,
        answer: &Answer,
        exchanged: impl Fn(usize) -> bool,
    ) -> Option<Digits> {
        let changes = changes::places(answer.list.get(..answer.count)?)?;
        let mut texts = changes.into_iter().filter(|(kind, _)| *kind == 1);
        if matches!(self.one.call, Call::DrawWindow { start, .. } if start > 0) {
            texts.next()?;
        }
        let mut digits = Digits::new();
        for mark in marks(window, answer, exchanged) {
            let (_, body) = texts.next()?;
            let shown = mark.iter().flat_map(|mark| mark.bytes().enumerate());
            let shown = shown.filter(|(_, byte)| byte.is_ascii_hexdigit());
            digits.extend(shown.map(|(index, digit)| (body.start + index, digit)));
        }
        Some(digits)
    }
}

/// Digits of marks, by their places in a change list.
type Digits = BTreeMap<usize, u8>;

/// For each text handed on that meets the window: what is shown of the mark, where it
/// is that of a byte exchanged.
fn marks(
    window: Window,
    answer: &Answer,
    exchanged: impl Fn(usize) -> bool,
) -> Vec<Option<String>> {
    let mut marks = Vec::new();
    drawn::each_text(&answer.conv, &answer.records, |drawn| {
        let begin = drawn.begin;
        if !window.meets(begin, begin + drawn.width) {
            return;
        }
        let record = answer.records[drawn.record];
        let is_mark = record.kind == INVALID && exchanged(record.place);
        marks.push(is_mark.then(|| {
            let from = window.start.saturating_sub(begin);
            let upto = (window.end - begin).min(drawn.text.len());
            drawn.text[from..upto].to_string()
        }));
    });
    marks
}

/// A line in which noise bytes were put anywhere, at least one.
fn noisy_line(random: &mut Random) -> Vec<u8> {
    let mut line = generate::any_line(random);
    for _ in 0..random.between(1, 4) {
        let place = random.below(line.len() + 1);
        line.insert(place, random.pick(&NOISE));
    }
    line
}

fn exchanged(random: &mut Random, line: &[u8]) -> Vec<u8> {
    let mut other = line.to_vec();
    for byte in other.iter_mut().filter(|byte| is_noise(byte)) {
        if random.percent(80) {
            *byte = random.pick(&NOISE);
        }
    }
    other
}

const BYTES: Symbols = &[
    b"a", b"-", b"\t", b"\x08", b"\xE6", b"\xBC", b"\xA2", b"\xFF",
];

/// Calls of every kind, with windows and rows that cut a mark at any of its bytes.
fn few_calls() -> Vec<Call> {
    let mut calls = vec![Call::Convert, reading()];
    for (width, mode) in [(0, 1), (3, 1), (5, 1), (0, 2), (3, 2), (5, 2)] {
        calls.extend([Call::Rows { width, mode }, Call::Height { width, mode }]);
        calls.extend([(0, 1), (1, 1), (1, 2)].map(|(first, count)| row(first, count, width, mode)));
    }
    for start in 0..9 {
        calls.extend((start + 1..=10).map(|end| window(start, end)));
    }
    calls
}
