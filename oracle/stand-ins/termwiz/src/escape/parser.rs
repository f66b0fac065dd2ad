//! The sequences read at ESC: document 01, "Spans". Each function takes the
//! bytes of the valid run behind what it is named after.

use super::csi::{Cursor, Edit, EraseInLine, Sgr, CSI};
use super::esc::{Esc, EscCode};
use super::osc::OperatingSystemCommand;
use super::Action;
use crate::cell::{Blink, Intensity, Underline, VerticalAlign};
use crate::color::ColorAttribute::{self, Default, PaletteIndex, TrueColor};
use crate::hyperlink::Hyperlink;

/// Final bytes that are Ignore after digits and `;`.
const IGNORED: &[u8] = b"@ABCDEFGHJLMPSTXZdf";
const MOST_PARAMETERS: usize = 32;
const LARGEST_PARAMETER: u32 = 65_535;

pub struct Parser;

impl Parser {
    #[allow(clippy::new_without_default)]
    pub fn new() -> Parser {
        Parser
    }

    /// The sequence at the start of `bytes`: its actions and its length.
    pub fn parse_first_as_vec(&mut self, bytes: &[u8]) -> Option<(Vec<Action>, usize)> {
        let (actions, len) = sequence(bytes)?;
        trace::sequence(&bytes[..len]);
        Some((actions, len))
    }
}

fn sequence(bytes: &[u8]) -> Option<(Vec<Action>, usize)> {
    let rest = bytes.get(2..)?;
    let (actions, len) = match &bytes[..2] {
        b"\x1B[" => control_sequence(rest)?,
        b"\x1B]" => hyperlink(rest)?,
        b"\x1B(" => charset(rest)?,
        _ => return None,
    };
    Some((actions, 2 + len))
}

/// `ESC (`.
fn charset(bytes: &[u8]) -> Option<(Vec<Action>, usize)> {
    let code = match bytes.first()? {
        b'0' => EscCode::DecLineDrawingG0,
        b'B' => EscCode::AsciiCharacterSetG0,
        _ => return None,
    };
    Some((vec![Action::Esc(Esc::Code(code))], 1))
}

/// `ESC ]`: a hyperlink.
fn hyperlink(bytes: &[u8]) -> Option<(Vec<Action>, usize)> {
    let rest = bytes.strip_prefix(b"8;")?;
    let semicolon = rest.iter().position(|&b| b == b';' || voids(b))?;
    if rest[semicolon] != b';' {
        return None;
    }
    let uri_and_end = &rest[semicolon + 1..];
    let uri_len = uri_and_end.iter().position(|&b| voids(b))?;
    let end_len = match &uri_and_end[uri_len..] {
        [0x07, ..] => 1,
        [0x1B, b'\\', ..] => 2,
        _ => return None,
    };
    let uri = &uri_and_end[..uri_len];
    let link = (!uri.is_empty()).then(|| Hyperlink::read_from(uri));
    let command = OperatingSystemCommand::SetHyperlink(link);
    let len = 2 + semicolon + 1 + uri_len + end_len;
    Some((vec![Action::OperatingSystemCommand(Box::new(command))], len))
}

/// A byte that ends a hyperlink or voids it.
fn voids(byte: u8) -> bool {
    byte < 0x20 || byte == 0x7F
}

/// `ESC [`.
fn control_sequence(bytes: &[u8]) -> Option<(Vec<Action>, usize)> {
    let is_parameter = |b: &&u8| b.is_ascii_digit() || **b == b';';
    let len = bytes.iter().take_while(is_parameter).count();
    let parameters = &bytes[..len];
    let actions = match *bytes.get(len)? {
        b'm' => style_order(parameters)?,
        b'K' => vec![Action::CSI(CSI::Edit(Edit::EraseInLine(erase(
            parameters,
        )?)))],
        last if IGNORED.contains(&last) => vec![Action::CSI(CSI::Cursor(Cursor(last)))],
        _ => return None,
    };
    Some((actions, len + 1))
}

/// The parameters of `K`, taken as exact bytes.
fn erase(parameters: &[u8]) -> Option<EraseInLine> {
    match parameters {
        b"" | b"0" => Some(EraseInLine::EraseToEndOfLine),
        b"1" => Some(EraseInLine::EraseToStartOfLine),
        b"2" => Some(EraseInLine::EraseLine),
        _ => None,
    }
}

/// The form is judged on the whole sequence first; then the reading stops at
/// the first unknown parameter, and if that is the first one nothing is recognised.
fn style_order(parameters: &[u8]) -> Option<Vec<Action>> {
    let numbers: Vec<u32> = parameters.split(|&b| b == b';').map(number).collect();
    if numbers.len() > MOST_PARAMETERS || numbers.iter().any(|&n| n > LARGEST_PARAMETER) {
        return None;
    }
    let mut actions = Vec::new();
    let mut rest = &numbers[..];
    while let Some((sgr, taken)) = order(rest) {
        actions.push(Action::CSI(CSI::Sgr(sgr)));
        rest = &rest[taken..];
    }
    (!actions.is_empty()).then_some(actions)
}

/// A parameter's value, an empty one being 0; past the largest it stays there.
fn number(digits: &[u8]) -> u32 {
    digits.iter().fold(0, |value: u32, &digit| {
        (value * 10 + u32::from(digit - b'0')).min(LARGEST_PARAMETER + 1)
    })
}

/// The known parameter, or group of them, that `numbers` begins with, and how
/// many numbers it takes.
fn order(numbers: &[u32]) -> Option<(Sgr, usize)> {
    let parameter = *numbers.first()?;
    let coloured = |set: fn(ColorAttribute) -> Sgr| {
        let (color, taken) = colour(&numbers[1..])?;
        Some((set(color), 1 + taken))
    };
    match parameter {
        38 => coloured(Sgr::Foreground),
        48 => coloured(Sgr::Background),
        58 => coloured(Sgr::UnderlineColor),
        _ => single(parameter).map(|sgr| (sgr, 1)),
    }
}

fn single(parameter: u32) -> Option<Sgr> {
    let palette = |first: u32| PaletteIndex((parameter - first) as u8);
    Some(match parameter {
        0 => Sgr::Reset,
        1 => Sgr::Intensity(Intensity::Bold),
        2 => Sgr::Intensity(Intensity::Half),
        3 => Sgr::Italic(true),
        4 => Sgr::Underline(Underline::Single),
        5 => Sgr::Blink(Blink::Slow),
        6 => Sgr::Blink(Blink::Rapid),
        7 => Sgr::Inverse(true),
        8 => Sgr::Invisible(true),
        9 => Sgr::StrikeThrough(true),
        21 => Sgr::Underline(Underline::Double),
        22 => Sgr::Intensity(Intensity::Normal),
        23 => Sgr::Italic(false),
        24 => Sgr::Underline(Underline::None),
        25 => Sgr::Blink(Blink::None),
        27 => Sgr::Inverse(false),
        28 => Sgr::Invisible(false),
        29 => Sgr::StrikeThrough(false),
        30..=37 => Sgr::Foreground(palette(30)),
        39 => Sgr::Foreground(Default),
        40..=47 => Sgr::Background(palette(40)),
        49 => Sgr::Background(Default),
        53 => Sgr::Overline(true),
        55 => Sgr::Overline(false),
        59 => Sgr::UnderlineColor(Default),
        73 => Sgr::VerticalAlign(VerticalAlign::SuperScript),
        74 => Sgr::VerticalAlign(VerticalAlign::SubScript),
        75 => Sgr::VerticalAlign(VerticalAlign::BaseLine),
        90..=97 => Sgr::Foreground(palette(90 - 8)),
        100..=107 => Sgr::Background(palette(100 - 8)),
        _ => return None,
    })
}

/// Behind 38, 48 or 58: 5 and an index, or 2 and three numbers, all at most 255.
fn colour(numbers: &[u32]) -> Option<(ColorAttribute, usize)> {
    let byte = |n: u32| u8::try_from(n).ok();
    match *numbers {
        [5, index, ..] => Some((PaletteIndex(byte(index)?), 2)),
        [2, red, green, blue, ..] => Some((TrueColor(byte(red)?, byte(green)?, byte(blue)?), 4)),
        _ => None,
    }
}
