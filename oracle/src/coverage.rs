//! Counts of what a list of cases covers.

use crate::answer::Answer;
use crate::call::{Call, Case, Sizes};
use crate::changes;
use crate::generate::{self, SINGLE_PARAMETERS};
use std::collections::{BTreeMap, BTreeSet};
use streampager::probe::line_drawn;

/// The numbers that a call can return, 0 included.
fn numbers(name: &str) -> &'static [usize] {
    match name {
        "convert" => &[0, 1, 2],
        "read" => &[0, 1, 2, 3, 4],
        "rows" => &[0, 1, 2, 4, 5, 6],
        "height" => &[0, 1, 2, 4, 5],
        "draw_window" => &[0, 1, 2, 3, 4, 5, 7, 8, 9],
        _ => &[0, 1, 2, 3, 4, 5, 8, 9],
    }
}

#[derive(Default)]
pub struct Coverage {
    cases: usize,
    /// Cases by call and return number.
    returned: BTreeMap<(&'static str, usize), usize>,
    /// Accepted cases by call and mode.
    modes: BTreeMap<(&'static str, usize), usize>,
    /// Accepted cases by call that were given matches.
    matched: BTreeMap<&'static str, usize>,
    /// Spans by kind, in accepted readings.
    kinds: BTreeMap<usize, usize>,
    /// Bytes that are a line by themselves.
    single_bytes: BTreeSet<u8>,
    /// Scalars in accepted lines.
    scalars: BTreeSet<u32>,
    /// First parameters of the style orders drawn.
    parameters: BTreeSet<u32>,
    /// Texts drawn.
    texts: BTreeSet<String>,
    /// The longest line, and the largest sizes lent.
    longest: usize,
    lent: Sizes,
}

impl Coverage {
    pub fn add(&mut self, case: &Case) {
        let answer = case.answer();
        let name = case.call.name();
        self.cases += 1;
        self.longest = self.longest.max(case.line.len());
        for (largest, size) in self.lent.iter_mut().zip(case.sizes()) {
            *largest = size.max(*largest);
        }
        *self.returned.entry((name, answer.number)).or_default() += 1;
        if answer.number != 0 {
            return;
        }
        if let Some(mode) = mode(&case.call) {
            *self.modes.entry((name, mode)).or_default() += 1;
        }
        if !case.call.matches().is_empty() {
            *self.matched.entry(name).or_default() += 1;
        }
        for record in &answer.records {
            *self.kinds.entry(record.kind).or_default() += 1;
        }
        self.single_bytes
            .extend(<[u8; 1]>::try_from(&case.line[..]).map(|[byte]| byte));
        for run in case.line.utf8_chunks() {
            self.scalars.extend(run.valid().chars().map(u32::from));
        }
        if !answer.list.is_empty() {
            self.add_drawing(&answer);
        }
    }

    fn add_drawing(&mut self, answer: &Answer) {
        let orders = answer.records.iter().filter(|record| record.kind == 6);
        let orders = orders.map(|r| &answer.conv[r.place..r.place + r.len]);
        self.parameters.extend(orders.filter_map(first_parameter));
        for (kind, body) in changes::decode(&answer.list) {
            if kind == 1 {
                self.texts
                    .insert(String::from_utf8_lossy(body).into_owned());
            }
        }
    }

    /// What is missing of all that a sample must hold.
    pub fn missing(&self) -> Vec<String> {
        let mut wanted = self.wanted_calls();
        wanted.extend(self.wanted_texts());
        wanted.extend(self.wanted_sequences());
        let missing = wanted.into_iter().filter(|(there, _)| !there);
        missing.map(|(_, what)| what).collect()
    }

    /// Each call with each number, mode, and with matches.
    fn wanted_calls(&self) -> Vec<(bool, String)> {
        let mut wanted = Vec::new();
        for name in Call::NAMES {
            for &number in numbers(name) {
                let there = self.returned.contains_key(&(name, number));
                wanted.push((there, format!("{name} returning {number}")));
            }
        }
        for name in ["rows", "height", "draw_row"] {
            for mode in 0..5 {
                let there = self.modes.contains_key(&(name, mode));
                wanted.push((there, format!("{name} in mode {mode}")));
            }
        }
        for name in ["read", "draw_window", "draw_row"] {
            let there = self.matched.contains_key(name);
            wanted.push((there, format!("{name} with matches")));
        }
        wanted
    }

    /// Each byte by itself, and each range of the profile at its ends.
    fn wanted_texts(&self) -> Vec<(bool, String)> {
        let byte = |byte| {
            let there = self.single_bytes.contains(&byte);
            (there, format!("a line of the byte {byte:02X}"))
        };
        let scalar = |scalar| {
            let there = self.scalars.contains(&scalar);
            (there, format!("scalar {scalar:04X}"))
        };
        let bytes = (0..=255).map(byte);
        bytes
            .chain(generate::boundaries().into_iter().map(scalar))
            .collect()
    }

    /// Each kind of span, known parameter and line-drawing replacement.
    fn wanted_sequences(&self) -> Vec<(bool, String)> {
        let kind = |kind| {
            let there = self.kinds.contains_key(&kind);
            (there, format!("span kind {kind}"))
        };
        let parameter = |parameter| {
            let there = self.parameters.contains(&parameter);
            (there, format!("style order {parameter}"))
        };
        let replacement = |byte: u8| {
            let drawn = line_drawn(&char::from(byte).to_string());
            let there = self.texts.contains(&drawn);
            (there, format!("line drawing of {byte:02X}"))
        };
        let kinds = (1..=13).map(kind);
        let parameters = known_parameters().into_iter().map(parameter);
        let replacements = (0x5F..=0x7E).map(replacement);
        kinds.chain(parameters).chain(replacements).collect()
    }

    pub fn print(&self) {
        println!("cases: {}, longest line {}", self.cases, self.longest);
        for name in Call::NAMES {
            self.print_call(name);
        }
        println!("  span kinds {}", listed(&self.kinds));
        println!(
            "  {} single bytes, {} scalars, {} style parameters drawn",
            self.single_bytes.len(),
            self.scalars.len(),
            self.parameters.len()
        );
        let [conv, spans, rows, list] = self.lent;
        println!("  lent at most {conv} bytes, {spans} spans, {rows} numbers, {list} bytes");
    }

    fn print_call(&self, name: &str) {
        let returned = self.returned.iter().filter(|entry| entry.0 .0 == name);
        let returned: BTreeMap<usize, usize> = returned.map(|(key, n)| (key.1, *n)).collect();
        let all: usize = returned.values().sum();
        let matched = self.matched.get(name).copied().unwrap_or(0);
        println!(
            "  {name}: {all} cases, returning {}; accepted with matches {matched}",
            listed(&returned)
        );
    }
}

fn listed(counts: &BTreeMap<usize, usize>) -> String {
    let texts: Vec<String> = counts.iter().map(|(k, n)| format!("{k}: {n}")).collect();
    texts.join(", ")
}

fn mode(call: &Call) -> Option<usize> {
    match *call {
        Call::Rows { mode, .. } | Call::Height { mode, .. } | Call::DrawRow { mode, .. } => {
            Some(mode)
        }
        _ => None,
    }
}

/// The parameters that document 01 knows, 38, 48 and 58 among them.
pub fn known_parameters() -> Vec<u32> {
    let single = SINGLE_PARAMETERS
        .iter()
        .flat_map(|&(first, last)| first..=last);
    single.chain([38, 48, 58]).collect()
}

/// The first parameter that is written in a style order.
fn first_parameter(order: &[u8]) -> Option<u32> {
    let parameters = order.strip_prefix(b"\x1B[")?;
    let digits: Vec<u8> = parameters
        .iter()
        .copied()
        .take_while(u8::is_ascii_digit)
        .collect();
    String::from_utf8(digits).ok()?.parse().ok()
}
