//! Noise between two parts: the spans of the line are those of the parts.

use super::{reading, row, short_lines, window};
use super::{Half, Program, Said, Symbols, INVALID};
use crate::answer::Answer;
use crate::call::{Call, Case};
use crate::generate::{self, any_line, NOISE};
use crate::random::Random;
use streampager::probe::Record;

pub struct Separation {
    first: Vec<u8>,
    noise: Vec<u8>,
    second: Vec<u8>,
    /// Reading the line without matches.
    reading: Case,
    /// Any call on the line without matches.
    other: Case,
}

impl Half for Separation {
    const NAME: &'static str = "separation";
    const FURTHER: &'static str = "other calls compared";

    fn random(random: &mut Random) -> Separation {
        let (first, second) = if random.percent(50) {
            cut_line(random)
        } else {
            (any_line(random), any_line(random))
        };
        let most = random.pick(&[1, 2, 3, 12]);
        let noise: Vec<u8> = (0..random.between(1, most))
            .map(|_| random.pick(&NOISE))
            .collect();
        let line = [&first[..], &noise, &second].concat();
        let conv = generate::size(random, 8 * line.len());
        Separation {
            first,
            noise,
            second,
            reading: generate::reading(random, &line, conv, false),
            other: generate::case_on(random, &line, false),
        }
    }

    fn short() -> impl Iterator<Item = Separation> {
        let parts = short_lines(BYTES, 3);
        let clusters = short_lines(CLUSTERS, 2);
        let pairs = each_two(parts).chain(each_two(clusters)).enumerate();
        pairs.map(|(number, (first, second))| {
            let noise = vec![NOISE[number % NOISE.len()]];
            let line = [&first[..], &noise, &second].concat();
            let (width, mode) = (2, 2);
            let other = match number % 5 {
                0 => Call::Convert,
                1 => Call::Rows { width, mode },
                2 => Call::Height { width, mode },
                3 => window(0, 9),
                _ => row(0, 2, width, mode),
            };
            let sizes = [
                8 * line.len(),
                line.len(),
                4 * line.len(),
                40 * line.len() + 80,
            ];
            Separation {
                first,
                noise,
                second,
                reading: Case::new(&line, reading(), sizes),
                other: Case::new(&line, other, sizes),
            }
        })
    }

    fn calls(&self) -> Vec<&'static str> {
        match self.other.call {
            Call::Convert | Call::Read { .. } => vec!["convert", "read"],
            _ => vec!["convert", "read", self.other.call.name()],
        }
    }

    fn check(&self, program: &mut Program) -> Result<Said, String> {
        let read = program(&self.reading);
        if read.number != 0 {
            return Ok(Said::default());
        }
        let fault = |what: &str, case: &Case| {
            let (first, noise) = (self.first.len(), self.noise.len());
            Err(format!(
                "# separation: {what}; {noise} noise bytes behind {first} bytes\n{case}"
            ))
        };
        let whole = Part::of(read, program, &self.reading);
        let [first, second] = [&self.first, &self.second].map(|part| {
            let reading = self.reading.on(part);
            let read = program(&reading);
            Part::of(read, program, &reading)
        });
        let (Some(whole), Some(first), Some(second)) = (whole, first, second) else {
            return fault("a part is refused, or not as its conversion", &self.reading);
        };
        if whole != self.joined(&first, &second) {
            return fault("not the parts' spans", &self.reading);
        }
        let other = program(&self.other);
        let further = other.number == 0;
        let same = holds(&other.conv, &whole.conv)
            && (self.other.call == Call::Convert || holds(&other.records, &whole.records));
        if further && !same {
            return fault("another call leaves other spans", &self.other);
        }
        Ok(Said {
            accepted: true,
            further,
        })
    }
}

const BYTES: Symbols = &[b"a", b"_", b"\x08", b"\x1B", b"\xC3", b"\xA9", b"\r", b"\n"];

/// What joins what stands before it, what is joined, and what is read together.
const CLUSTERS: Symbols = &[
    b"e",
    b"\xCC\x81",
    b"\xE2\x80\x8D",
    b"\xF0\x9F\x87\xA6",
    b"\xE1\x84\x80",
    b"\xE1\x85\xA1",
    b"\x08",
    b"\x1B[1",
    b"m",
    b"\x1B]8;;",
    b"\x07",
];

fn each_two(parts: Vec<Vec<u8>>) -> impl Iterator<Item = (Vec<u8>, Vec<u8>)> {
    (0..parts.len() * parts.len()).map(move |number| {
        let (first, second) = (number / parts.len(), number % parts.len());
        (parts[first].clone(), parts[second].clone())
    })
}

/// A line cut in two at any place.
fn cut_line(random: &mut Random) -> (Vec<u8>, Vec<u8>) {
    let mut first = any_line(random);
    let second = first.split_off(random.below(first.len() + 1));
    (first, second)
}

/// The records and the converted line of a part, or of the whole line.
#[derive(PartialEq)]
struct Part {
    records: Vec<Record>,
    conv: Vec<u8>,
}

impl Part {
    /// What reading the part gave and converting it gives; none where one is refused or
    /// they leave different converted lines.
    fn of(read: Answer, program: &mut Program, reading: &Case) -> Option<Part> {
        let converting = Case::new(&reading.line, Call::Convert, reading.sizes());
        let converted = program(&converting);
        let records = read.records.get(..read.count)?.to_vec();
        let conv = converted.conv.get(..converted.count)?.to_vec();
        let accepted = read.number == 0 && converted.number == 0;
        let whole = holds(&read.records, &records)
            && holds(&read.conv, &conv)
            && holds(&converted.conv, &conv);
        (accepted && whole).then_some(Part { records, conv })
    }
}

impl Separation {
    /// The first part's records, one for each noise byte, the second part's moved on;
    /// and the converted line, each run converted by itself, other bytes copied.
    fn joined(&self, first: &Part, second: &Part) -> Part {
        let (c, n) = (first.conv.len(), self.noise.len());
        let noise_record = |k| Record {
            kind: INVALID,
            place: c + k,
            len: 1,
            matched: 0,
        };
        let moved = |record: &Record| Record {
            place: record.place + c + n,
            ..*record
        };
        let mut records = first.records.clone();
        records.extend((0..n).map(noise_record));
        records.extend(second.records.iter().map(moved));
        let conv = [&first.conv[..], &self.noise, &second.conv].concat();
        Part { records, conv }
    }
}

/// Whether a buffer holds the items and zeros behind them.
fn holds<T: PartialEq + Default>(buffer: &[T], items: &[T]) -> bool {
    let zero = T::default();
    let rest = buffer.strip_prefix(items);
    rest.is_some_and(|rest| rest.iter().all(|item| *item == zero))
}
