//! Crew's view and bench's view: document 02, U12.

mod exchange;
mod faults;
mod sample;
mod sets;
mod view;

pub use faults::try_faults;
pub use sample::print_sample;
pub use view::{seen_by_crew, View, NAMES};

use crate::comparison::{compare_sets, each_part, Comparison, Set};
use crate::library::Library;
use crate::options::Options;
use crate::tally::{grouped, Differences};
use exchange::Pair;
use std::time::Instant;

/// Compares drawings for each reader, or the given ones, and exchanges URIs; whether all
/// is equal.
pub fn run(options: &Options) -> bool {
    let views = match &options.cases {
        Some(cases) => vec![Set::of("given cases", cases.views.clone())],
        None => sets::views(options.seed),
    };
    let views = compare_sets::<Readers>("readers", &views, options);
    let pairs = match &options.cases {
        Some(_) => Vec::new(),
        None => sets::pairs(options.seed),
    };
    let mut found = Found::default();
    for set in &pairs {
        found.add(run_set(set, options));
    }
    let broken = views.differences.count + found.broken.count;
    let cases = views.cases > 0 && (pairs.is_empty() || found.accepted > 0);
    match broken {
        0 if cases => println!("the crew's view holds"),
        0 => println!("the crew's view has no case"),
        _ => println!("the crew's view DOES NOT HOLD: {} cases", grouped(broken)),
    }
    broken == 0 && cases
}

/// Drawings for any reader.
struct Readers {
    library: Library,
}

impl Comparison for Readers {
    type Case = View;

    fn new() -> Readers {
        let library = Library::new();
        Readers { library }
    }

    fn compare(&mut self, view: &View) -> (usize, Option<String>) {
        let expected = view.answer();
        let answer = self.library.call_for(view.reader, &view.case);
        let difference = self.library.difference(&view.case, &expected, answer);
        let difference = difference.map(|text| format!("# reader {}\n{text}", view.reader));
        (expected.number, difference)
    }
}

/// How many pairs of lines there are, of how many both drawings are accepted, and of how
/// many the list names a URI to the bench.
#[derive(Default)]
struct Found {
    pairs: usize,
    accepted: usize,
    named: usize,
    broken: Differences,
}

impl Found {
    fn add(&mut self, other: Found) {
        self.pairs += other.pairs;
        self.accepted += other.accepted;
        self.named += other.named;
        self.broken.add(other.broken);
    }
}

/// Checks a set of pairs, and prints what was found.
fn run_set(set: &Set<Pair>, options: &Options) -> Found {
    let start = Instant::now();
    let mut whole = Found::default();
    for found in each_part("readers", set, options, check_pairs) {
        whole.add(found);
    }
    println!(
        "readers, {}: {} pairs, {} differ; {} accepted, {} with a URI named to the bench, {:.1} s",
        set.name,
        grouped(whole.pairs),
        grouped(whole.broken.count),
        grouped(whole.accepted),
        grouped(whole.named),
        start.elapsed().as_secs_f64()
    );
    whole.broken.print();
    whole
}

fn check_pairs(pairs: &mut dyn Iterator<Item = Pair>) -> Found {
    let mut library = Library::new();
    let mut found = Found::default();
    for pair in pairs {
        found.pairs += 1;
        match pair.check(&mut |reader, case| library.answer_for(reader, case)) {
            Ok(said) => {
                found.accepted += usize::from(said.accepted);
                found.named += usize::from(said.named);
            }
            Err(text) => found.broken.push(format!("{text}\n{pair}")),
        }
    }
    found
}
