//! Compares the static library with the oracle, case by case.

mod alphabets;
mod cache;
mod calls;
mod cells;
mod comparison;
mod demand3;
mod faults;
mod fewest;
mod lending;
mod lent;
mod library;
mod lines;
mod narrowest;
mod options;
mod orders;
mod picture;
mod readers;
mod screen;
mod sets;
mod soak;
mod stored;
mod tally;
mod threads;
mod units;
mod writing;

use comparison::{compare_sets, Comparison, Set};
use library::Library;
use options::Options;
use std::process::ExitCode;
use std::time::Instant;
use tally::{grouped, Tally};
use writing::Memory;

fn main() -> ExitCode {
    let options = match Options::of(std::env::args().skip(1)) {
        Ok(options) => options,
        Err(message) => {
            eprintln!("compare: {message}\n{}", options::USAGE);
            return ExitCode::from(2);
        }
    };
    let wanted = options::names().filter(|name| options.wants(name));
    let wanted: Vec<&str> = wanted.collect();
    let good = if options.sample {
        print_samples(options.cache);
        true
    } else if let Some(length) = options.soak {
        soak::run(length, &options)
    } else if options.faults && options.cache {
        is_found(cache::try_faults(options.seed))
    } else if options.faults && options.fewest {
        is_found(fewest::try_faults())
    } else if options.faults && options.readers {
        is_found(readers::try_faults(options.seed))
    } else if options.faults {
        plant_faults(&wanted, &options)
    } else if options.demand3 {
        demand3::run(&options)
    } else if options.picture {
        picture::run(&options)
    } else if options.cache {
        cache::run(&options)
    } else if options.fewest {
        fewest::run(&options)
    } else if options.readers {
        readers::run(&options)
    } else {
        compare_calls(&wanted, &options)
    };
    if good {
        ExitCode::SUCCESS
    } else {
        ExitCode::FAILURE
    }
}

/// Prints the samples of the calls that the source has not, or of those with kept wraps
/// alone.
fn print_samples(cache_alone: bool) {
    if cache_alone {
        return cache::print_sample();
    }
    screen::print_sample();
    readers::print_sample();
    cache::print_sample();
    stored::print_sample();
    cells::print_sample();
    narrowest::print_sample();
}

/// Plants faults behind the calls and, where none is singled out, in demand 3, in the row
/// picture, behind the calls with kept wraps, in fewest rows and in the crew's view; whether
/// all are found.
fn plant_faults(calls: &[&'static str], options: &Options) -> bool {
    let missed = calls.iter().filter(|&&call| match call {
        screen::NAME => !screen::try_faults(),
        stored::STORE | stored::RESTORE => !stored::try_faults(call),
        cells::NAME => !cells::try_faults(),
        narrowest::NAME => !narrowest::try_faults(),
        _ => !faults::try_faults(call, options.seed),
    });
    let mut good = missed.count() == 0 && !calls.is_empty();
    if options.is_whole() {
        good &= demand3::try_faults(options.seed);
        good &= picture::try_faults(options.seed);
        good &= cache::try_faults(options.seed);
        good &= fewest::try_faults();
        good &= readers::try_faults(options.seed);
    }
    is_found(good)
}

fn is_found(all: bool) -> bool {
    println!("{}", if all { "all found" } else { "NOT ALL FOUND" });
    all
}

/// Compares the calls and, where none is singled out, runs demand 3, the row picture, the
/// calls with kept wraps, fewest rows and the crew's view; whether all is equal and holds.
fn compare_calls(calls: &[&'static str], options: &Options) -> bool {
    let start = Instant::now();
    let mut total = Tally::default();
    for call in calls {
        total.add(compare_call(call, options));
    }
    let seconds = start.elapsed().as_secs_f64();
    println!("total: {total}, {seconds:.1} s");
    let equal = is_equal(&total);
    let further: [fn(&Options) -> bool; 5] = [
        demand3::run,
        picture::run,
        cache::run,
        fewest::run,
        readers::run,
    ];
    let broken = further.iter().filter(|run| !run(options));
    let holds = !options.is_whole() || broken.count() == 0;
    equal && holds
}

fn is_equal(total: &Tally) -> bool {
    let differ = total.differences.count;
    if total.cases == 0 {
        println!("nothing compared");
    } else if differ == 0 {
        println!("all equal");
    } else {
        println!("NOT EQUAL: {} differ", grouped(differ));
    }
    total.cases > 0 && differ == 0
}

fn compare_call(call: &'static str, options: &Options) -> Tally {
    let seed = options.seed;
    let given = options.cases.as_ref();
    match call {
        screen::NAME => {
            let given = given.map(|cases| cases.screen_rows.clone());
            compare::<Memory<screen::Case>>(call, given, &|| screen::sets(seed), options)
        }
        stored::STORE | stored::RESTORE => {
            let given = given.map(|cases| {
                let cases = cases.stored.iter().filter(|case| case.name() == call);
                cases.cloned().collect()
            });
            compare::<Memory<stored::Case>>(call, given, &|| stored::sets(call, seed), options)
        }
        cells::NAME => {
            let given = given.map(|cases| cases.cells.clone());
            compare::<Memory<cells::Case>>(call, given, &|| cells::sets(seed), options)
        }
        narrowest::NAME => {
            let given = given.map(|cases| cases.narrowest.clone());
            compare::<narrowest::Fitter>(call, given, &|| narrowest::sets(seed), options)
        }
        _ => {
            let given = given.map(|cases| {
                let cases = cases.calls.iter().filter(|case| case.call.name() == call);
                cases.cloned().collect()
            });
            compare::<Library>(call, given, &|| sets::sets(call, seed), options)
        }
    }
}

/// Compares the given cases or, without them, the sets of a call.
fn compare<L: Comparison>(
    call: &str,
    given: Option<Vec<L::Case>>,
    sets: &dyn Fn() -> Vec<Set<L::Case>>,
    options: &Options,
) -> Tally
where
    L::Case: Clone + Sync + Send + 'static,
{
    let sets = match given {
        Some(cases) => vec![Set::of("given cases", cases)],
        None => sets(),
    };
    compare_sets::<L>(call, &sets, options)
}
