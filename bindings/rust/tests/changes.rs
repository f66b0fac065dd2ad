//! Taking change lists apart: what the iterator takes is what question 10 of `store` takes, for
//! any bytes.

mod random;
#[path = "../examples/recorded/mod.rs"]
#[allow(dead_code)]
mod recorded;

use console_lines::{draw_window, store, Changes, Malformed, Refusal, View};
use random::Random;
use recorded::{Call, Recorded};

const RECORDED: &str = include_str!("../../../crates/vectors/stdout");

/// Whether the list is well formed, by the iterator; `store` must say the same, and an error
/// must be the last.
fn is_well_formed(list: &[u8]) -> bool {
    let changes: Vec<Result<_, Malformed>> = Changes::new(list).collect();
    let errors = changes.iter().filter(|change| change.is_err()).count();
    let well_formed = errors == 0;
    assert!(well_formed || errors == 1 && changes.last().is_some_and(Result::is_err));
    let stored = store(list);
    assert_eq!(
        well_formed,
        stored != Err(Refusal::ListMalformed),
        "{list:?}"
    );
    well_formed
}

/// The lists that the recorded cases read.
fn recorded_lists() -> Vec<Vec<u8>> {
    let cases = recorded::cases(RECORDED);
    let lists = cases.filter_map(|(_, _, recorded)| match recorded {
        Recorded::Case(case) => match case.call {
            Call::Store | Call::ScreenRow { .. } => Some(case.input),
            _ => None,
        },
        _ => None,
    });
    lists.collect()
}

#[test]
fn recorded_lists_are_taken_as_by_store() {
    let lists = recorded_lists();
    let well_formed = lists.iter().filter(|list| is_well_formed(list)).count();
    assert!(well_formed > 100 && lists.len() - well_formed > 50);
}

#[test]
fn damaged_lists_are_taken_as_by_store() {
    let random = &mut Random::new(10);
    let mut taken = [0; 2];
    for list in recorded_lists().iter().filter(|list| !list.is_empty()) {
        for _ in 0..200 {
            let mut list = list.clone();
            for _ in 0..=random.below(2) {
                let place = random.below(list.len());
                list[place] = [0, 1, 2, 3, 4, 24, 25, 31, 32, 0x80, 0xFF, random.below(256)]
                    [random.below(12)] as u8;
            }
            list.truncate(list.len() - random.below(2) * random.below(list.len()));
            taken[usize::from(is_well_formed(&list))] += 1;
        }
    }
    assert!(taken.iter().all(|count| *count > 5_000), "{taken:?}");
}

#[test]
fn any_bytes_are_taken_as_by_store() {
    let random = &mut Random::new(4);
    for _ in 0..20_000 {
        let list: Vec<u8> = (0..random.below(64))
            .map(|_| [0, 0, 0, 1, 2, 3, 4, 25, b'a', 0xFF][random.below(10)])
            .collect();
        is_well_formed(&list);
    }
}

#[test]
fn a_drawings_list_is_well_formed() {
    for line in [
        "",
        "a\tb",
        "\x1B[1;31ma\x1B[K\x1B]8;;u\x07漢\u{301}",
        "\u{200B}",
    ] {
        for window in [0..80, 0..1, 1..3, 5..9] {
            if let Ok(drawn) = draw_window(line.as_bytes(), &View::default(), window) {
                let changes: Result<Vec<_>, Malformed> = Changes::new(&drawn.list).collect();
                assert_eq!(changes, Ok(drawn.changes().collect()));
            }
        }
    }
}
