//! Lists in either form, well formed or not.

use super::Case;
use crate::lending::around;
use crate::screen::lists::{altered, any_list};
use oracle::changes::places;
use oracle::random::Random;

/// A stored change with any length in its head.
pub fn with_length(len: u16, kind: u16, body: &[u8]) -> Vec<u8> {
    [&len.to_le_bytes()[..], &kind.to_le_bytes(), body].concat()
}

/// A stored change; of the length only two bytes are kept.
pub fn stored_change(kind: u16, body: &[u8]) -> Vec<u8> {
    with_length(body.len() as u16, kind, body)
}

/// A list in the stored form, if it is a whole number of changes: heads are shortened,
/// bodies stay as they are.
pub fn shortened(list: &[u8]) -> Option<Vec<u8>> {
    let changes = places(list)?.into_iter();
    Some(
        changes
            .flat_map(|(kind, body)| stored_change(kind, &list[body]))
            .collect(),
    )
}

/// The same list, its attributes with any alignment or, some of them, without it.
pub fn resized(random: &mut Random, list: &[u8]) -> Vec<u8> {
    let Some(changes) = places(list) else {
        return list.to_vec();
    };
    let old = random.pick(&[0, 0, 50, 100]);
    let mut resized = Vec::new();
    for (kind, body) in changes {
        let mut body = list[body].to_vec();
        if kind == 2 && matches!(body.len(), 24 | 25) {
            body.truncate(24);
            if !random.percent(old) {
                body.push(random.pick(&[0, 0, 1, 2]));
            }
        }
        resized.extend((body.len() as u32).to_le_bytes());
        resized.extend(kind.to_le_bytes());
        resized.extend(body);
    }
    resized
}

/// A list of any changes, now and then with one that document 01 lacks, a text that the
/// screen row would refuse, or an alignment that is none.
pub fn any(random: &mut Random) -> Vec<u8> {
    let list = any_list(random);
    resized(random, &list)
}

/// Either call on a list: store, or restore of its stored form.
pub fn any_case(random: &mut Random, list: &[u8], back: bool) -> Case {
    let case = match back {
        true => Case::restore(&shortened(list).unwrap_or_default(), 0),
        false => Case::store(list, 0),
    };
    around_need(random, case)
}

/// The same with a few things changed, before it is stored or behind it.
pub fn altered_case(random: &mut Random, list: Vec<u8>, back: bool) -> Case {
    if !back {
        let list = altered(random, list);
        return around_need(random, Case::store(&list, 0));
    }
    let stored = match random.below(3) {
        0 => shortened(&altered(random, list)).unwrap_or_default(),
        _ => {
            let mut stored = shortened(&list).unwrap_or_default();
            for _ in 0..random.pick(&[1, 1, 1, 2, 3]) {
                alter_stored(random, &mut stored);
            }
            stored
        }
    };
    around_need(random, Case::restore(&stored, 0))
}

/// Where each change of a stored list begins.
fn heads(stored: &[u8]) -> Vec<usize> {
    let mut heads = Vec::new();
    let mut at = 0;
    while let Some(&[low, high, ..]) = stored.get(at..at + 4) {
        heads.push(at);
        at += 4 + usize::from(u16::from_le_bytes([low, high]));
    }
    heads
}

/// Another length or kind in a head, a byte lost, added or changed, or an end cut off.
fn alter_stored(random: &mut Random, stored: &mut Vec<u8>) {
    let heads = heads(stored);
    let place = random.below(stored.len() + 1);
    let byte = random.pick(&[0, 1, 2, 3, 4, 8, 24, 25, 0x61, 0xE6, 0xFF]);
    match random.below(8) {
        0 => stored.truncate(place),
        1 => stored.insert(place, byte),
        2..=5 if !heads.is_empty() => {
            let head = random.pick(&heads) + random.pick(&[0, 0, 1, 2, 2, 3]);
            stored[head] = match random.below(3) {
                0 => byte,
                1 => stored[head].wrapping_add(1),
                _ => stored[head].wrapping_sub(1),
            };
        }
        _ if place == stored.len() => (),
        6 => drop(stored.remove(place)),
        _ => stored[place] ^= 1 << random.below(8),
    }
}

/// The call with as much lent as it needs, a little less or more. Where it is refused
/// whatever is lent, as if it needed as much as it reads.
pub fn around_need(random: &mut Random, case: Case) -> Case {
    let read = case.list.len();
    let case = case.lent(read).snug();
    let size = around(random, case.size);
    case.lent(size)
}
