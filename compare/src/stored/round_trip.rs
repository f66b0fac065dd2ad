//! What document 02 says of lists that are accepted: there and back restores the bytes,
//! from either end. Asked of the calls alone, without the model's stored forms.

use super::model::lengthened;
use console_lines::raw::Answer;

type Call = fn(&[u8], &mut [u8]) -> Answer;

/// The calls: the library's or, where faults are planted, worse ones.
#[derive(Clone, Copy)]
pub struct Calls {
    pub store: Call,
    pub restore: Call,
}

impl Calls {
    pub const LIBRARY: Calls = Calls {
        store: console_lines::raw::store,
        restore: console_lines::raw::restore,
    };
}

/// Stores an accepted list and restores it or, `back`, restores an accepted stored list
/// and stores it: the bytes are the same, but that each body of 24 bytes has a baseline
/// alignment behind it. What is not so, as text.
pub fn round_trip(list: &[u8], back: bool, calls: Calls) -> Result<(), String> {
    let Calls { store, restore } = calls;
    if back {
        let restored = made(list, restore)?;
        return same(&made(&restored, store)?, list);
    }
    let stored = made(list, store)?;
    let expected = lengthened(list).ok_or("a malformed list was accepted")?;
    same(&made(&stored, restore)?, &expected)
}

/// What a call leaves that is lent more than enough: a head grows by two bytes, a body by
/// one.
fn made(list: &[u8], call: Call) -> Result<Vec<u8>, String> {
    let mut out = vec![0xA7; 2 * list.len() + 8];
    let answer = call(list, &mut out);
    if answer.number != 0 {
        return Err(format!("refused by {}", answer.number));
    }
    out.truncate(answer.count);
    Ok(out)
}

fn same(left: &[u8], expected: &[u8]) -> Result<(), String> {
    if left == expected {
        return Ok(());
    }
    let place = left
        .iter()
        .zip(expected)
        .take_while(|(a, b)| a == b)
        .count();
    Err(format!("another list from byte {place} on"))
}
