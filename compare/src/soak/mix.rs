//! What a round of the soak takes of each set of calls.

use crate::sets::{call_sets, CallSet, Kind};
use oracle::random::Random;
use oracle::Call;

/// Of each of the six calls, dealt evenly to its sets of the kind.
const EVERY: usize = 600;
const RANDOM: usize = 400;
const LONGEST: usize = 2;

/// Lines of each half of demand 3.
pub const NOISY: usize = 100;

/// The sets of all six calls, and where in each of them the soak starts.
pub struct Mix {
    walks: Vec<Walk>,
}

impl Mix {
    pub fn new(seed: u64) -> Mix {
        let mut random = Random::new(seed);
        let mut walks = Vec::new();
        for call in Call::NAMES {
            let sets = call_sets(call);
            let shares: Vec<usize> = sets.iter().map(|set| share(&sets, set.kind)).collect();
            let sets = sets.into_iter().zip(shares);
            walks.extend(sets.map(|(set, share)| Walk::new(set, share, &mut random)));
        }
        Mix { walks }
    }

    /// The sets and numbers of a round.
    pub fn numbers(&self, round: usize) -> impl Iterator<Item = (&CallSet, usize)> + '_ {
        let walks = self.walks.iter();
        walks.flat_map(move |walk| walk.numbers(round).map(|number| (&walk.set, number)))
    }
}

/// How many cases a round takes of each set of a kind.
fn share(sets: &[CallSet], kind: Kind) -> usize {
    let cases = match kind {
        Kind::Every => EVERY,
        Kind::Random => RANDOM,
        Kind::Longest => LONGEST,
    };
    let alike = sets.iter().filter(|set| set.kind == kind).count();
    cases.div_ceil(alike)
}

/// A set whose cases are taken in an order that is spread over all of it and has each of
/// them once before any comes again.
struct Walk {
    set: CallSet,
    share: usize,
    start: usize,
    step: usize,
}

impl Walk {
    fn new(set: CallSet, share: usize, random: &mut Random) -> Walk {
        let start = random.below(set.count);
        let golden = (set.count as f64 * 0.618) as usize;
        let coprime = |step: &usize| common_divisor(*step, set.count) == 1;
        let step = (golden.max(1)..).find(coprime).unwrap_or(1);
        Walk {
            set,
            share,
            start,
            step,
        }
    }

    fn numbers(&self, round: usize) -> impl Iterator<Item = usize> + '_ {
        let places = round * self.share..(round + 1) * self.share;
        let count = self.set.count;
        places.map(move |place| (self.start + place % count * self.step) % count)
    }
}

fn common_divisor(a: usize, b: usize) -> usize {
    if b == 0 {
        a
    } else {
        common_divisor(b, a % b)
    }
}
