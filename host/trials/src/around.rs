//! Runs and listings asked for from every number, so many, into buffers of every length.

use crate::packs::codes;
use crate::rooms::refusal;
use crate::runs::Asked;
use paper::make::{self, Pair, Rng};
use ttw::ask;

/// Numbers that no file has, also where only some of their bits are read.
const HUGE: [u64; 6] = [
    1 << 20,
    1 << 32,
    (1 << 32) + 1,
    1 << 63,
    u64::MAX - 1,
    u64::MAX,
];

/// The refusals that a run or a listing may answer are below this.
const NUMBERS: usize = 16;

/// Every first number and every count around so many, and huge ones.
pub fn around(numbers: u64) -> Vec<(u64, u64)> {
    let all: Vec<u64> = (0..=numbers + 2).chain(HUGE).collect();
    let pairs = all
        .iter()
        .flat_map(|first| all.iter().map(move |count| (*first, *count)));
    pairs.collect()
}

/// Asks around, where one label or item takes at most so many bytes, and counts how often each refusal was answered, 0
/// for a value.
pub struct Around {
    most: usize,
    reached: [usize; NUMBERS],
}

impl Around {
    pub fn new(most: usize) -> Around {
        let reached = [0; NUMBERS];
        Around { most, reached }
    }

    /// Asks for all around so many numbers, with room for all, for none and for some.
    #[track_caller]
    pub fn ask(&mut self, rng: &mut Rng, numbers: u64, ask: impl Fn(Asked) -> u64) {
        let all = self.most * numbers as usize;
        for (first, count) in around(numbers) {
            for room in [0, rng.below(all.clamp(1, 1_000)), all] {
                self.reached[refusal(ask(Asked::new(first, count, room))) as usize] += 1;
            }
        }
    }

    /// Asks so in every code of random pairs, in another one and in two that are malformed.
    #[track_caller]
    pub fn ask_in_codes(
        &mut self,
        rng: &mut Rng,
        pairs: usize,
        ask: impl Fn(&Pair, &[u8], Asked) -> u64,
    ) {
        for _ in 0..pairs {
            let pair = make::pair(rng, 24);
            let others = [make::outward(rng), make::bad_outward(rng), Vec::new()];
            for code in codes(&pair).into_iter().chain(others) {
                let live = ask::live(&pair.points, &code).unwrap_or(1);
                self.ask(rng, live, |asked| ask(&pair, &code, asked));
            }
        }
    }

    /// Fails unless these were answered and no other.
    #[track_caller]
    pub fn reached(&self, numbers: &[usize]) {
        let all = (0..NUMBERS).filter(|number| self.reached[*number] > 0);
        let all: Vec<usize> = all.collect();
        assert_eq!(all, numbers, "{:?}", self.reached);
    }
}
