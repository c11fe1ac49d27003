//! A deterministic generator (splitmix64), and the loop that every randomized test runs in.

use std::env;

/// Used unless TALLY_SEED says otherwise: a failure must come back on the next run.
const DEFAULT_SEED: u64 = 9640;

const INCREMENT: u64 = 0x9e37_79b9_7f4a_7c15;

pub struct Rng {
    state: u64,
}

impl Rng {
    /// A stream of its own for each case, so that one case can be run alone.
    pub fn new(seed: u64, case: u64) -> Rng {
        let mut rng = Rng { state: seed };
        rng.state = rng.bits() ^ case.wrapping_mul(INCREMENT);
        rng
    }

    pub fn bits(&mut self) -> u64 {
        self.state = self.state.wrapping_add(INCREMENT);
        let mixed = (self.state ^ (self.state >> 30)).wrapping_mul(0xbf58_476d_1ce4_e5b9);
        let mixed = (mixed ^ (mixed >> 27)).wrapping_mul(0x94d0_49bb_1331_11eb);
        mixed ^ (mixed >> 31)
    }

    /// A number below `bound`, which is not zero; the bias does not matter to a test.
    pub fn below(&mut self, bound: u64) -> u64 {
        self.bits() % bound
    }

    pub fn index(&mut self, length: usize) -> usize {
        self.below(length as u64) as usize
    }

    /// A station number below `k`.
    pub fn station(&mut self, k: u8) -> u8 {
        self.below(k.into()) as u8
    }

    pub fn byte(&mut self) -> u8 {
        self.bits() as u8
    }

    pub fn chance(&mut self, percent: u64) -> bool {
        self.below(100) < percent
    }

    pub fn pick<T: Copy>(&mut self, items: &[T]) -> T {
        items[self.index(items.len())]
    }

    pub fn bytes(&mut self, length: usize) -> Vec<u8> {
        (0..length).map(|_| self.byte()).collect()
    }
}

/// Runs `check` on `count` cases. A failing one names its seed and its number; TALLY_SEED and TALLY_CASE bring it back.
pub fn for_cases(count: u64, mut check: impl FnMut(&mut Rng)) {
    let seed = setting("TALLY_SEED").unwrap_or(DEFAULT_SEED);
    let cases = setting("TALLY_CASE").map_or(0..count, |case| case..case + 1);
    for case in cases {
        let _named = Named { seed, case };
        check(&mut Rng::new(seed, case));
    }
}

/// Whether one chosen case is run alone: claims about all cases together do not hold then.
pub fn runs_one_case() -> bool {
    setting("TALLY_CASE").is_some()
}

fn setting(name: &str) -> Option<u64> {
    env::var(name).ok().map(|text| text.parse().unwrap_or_else(|_| panic!("{name} is not a number: {text}")))
}

/// Names the case when a panic unwinds through it.
struct Named {
    seed: u64,
    case: u64,
}

impl Drop for Named {
    fn drop(&mut self) {
        if std::thread::panicking() {
            eprintln!("failed with TALLY_SEED={} TALLY_CASE={}", self.seed, self.case);
        }
    }
}
