//! How much to test, and from which seeds.

use sheets::seed::{given_or_fresh, number_from, SEED};

const SHEETS: &str = "SOVZEDAL_SHEETS";
const ONLY: &str = "SOVZEDAL_ONLY";

/// The seed that every run uses.
const FIXED: u64 = u64::from_be_bytes(*b"SOVZEDAL");

/// A seed and the indices of the items to make from it.
#[derive(Clone, Debug)]
pub struct Batch {
    pub seed: u64,
    pub items: std::ops::Range<u64>,
}

/// The fixed seed and a fresh one, half of the sheets each. `SOVZEDAL_SEED`
/// takes the place of the fresh seed, `SOVZEDAL_SHEETS` of the number of
/// sheets; with `SOVZEDAL_ONLY` one item of that seed is made alone.
pub fn batches(default_sheets: u64) -> Vec<Batch> {
    let seed = given_or_fresh();
    if let Some(only) = number_from(ONLY) {
        return vec![Batch {
            seed,
            items: only..only + 1,
        }];
    }
    let half = number_from(SHEETS).unwrap_or(default_sheets).div_ceil(2);
    [FIXED, seed]
        .map(|seed| Batch {
            seed,
            items: 0..half,
        })
        .to_vec()
}

/// Whether the whole was asked, so that it must reach what it should.
pub fn are_whole() -> bool {
    number_from(ONLY).is_none() && number_from(SHEETS).is_none()
}

/// How to make an item again.
pub fn again(seed: u64, index: u64) -> String {
    format!("{SEED}={seed} {ONLY}={index}")
}
