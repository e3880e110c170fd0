//! Seeds and other numbers that the environment may set.

use std::env;
use std::time::{SystemTime, UNIX_EPOCH};

pub const SEED: &str = "SOVZEDAL_SEED";

/// The seed that `SOVZEDAL_SEED` gives, or a fresh one.
pub fn given_or_fresh() -> u64 {
    number_from(SEED).unwrap_or_else(fresh)
}

/// The number that a variable is set to.
pub fn number_from(variable: &str) -> Option<u64> {
    let text = env::var(variable).ok()?;
    match text.parse() {
        Ok(number) => Some(number),
        Err(_) => panic!("{variable} must be a number, not {text:?}"),
    }
}

fn fresh() -> u64 {
    let now = SystemTime::now().duration_since(UNIX_EPOCH);
    now.map_or(1, |since| since.as_nanos() as u64)
}
