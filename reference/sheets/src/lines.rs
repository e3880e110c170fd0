//! What is queued on four lines, and what is lent when it is served.

use crate::request::{MAX_CALLS, MAX_POSTS};
use crate::rng::Rng;
use crate::session::random_sheet;
use std::ops::Range;

pub const LINES: usize = 4;
pub const QUEUE_JOBS: usize = 8;

/// The turn, the place, a count for each line, three numbers for each job.
pub const STATE_NUMBERS: usize = JOBS + JOB_NUMBERS * QUEUE_JOBS * LINES;

pub const TURN: usize = 0;
pub const PLACE: usize = 1;
pub const COUNTS: usize = 2;
pub const JOBS: usize = COUNTS + LINES;
pub const JOB_NUMBERS: usize = 3;

/// Entries of the list that a session lends the first ones of.
pub const LIST: usize = 4 * MAX_POSTS;

/// A part of a store, with an allowance of calls.
#[derive(Clone, Copy, Debug, PartialEq, Eq)]
pub struct Job {
    pub offset: u64,
    pub length: u64,
    pub calls: u32,
}

/// Sheets one after the other, with a few bytes between them or not.
#[derive(Clone, Debug)]
pub struct Store {
    pub bytes: Vec<u8>,
    pub sheets: Vec<Range<usize>>,
}

impl Store {
    pub fn random(rng: &mut Rng) -> Self {
        let mut store = Self {
            bytes: Vec::new(),
            sheets: Vec::new(),
        };
        for _ in 0..rng.between(1, 8) {
            for _ in 0..rng.pick(&[0, 0, 1, 5]) {
                store.bytes.push(rng.bits() as u8);
            }
            store.keep(&random_sheet(rng));
        }
        store
    }

    /// Puts a sheet at the end.
    pub fn keep(&mut self, sheet: &[u8]) {
        let offset = self.bytes.len();
        self.bytes.extend_from_slice(sheet);
        self.sheets.push(offset..self.bytes.len());
    }

    /// How much of it to lend: mostly all, and else up to anywhere, as a rule
    /// up to where a sheet begins or ends.
    pub fn random_length(&self, rng: &mut Rng) -> usize {
        let most = self.bytes.len();
        let Range { start, end } = self.random_sheet(rng);
        match rng.below(24) {
            0 => rng.between(0, most),
            1 => rng.pick(&[start, start + 1]).min(most),
            2 => rng.pick(&[end, end.saturating_sub(1)]),
            3 => 0,
            _ => most,
        }
    }

    /// A job to add while the first `store_length` bytes of the store
    /// are lent.
    pub fn random_job(&self, rng: &mut Rng, store_length: usize) -> Job {
        let (offset, length) = match rng.below(20) {
            0 => past_or_at_the_end(rng, store_length),
            1 => wrapping(rng, store_length),
            2 => self.nearly_a_sheet(rng),
            _ => of_range(self.random_sheet(rng)),
        };
        Job {
            offset,
            length,
            calls: random_calls(rng),
        }
    }

    fn random_sheet(&self, rng: &mut Rng) -> Range<usize> {
        self.sheets[rng.below(self.sheets.len())].clone()
    }

    /// A sheet with a byte more or less at one of its ends.
    fn nearly_a_sheet(&self, rng: &mut Rng) -> (u64, u64) {
        let Range { start, end } = self.random_sheet(rng);
        of_range(match rng.below(4) {
            0 => start..end + 1,
            1 => start..end.saturating_sub(1).max(start),
            2 => start.saturating_sub(1)..end,
            _ => (start + 1).min(end)..end,
        })
    }
}

fn of_range(range: Range<usize>) -> (u64, u64) {
    (range.start as u64, range.len() as u64)
}

/// Parts that reach just to the end of what is lent, or just past it.
fn past_or_at_the_end(rng: &mut Rng, store_length: usize) -> (u64, u64) {
    let store_length = store_length as u64;
    let from = rng.between(0, store_length as usize) as u64;
    rng.pick(&[
        (store_length, 0),
        (store_length, 1),
        (store_length + 1, 0),
        (from, store_length - from),
        (from, store_length - from + 1),
    ])
}

/// Parts far outside, of which most are inside for a reader who adds up
/// offset and length in 64 bits or sees the lowest 32 alone.
fn wrapping(rng: &mut Rng, store_length: usize) -> (u64, u64) {
    const BEYOND: u64 = 1 << 32;
    let within = rng.between(0, store_length) as u64;
    rng.pick(&[
        (u64::MAX, 1),
        (1, u64::MAX),
        (u64::MAX, u64::MAX),
        (within + 1, u64::MAX),
        (u64::MAX, within + 1),
        (within.wrapping_neg(), within),
        (1 << 63, 1 << 63),
        (BEYOND, 0),
        (BEYOND + within, 0),
        (within, BEYOND),
    ])
}

fn random_calls(rng: &mut Rng) -> u32 {
    match rng.below(20) {
        0..=11 => MAX_CALLS,
        12..=15 => rng.below(12) as u32,
        16 | 17 => rng.pick(&[0, 1, 99, 100, 101, MAX_CALLS - 1]),
        _ => rng.pick(&[MAX_CALLS + 1, 65_536, 1 << 31, u32::MAX]),
    }
}

/// Mostly a line that there is, `favoured` more often than others. Else
/// numbers that a reader of fewer bits would take for one, too.
pub fn random_line(rng: &mut Rng, favoured: u32) -> u32 {
    match rng.below(20) {
        0 => {
            let past = rng.pick(&[4, 8, 255, 256, 65_536, 1 << 31, u32::MAX - 3]);
            past + rng.below(LINES) as u32
        }
        1..=9 => favoured,
        _ => rng.below(LINES) as u32,
    }
}

/// How many entries of a list to lend when the last job stopped at `place`.
pub fn random_list_length(rng: &mut Rng, place: u64) -> usize {
    let place = usize::try_from(place).map_or(LIST, |place| place.min(LIST));
    let length = match rng.below(16) {
        0 => place + MAX_POSTS + rng.between(1, 3),
        1 => place,
        2 => rng.between(0, place),
        3 => rng.between(0, LIST),
        4 => 0,
        5..=8 => place + rng.below(8),
        _ => place + MAX_POSTS,
    };
    length.min(LIST)
}

/// New lines, or a state that no entry made.
pub fn random_state(rng: &mut Rng, store: &Store) -> [u64; STATE_NUMBERS] {
    let mut state = [0; STATE_NUMBERS];
    match rng.below(10) {
        0..=5 => {}
        6 => state.fill_with(|| rng.word()),
        _ => {
            for job in state[JOBS..].chunks_mut(JOB_NUMBERS) {
                job.copy_from_slice(&any_job(rng, store));
            }
            state[COUNTS..JOBS].fill_with(|| any_count(rng));
            state[PLACE] = any_place(rng);
            state[TURN] = rng.below(LINES) as u64;
            if rng.percent(50) {
                state[TURN] = rng.word() >> rng.below(64);
            }
        }
    }
    state
}

/// A job whose allowance may have more than 32 bits.
fn any_job(rng: &mut Rng, store: &Store) -> [u64; JOB_NUMBERS] {
    let job = store.random_job(rng, store.bytes.len());
    let calls = match rng.below(8) {
        0 => (1 << 32) + u64::from(job.calls),
        1 => rng.pick(&[u64::MAX, 1 << 32, 1 << 63]),
        _ => u64::from(job.calls),
    };
    [job.offset, job.length, calls]
}

fn any_count(rng: &mut Rng) -> u64 {
    match rng.below(6) {
        0 => rng.pick(&[9, 10, 15, 16, 255, 256, 1 << 32, 1 << 63, u64::MAX]),
        1 => 0,
        _ => rng.between(0, QUEUE_JOBS) as u64,
    }
}

fn any_place(rng: &mut Rng) -> u64 {
    match rng.below(6) {
        0 => (1 << 32) + rng.below(LIST) as u64,
        1 => rng.pick(&[u64::MAX, u64::MAX - 1, 1 << 63, 1 << 16]),
        _ => rng.below(LIST) as u64,
    }
}

#[cfg(test)]
mod tests {
    use super::*;

    #[test]
    fn sheets_stand_where_the_store_says() {
        let mut store = Store {
            bytes: vec![9],
            sheets: Vec::new(),
        };
        store.keep(&[1, 2]);
        store.keep(&[3]);
        assert_eq!(store.sheets, [1..3, 3..4]);
        assert_eq!(store.bytes, [9, 1, 2, 3]);
    }

    #[test]
    fn lengths_stay_within_what_there_is() {
        let rng = &mut Rng::new(0);
        for _ in 0..100 {
            let store = Store::random(rng);
            assert!((0..100).all(|_| store.random_length(rng) <= store.bytes.len()));
            let place = any_place(rng);
            assert!((0..100).all(|_| random_list_length(rng, place) <= LIST));
        }
    }

    #[test]
    fn lines_are_drawn_of_all_sorts() {
        let rng = &mut Rng::new(0);
        let lines: Vec<u32> = (0..2_000).map(|_| random_line(rng, 2)).collect();
        for line in (0..=7).chain([256, u32::MAX]) {
            assert!(lines.contains(&line), "{line}");
        }
    }
}
