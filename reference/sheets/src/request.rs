//! What to ask of a run, and what to lend it.

use crate::rng::Rng;
use crate::world::World;

pub const MAX_CALLS: u32 = 4_096;
pub const MAX_OPEN_CALLS: u32 = 100;
pub const MAX_CELL_BYTES: usize = 65_536;
pub const MAX_POSTS: usize = 256;
pub const FRAME_NUMBERS: usize = 6_496;

/// Of the buffers only the lengths; the contents are the tester's.
#[derive(Clone, Debug, PartialEq, Eq)]
pub struct Request {
    /// For each frame, innermost first, a principal and its enabled set.
    pub start: Vec<u32>,
    pub calls: u32,
    pub open_calls: u32,
    pub cell_bytes: usize,
    pub posts: usize,
    pub frame_numbers: usize,
}

impl Request {
    /// An empty stack, the largest allowances and buffers.
    pub fn largest() -> Self {
        Self {
            start: Vec::new(),
            calls: MAX_CALLS,
            open_calls: MAX_OPEN_CALLS,
            cell_bytes: MAX_CELL_BYTES,
            posts: MAX_POSTS,
            frame_numbers: FRAME_NUMBERS,
        }
    }

    pub fn with_start(self, start: &[u32]) -> Self {
        Self {
            start: start.to_vec(),
            ..self
        }
    }

    /// Any request: about one in five is turned back.
    pub fn random(rng: &mut Rng, world: &World) -> Self {
        Self {
            start: random_start(rng, world),
            calls: random_calls(rng),
            open_calls: random_open_calls(rng),
            cell_bytes: random_cell_bytes(rng),
            posts: random_posts(rng),
            frame_numbers: random_frame_numbers(rng),
        }
    }

    /// A request with little to spend, for runs that are soon over. One in
    /// five is turned back.
    pub fn random_small(rng: &mut Rng, world: &World) -> Self {
        Self {
            start: random_start(rng, world),
            calls: small(rng, 30, MAX_CALLS),
            open_calls: small(rng, 10, MAX_OPEN_CALLS),
            cell_bytes: rng.between(0, 200),
            posts: small(rng, 6, MAX_POSTS as u32) as usize,
            frame_numbers: random_frame_numbers(rng),
        }
    }

    /// A request with this start stack that isn't turned back, if the start
    /// stack isn't.
    pub fn random_admissible(rng: &mut Rng, start: Vec<u32>) -> Self {
        Self {
            start,
            calls: random_calls(rng).min(MAX_CALLS),
            open_calls: random_open_calls(rng).min(MAX_OPEN_CALLS),
            cell_bytes: random_cell_bytes(rng).min(MAX_CELL_BYTES),
            posts: random_posts(rng).min(MAX_POSTS),
            frame_numbers: FRAME_NUMBERS,
        }
    }
}

fn random_start(rng: &mut Rng, world: &World) -> Vec<u32> {
    let frames = match rng.below(20) {
        0..=6 => 0,
        7 => 16,
        8 => rng.between(17, 20),
        _ => rng.between(1, 4),
    };
    let mut start: Vec<u32> = (0..frames).flat_map(|_| random_frame(rng, world)).collect();
    match rng.below(40) {
        0 => start.push(0),
        1 if !start.is_empty() => {
            let frame = rng.below(start.len() / 2);
            start[2 * frame] = unknown_principal(rng, world);
        }
        _ => {}
    }
    start
}

pub fn random_frame(rng: &mut Rng, world: &World) -> [u32; 2] {
    let enabled = match rng.below(4) {
        0 => 0,
        1 => rng.bits(),
        2 => u32::MAX,
        _ => world.random_set(rng, 60),
    };
    [world.random_principal(rng).into(), enabled]
}

/// Numbers that a reader of fewer bits would take for principal 0, too.
fn unknown_principal(rng: &mut Rng, world: &World) -> u32 {
    let first_unknown = world.principals.len() as u32;
    rng.pick(&[first_unknown, 32, 255, 256, 65_536, 1 << 31, u32::MAX])
}

/// A number up to `most`, now and then `limit` or the next.
fn small(rng: &mut Rng, most: usize, limit: u32) -> u32 {
    match rng.below(30) {
        0 => limit,
        1 => limit + 1,
        _ => rng.between(0, most) as u32,
    }
}

fn random_calls(rng: &mut Rng) -> u32 {
    match rng.below(20) {
        0..=9 => MAX_CALLS,
        10..=14 => rng.below(12) as u32,
        15..=18 => rng.pick(&[0, 1, 99, 100, 101, MAX_CALLS - 1]),
        _ => rng.pick(&[MAX_CALLS, MAX_CALLS + 1, 65_536, u32::MAX]),
    }
}

fn random_open_calls(rng: &mut Rng) -> u32 {
    match rng.below(20) {
        0..=10 => MAX_OPEN_CALLS,
        11..=15 => rng.below(8) as u32,
        16..=18 => rng.pick(&[0, 1, 98, 99, 100]),
        _ => rng.pick(&[MAX_OPEN_CALLS, MAX_OPEN_CALLS + 1, 256, u32::MAX]),
    }
}

fn random_cell_bytes(rng: &mut Rng) -> usize {
    match rng.below(40) {
        0..=11 => rng.below(100),
        12..=15 => rng.pick(&[0, 7, 8, 9, 15, 16, 17]),
        16..=36 => rng.between(100, 2_000),
        37 => rng.between(2_000, MAX_CELL_BYTES),
        38 => MAX_CELL_BYTES,
        _ => rng.pick(&[MAX_CELL_BYTES - 1, MAX_CELL_BYTES + 1]),
    }
}

fn random_posts(rng: &mut Rng) -> usize {
    match rng.below(20) {
        0..=3 => rng.below(3),
        4..=8 => rng.below(12),
        9..=18 => rng.between(12, MAX_POSTS),
        _ => rng.pick(&[MAX_POSTS - 1, MAX_POSTS, MAX_POSTS + 1]),
    }
}

fn random_frame_numbers(rng: &mut Rng) -> usize {
    if rng.percent(97) {
        FRAME_NUMBERS
    } else {
        rng.pick(&[
            0,
            2,
            FRAME_NUMBERS / 2,
            FRAME_NUMBERS - 1,
            FRAME_NUMBERS + 1,
        ])
    }
}
