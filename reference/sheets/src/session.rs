//! What a controller does with a register block.

use crate::generate::sample;
use crate::request::MAX_CALLS;
use crate::rng::Rng;
use crate::smallest;

pub const BLOCK_BYTES: usize = 16;

const COMMAND: u32 = 0;
const STATUS: u32 = 1;
const MASK: u32 = 3;
const CALLS: u32 = 4;

const RUN: u8 = 1;

/// One access to a block.
#[derive(Clone, Copy, Debug, PartialEq, Eq)]
pub enum Access {
    Read { address: u32 },
    Write { address: u32, value: u8 },
}

impl Access {
    /// Asks for a run of the loaded sheet.
    pub const RUN: Self = Self::Write {
        address: COMMAND,
        value: RUN,
    };
}

/// A new block, or one that no entry made.
pub fn random_block(rng: &mut Rng) -> [u8; BLOCK_BYTES] {
    let mut block = [0; BLOCK_BYTES];
    match rng.below(10) {
        0..=5 => {}
        6 | 7 => block.fill_with(|| rng.bits() as u8),
        _ => (0..rng.between(1, 3)).for_each(|_| block[rng.below(BLOCK_BYTES)] = rng.bits() as u8),
    }
    block
}

/// A session that sets an allowance, as a rule, and then does anything.
pub fn random_accesses(rng: &mut Rng) -> Vec<Access> {
    let mut accesses = Vec::new();
    if rng.percent(80) {
        accesses.extend(allow(rng));
    }
    for _ in 0..rng.between(4, 20) {
        push_access(rng, &mut accesses);
    }
    accesses
}

fn push_access(rng: &mut Rng, accesses: &mut Vec<Access>) {
    let write = |address, value| Access::Write { address, value };
    let access = match rng.below(20) {
        0..=5 => Access::RUN,
        6 => write(COMMAND, rng.pick(&[0, 2, 3, 128, 129, 254, 255])),
        7 | 8 => return accesses.extend(allow(rng)),
        9 | 10 => write(MASK, random_bits(rng)),
        11 | 12 => write(STATUS, random_bits(rng)),
        13 | 14 => Access::Read {
            address: rng.below(BLOCK_BYTES) as u32,
        },
        15..=17 => write(rng.below(BLOCK_BYTES) as u32, rng.bits() as u8),
        18 => Access::Read {
            address: past_the_block(rng),
        },
        _ => write(past_the_block(rng), rng.pick(&[RUN, 7, 255])),
    };
    accesses.push(access);
}

/// Writes both bytes of the calls allowance, in either order.
fn allow(rng: &mut Rng) -> [Access; 2] {
    let most = MAX_CALLS as u16;
    let calls = match rng.below(10) {
        0..=3 => most,
        4 | 5 => rng.below(12) as u16,
        // Of other size if the two bytes are exchanged.
        6 | 7 => rng.pick(&[1, 16, 99, 100, 101, 256, 512, 2_560, most - 1]),
        8 => rng.below(1 << 16) as u16,
        _ => rng.pick(&[most + 1, 5_000, 1 << 15, u16::MAX]),
    };
    let [high, low] = calls.to_be_bytes();
    let mut writes =
        [(CALLS, high), (CALLS + 1, low)].map(|(address, value)| Access::Write { address, value });
    if rng.percent(50) {
        writes.reverse();
    }
    writes
}

/// A mask, or bits of status to be cleared: some of the three that are set by
/// runs, or any.
fn random_bits(rng: &mut Rng) -> u8 {
    match rng.below(4) {
        0 => rng.bits() as u8,
        1 => rng.pick(&[0, 7, 0xF8, 255]),
        _ => rng.below(8) as u8,
    }
}

/// Addresses that a reader of fewer bits would take for a register, too.
fn past_the_block(rng: &mut Rng) -> u32 {
    let register = rng.pick(&[COMMAND, STATUS, MASK, CALLS]);
    let past = rng.pick(&[16, 17, 255, 256, 65_536, 1 << 31, u32::MAX]);
    if rng.percent(50) {
        past
    } else {
        past | register
    }
}

/// Any sheet, more often than elsewhere one of the smallest: the largest
/// buffers are hard to fill.
pub fn random_sheet(rng: &mut Rng) -> Vec<u8> {
    if rng.percent(25) {
        let mut smallest = smallest::all();
        let place = rng.below(smallest.len());
        smallest.swap_remove(place).sheet
    } else {
        sample(rng).bytes
    }
}

#[cfg(test)]
mod tests {
    use super::*;

    #[test]
    fn addresses_past_the_block_are_past_it() {
        let rng = &mut Rng::new(0);
        assert!((0..1000).all(|_| past_the_block(rng) >= BLOCK_BYTES as u32));
    }

    #[test]
    fn sessions_have_accesses_of_all_sorts() {
        let rng = &mut Rng::new(0);
        let accesses: Vec<Access> = (0..200).flat_map(|_| random_accesses(rng)).collect();
        assert!(accesses.contains(&Access::RUN));
        for address in (0..=17).chain([255, 256, u32::MAX]) {
            assert!(accesses.contains(&Access::Read { address }), "{address}");
            let is_written = |access: &Access| match access {
                Access::Write { address: place, .. } => *place == address,
                Access::Read { .. } => false,
            };
            assert!(accesses.iter().any(is_written), "{address}");
        }
        for value in [0, 2, 255] {
            let other_command = Access::Write {
                address: COMMAND,
                value,
            };
            assert!(accesses.contains(&other_command), "{value}");
        }
    }
}
