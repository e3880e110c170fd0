//! One access to a register block, to be put to any implementation.

use crate::implementation::{Implementation, ANSWER_NUMBERS};
use crate::query::Margined;
use sheets::request::{MAX_CELL_BYTES, MAX_POSTS};
use sheets::rng::Rng;
use sheets::session::Access;

/// A block, the buffers that are lent to its runs and the answer to the last
/// access, with margins. Two are equal if every number in and around these
/// is.
#[derive(Clone, Debug, PartialEq, Eq)]
pub struct BlockCall {
    pub block: Margined<u8>,
    pub cells: Margined<u8>,
    pub posts: Margined<u32>,
    pub answer: Margined<u32>,
}

impl BlockCall {
    /// This block with buffers of the lengths that runs take, filled at
    /// random.
    pub fn random(rng: &mut Rng, block: &[u8]) -> Self {
        let mut call = Self {
            block: Margined::random(rng, block.len()),
            cells: Margined::random(rng, MAX_CELL_BYTES),
            posts: Margined::random(rng, MAX_POSTS),
            answer: Margined::random(rng, ANSWER_NUMBERS),
        };
        call.block.contents_mut().copy_from_slice(block);
        call
    }

    /// Makes the access, with this sheet loaded, and gives the returned
    /// number.
    pub fn access<I: Implementation>(&mut self, access: Access, sheet: &[u8]) -> u32 {
        let answer = self.answer.contents_mut();
        match access {
            Access::Read { address } => I::block_read(self.block.contents(), address, answer),
            Access::Write { address, value } => I::block_write(
                self.block.contents_mut(),
                address,
                value,
                sheet,
                self.cells.contents_mut(),
                self.posts.contents_mut(),
                answer,
            ),
        }
    }
}
