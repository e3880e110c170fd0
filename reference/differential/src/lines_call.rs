//! One call to the four lines, to be put to any implementation.

use crate::implementation::{Implementation, SERVE_NUMBERS};
use crate::query::Margined;
use sheets::lines::{Job, STATE_NUMBERS};
use sheets::request::MAX_CELL_BYTES;
use sheets::rng::Rng;

/// The state of the lines, the buffers that are lent to their runs and the
/// answer to the last call, with margins. Two are equal if every number in
/// and around these is.
#[derive(Clone, Debug, PartialEq, Eq)]
pub struct LinesCall {
    pub lines: Margined<u64>,
    pub cells: Margined<u8>,
    pub posts: Margined<u32>,
    pub answer: Margined<u32>,
}

impl LinesCall {
    /// These lines with the cell store that runs take and a list of this
    /// length, filled at random.
    pub fn random(rng: &mut Rng, state: &[u64; STATE_NUMBERS], list: usize) -> Self {
        let mut call = Self {
            lines: Margined::random(rng, STATE_NUMBERS),
            cells: Margined::random(rng, MAX_CELL_BYTES),
            posts: Margined::random(rng, list),
            answer: Margined::random(rng, SERVE_NUMBERS),
        };
        call.lines.contents_mut().copy_from_slice(state);
        call
    }

    /// Adds a job and gives the returned number.
    pub fn add<I: Implementation>(&mut self, line: u32, job: Job, store: &[u8]) -> u32 {
        I::lines_add(
            self.lines.contents_mut(),
            line,
            job,
            store,
            self.answer.contents_mut(),
        )
    }

    /// Serves a job, with the first entries of the list lent, so many, and
    /// gives the returned number.
    pub fn serve<I: Implementation>(&mut self, store: &[u8], posts: usize) -> u32 {
        I::lines_serve(
            self.lines.contents_mut(),
            store,
            self.cells.contents_mut(),
            &mut self.posts.contents_mut()[..posts],
            self.answer.contents_mut(),
        )
    }
}
