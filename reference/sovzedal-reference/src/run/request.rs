//! What the caller of a run asks and lends: causes 14 to 16.

use super::frame::{start_frames, Frame};
use crate::refusal::{Cause, Refusal};
use crate::sheet::Sheet;

pub const MAX_CELL_BYTES: usize = 65_536;
pub const MAX_POSTS: usize = 256;
/// Two numbers for each frame of the start stack (16) and for each of the 32
/// levels of nesting of 101 bodies: the root's and those of 100 open calls.
pub const FRAME_NUMBERS: usize = 2 * (16 + 32 * 101);
pub const MAX_CALLS: u32 = 4_096;
pub const MAX_OPEN_CALLS: u32 = 100;

#[derive(Clone, Copy, Debug, PartialEq, Eq)]
pub enum Checks {
    Enforced,
    /// A check is read as its inner term, and no guard is asked.
    Skipped,
}

#[derive(Clone, Copy, Debug)]
pub struct Request<'a> {
    /// The start stack, innermost frame first: for each frame a principal and
    /// its set of enabled privileges.
    pub start: &'a [u32],
    pub calls: u32,
    pub open_calls: u32,
    pub checks: Checks,
}

impl Request<'_> {
    /// An empty start stack, the largest allowances, checks in force.
    pub const LARGEST: Request<'static> = Request {
        start: &[],
        calls: MAX_CALLS,
        open_calls: MAX_OPEN_CALLS,
        checks: Checks::Enforced,
    };
}

/// The lengths of the lent buffers.
#[derive(Clone, Copy)]
pub(super) struct BufferLengths {
    pub cell_bytes: usize,
    pub posts: usize,
    /// Only a lazy run has a frame store.
    pub frame_numbers: Option<usize>,
}

impl Request<'_> {
    /// The frames of the start stack, if nothing is wrong with the request.
    pub(super) fn admit(
        &self,
        sheet: &Sheet,
        lengths: BufferLengths,
    ) -> Result<Vec<Frame>, Refusal> {
        let frames =
            start_frames(self.start, sheet.principals.len()).ok_or(Cause::StartStack.anywhere())?;
        if !lengths.is_admissible() {
            return Err(Cause::Buffers.anywhere());
        }
        if self.calls > MAX_CALLS || self.open_calls > MAX_OPEN_CALLS {
            return Err(Cause::Allowance.anywhere());
        }
        Ok(frames)
    }
}

impl BufferLengths {
    fn is_admissible(self) -> bool {
        self.cell_bytes <= MAX_CELL_BYTES
            && self.posts <= MAX_POSTS
            && self
                .frame_numbers
                .is_none_or(|numbers| numbers == FRAME_NUMBERS)
    }
}
