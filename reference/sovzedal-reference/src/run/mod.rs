//! Runs of a sheet: causes 14 to 22, 35 and 36.
//!
//! One machine evaluates terms; the eager and the lazy runner differ only in
//! the [`Authority`](authority::Authority) that tells it what is granted, and
//! runs over ranges only in the [`Domain`](domain::Domain) of its numbers.

mod authority;
mod domain;
mod eager;
mod frame;
mod lazy;
mod machine;
mod ranges;
mod request;

pub use frame::{granted_by, start_frames, Frame};
pub use ranges::{Range, Truth};
pub use request::{
    Checks, Request, FRAME_NUMBERS, MAX_CALLS, MAX_CELL_BYTES, MAX_OPEN_CALLS, MAX_POSTS,
};

use crate::decode::decode;
use crate::refusal::{Cause, Refusal};
use crate::sheet::{Sheet, TermId};
use authority::Authority;
use domain::Numbers;
use machine::Machine;
use ranges::Ranges;
use request::BufferLengths;

/// A run that was started, and how it went.
#[derive(Clone, Copy, Debug, PartialEq, Eq)]
pub struct Run {
    pub outcome: Outcome,
    pub calls: u32,
    pub cells: u32,
    pub posts: u32,
    /// The sums and differences that were held at a limit (W10).
    pub held: u32,
}

/// The same, with how many entries of the lent record were taken.
#[derive(Clone, Copy, Debug, PartialEq, Eq)]
pub struct Recorded {
    pub run: Run,
    pub entries: usize,
}

/// A run over ranges that was started, and how it went (W14). "Held results
/// aren't counted."
#[derive(Clone, Copy, Debug, PartialEq, Eq)]
pub struct RangeRun {
    pub outcome: Outcome<Plain<Truth, Range>>,
    pub calls: u32,
    pub cells: u32,
    pub posts: u32,
}

#[derive(Clone, Copy, Debug, PartialEq, Eq)]
pub enum Outcome<V = Plain> {
    End(V),
    Stop(Stop),
}

/// A value that a run can end with.
#[derive(Clone, Copy, Debug, PartialEq, Eq)]
pub enum Plain<B = bool, N = u16> {
    Bool(B),
    Number(N),
}

#[derive(Clone, Copy, Debug, PartialEq, Eq)]
pub struct Stop {
    pub cause: Cause,
    pub term: TermId,
}

/// Runs a sheet, holding the granted set. After a refusal `cells` and `posts`
/// are untouched; otherwise `cells` is all zero and `posts` begins with the
/// posts made, each as channel × 65,536 + number.
pub fn run_eager(
    bytes: &[u8],
    request: &Request,
    cells: &mut [u8],
    posts: &mut [u32],
) -> Result<Run, Refusal> {
    let recorded = record_eager(bytes, request, cells, posts, &mut [])?;
    Ok(recorded.run)
}

/// As [`run_eager`], and what is decided stands in `record`, which is untouched
/// past the last entry and after a refusal.
pub fn record_eager(
    bytes: &[u8],
    request: &Request,
    cells: &mut [u8],
    posts: &mut [u32],
    record: &mut [u8],
) -> Result<Recorded, Refusal> {
    let sheet = decode(bytes)?;
    let lengths = BufferLengths {
        cell_bytes: cells.len(),
        posts: posts.len(),
        frame_numbers: None,
    };
    let start = request.admit(&sheet, lengths)?;
    let authority = eager::Granted::new(&sheet, &start);
    Ok(run(&sheet, request, authority, cells, posts, record))
}

/// Runs a sheet, walking frames. As [`run_eager`], and `frames` is treated as
/// `cells` is.
pub fn run_lazy(
    bytes: &[u8],
    request: &Request,
    cells: &mut [u8],
    posts: &mut [u32],
    frames: &mut [u32],
) -> Result<Run, Refusal> {
    let recorded = record_lazy(bytes, request, cells, posts, frames, &mut [])?;
    Ok(recorded.run)
}

/// As [`run_lazy`], with a record as in [`record_eager`].
pub fn record_lazy(
    bytes: &[u8],
    request: &Request,
    cells: &mut [u8],
    posts: &mut [u32],
    frames: &mut [u32],
    record: &mut [u8],
) -> Result<Recorded, Refusal> {
    let sheet = decode(bytes)?;
    let lengths = BufferLengths {
        cell_bytes: cells.len(),
        posts: posts.len(),
        frame_numbers: Some(frames.len()),
    };
    let start = request.admit(&sheet, lengths)?;
    let authority = lazy::Frames::new(&sheet, start);
    let recorded = run(&sheet, request, authority, cells, posts, record);
    frames.fill(0);
    Ok(recorded)
}

/// Runs a sheet of version 1 as [`run_eager`] does, with a range for each number
/// term: `pairs` has them in term order, two numbers each. A post is listed as
/// lowest × 65,536 + highest.
pub fn run_ranges(
    bytes: &[u8],
    pairs: &[u16],
    request: &Request,
    cells: &mut [u8],
    posts: &mut [u32],
) -> Result<RangeRun, Refusal> {
    let sheet = decode(bytes)?;
    let lengths = BufferLengths {
        cell_bytes: cells.len(),
        posts: posts.len(),
        frame_numbers: None,
    };
    let start = request.admit(&sheet, lengths)?;
    let ranges = Ranges::of(&sheet, pairs)?;
    let authority = eager::Granted::new(&sheet, &start);
    let length = cells.len();
    let machine = Machine::new(&sheet, request, authority, ranges, length, posts, &mut []);
    let finished = machine.run();
    cells.fill(0);
    Ok(RangeRun {
        outcome: finished.outcome,
        calls: finished.calls,
        cells: finished.cells,
        posts: finished.posts,
    })
}

/// Runs an admitted request. Cells and frames live in vectors here: of the
/// lent stores only the length matters, and that they are left all zero.
fn run(
    sheet: &Sheet,
    request: &Request,
    authority: impl Authority,
    cells: &mut [u8],
    posts: &mut [u32],
    record: &mut [u8],
) -> Recorded {
    let numbers = Numbers::default();
    let length = cells.len();
    let machine = Machine::new(sheet, request, authority, numbers, length, posts, record);
    let finished = machine.run();
    cells.fill(0);
    Recorded {
        run: Run {
            outcome: finished.outcome,
            calls: finished.calls,
            cells: finished.cells,
            posts: finished.posts,
            held: finished.domain.held,
        },
        entries: finished.entries,
    }
}
