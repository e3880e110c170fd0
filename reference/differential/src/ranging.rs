//! One run over ranges, to be had of any implementation.

use crate::implementation::{Implementation, RunArguments, ANSWER_NUMBERS};
use crate::query::{Buffers, Entry, Query};
use sheets::request::Request;
use sheets::rng::Rng;

/// What is asked of it.
#[derive(Clone, Copy, Debug)]
pub struct Ranging<'a> {
    pub sheet: &'a [u8],
    pub pairs: &'a [u16],
    pub request: &'a Request,
    pub enforce: u32,
}

impl<'a> Ranging<'a> {
    /// Buffers as for the plain run, filled at random.
    pub fn buffers(&self, rng: &mut Rng, answer: usize) -> Buffers {
        Buffers::random(rng, Entry::RunEager, self.request, answer)
    }

    /// Has the run and gives the returned number.
    pub fn of<I: Implementation>(&self, buffers: &mut Buffers) -> u32 {
        let arguments = RunArguments {
            start: &self.request.start,
            calls: self.request.calls,
            open_calls: self.request.open_calls,
            enforce: self.enforce,
        };
        let Buffers {
            cells,
            posts,
            answer,
            ..
        } = buffers;
        I::run_ranges(
            self.sheet,
            self.pairs,
            arguments,
            cells.contents_mut(),
            posts.contents_mut(),
            answer.contents_mut(),
        )
    }

    /// The plain eager run of this sheet, which has the same terms and other
    /// numbers, by the same request.
    pub fn plainly<'b>(&'b self, sheet: &'b [u8]) -> Query<'b> {
        Query {
            entry: Entry::RunEager,
            sheet,
            request: self.request,
            enforce: self.enforce,
        }
    }
}

/// What the answer of a run over ranges says of a plain run's: the sentence of
/// W14, by the numbers of the C interface. Each has a status, its answer and the
/// posts made.
pub fn holds(
    over: (u32, &[u32; ANSWER_NUMBERS], &[u32]),
    plain: (u32, &[u32; ANSWER_NUMBERS], &[u32]),
) -> bool {
    const NUMBER: u32 = 1;
    const UNDECIDED: u32 = 2;
    let ((status, answer, posts), (plain_status, plain_answer, plain_posts)) = (over, plain);
    let [_, _, ty, value, ..] = *answer;
    let plain_value = plain_answer[3];
    let value_inside = match ty {
        NUMBER => contains(value, plain_value),
        _ => value == UNDECIDED || value == plain_value,
    };
    // Status, cause, term and type; then calls, cells and posts.
    (status, &answer[..3]) == (plain_status, &plain_answer[..3])
        && value_inside
        && answer[4..7] == plain_answer[4..7]
        && posts.len() == plain_posts.len()
        && (posts.iter().zip(plain_posts)).all(|(&range, &number)| contains(range, number))
}

/// A range by lowest × 65,536 + highest.
fn contains(range: u32, number: u32) -> bool {
    (range >> 16..=range & 0xFFFF).contains(&number)
}
