//! The four lines of request W6: queues of jobs, which one unit runs in turn.

use crate::decode::decode;
use crate::refusal::{Cause, Refusal};
use crate::run::{run_eager, Request, Run, MAX_CELL_BYTES};
use std::array;
use std::collections::VecDeque;

pub const LINES: usize = 4;

/// How many jobs a line keeps.
pub const QUEUE_JOBS: usize = 8;

/// A part of the store of sheets, to be run with this allowance of calls.
#[derive(Clone, Copy, Debug, PartialEq, Eq)]
pub struct Job {
    pub offset: u64,
    pub length: u64,
    pub calls: u32,
}

impl Job {
    /// The job's sheet, unless it lies outside the store. An empty one may
    /// stand at the very end.
    fn part(self, store: &[u8]) -> Result<&[u8], Refusal> {
        let within = |number| usize::try_from(number).ok();
        let part = within(self.offset)
            .zip(within(self.length))
            .and_then(|(offset, length)| store.get(offset..offset.checked_add(length)?));
        part.ok_or(Cause::OutsideStore.anywhere())
    }
}

/// What is lent to whoever serves a job. It may be another store, with other
/// buffers, each time.
pub struct Buffers<'a> {
    pub store: &'a [u8],
    pub cells: &'a mut [u8],
    pub posts: &'a mut [u32],
}

/// How it went with the job that had its turn.
#[derive(Clone, Copy, Debug, PartialEq, Eq)]
pub struct Served {
    pub line: usize,
    pub answer: Result<Run, Refusal>,
}

#[derive(Clone, Debug, Default, PartialEq, Eq)]
pub struct Lines {
    /// The line whose turn it is.
    turn: usize,
    /// Where in the list of posts the last job stopped.
    place: u64,
    /// Each line's jobs, the oldest first.
    queues: [VecDeque<Job>; LINES],
}

impl Lines {
    /// The queues start empty.
    pub fn new() -> Self {
        Self::default()
    }

    pub fn place(&self) -> u64 {
        self.place
    }

    /// The jobs that wait on a line, the oldest first.
    pub fn waiting(&self, line: usize) -> impl Iterator<Item = Job> + '_ {
        self.queues[line].iter().copied()
    }

    /// Of the store only the length matters.
    pub fn add(&mut self, line: u32, job: Job, store: &[u8]) -> Result<(), Refusal> {
        let queue = self
            .queues
            .get_mut(line as usize)
            .ok_or(Cause::NoLine.anywhere())?;
        job.part(store)?;
        if queue.len() == QUEUE_JOBS {
            return Err(Cause::QueueFull.anywhere());
        }
        queue.push_back(job);
        Ok(())
    }

    /// Gives one job its turn, or tells that there is none.
    pub fn serve(&mut self, buffers: Buffers) -> Option<Served> {
        let mut in_turn = (self.turn..self.turn + LINES).map(|line| line % LINES);
        let line = in_turn.find(|&line| self.has_job(line))?;
        let job = self.queues[line].pop_front()?;
        self.turn = (line + 1) % LINES;
        let answer = run(job, self.place, buffers);
        if let Ok(run) = answer {
            self.place += u64::from(run.posts);
        }
        Some(Served { line, answer })
    }

    fn has_job(&self, line: usize) -> bool {
        !self.queues[line].is_empty()
    }
}

/// One whole run of the job. That more than 256 entries are left is 15 by the
/// runner's own test: what is left is all that it is lent.
fn run(job: Job, place: u64, buffers: Buffers) -> Result<Run, Refusal> {
    let sheet = job.part(buffers.store)?;
    decode(sheet)?;
    if buffers.cells.len() != MAX_CELL_BYTES {
        return Err(Cause::Buffers.anywhere());
    }
    let request = Request {
        calls: job.calls,
        ..Request::LARGEST
    };
    run_eager(sheet, &request, buffers.cells, rest(buffers.posts, place))
}

/// What is left of a list: nothing if it is shorter than the place.
fn rest(posts: &mut [u32], place: u64) -> &mut [u32] {
    match usize::try_from(place) {
        Ok(place) if place < posts.len() => &mut posts[place..],
        _ => &mut [],
    }
}

/// The lines in the numbers of the C interface: the turn, the place, how many
/// jobs wait on each line, and for each line eight jobs of three numbers.
pub type State = [u64; STATE_NUMBERS];

pub const STATE_NUMBERS: usize = at::JOBS + LINES * at::PER_LINE;

/// Where the numbers of a state stand.
pub mod at {
    use super::{LINES, QUEUE_JOBS};

    pub const TURN: usize = 0;
    pub const PLACE: usize = 1;
    pub const COUNTS: usize = 2;
    pub const JOBS: usize = COUNTS + LINES;

    pub const PER_JOB: usize = 3;
    pub const PER_LINE: usize = QUEUE_JOBS * PER_JOB;
}

/// Any numbers are a state, also some that no entry writes.
impl From<&State> for Lines {
    fn from(state: &State) -> Self {
        let job = |numbers: &[u64]| Job {
            offset: numbers[0],
            length: numbers[1],
            calls: u32::try_from(numbers[2]).unwrap_or(u32::MAX),
        };
        let queue = |line: usize| {
            let jobs = &state[at::JOBS + line * at::PER_LINE..][..at::PER_LINE];
            let count = state[at::COUNTS + line].min(QUEUE_JOBS as u64);
            let waiting = jobs.chunks(at::PER_JOB).take(count as usize);
            waiting.map(job).collect()
        };
        Self {
            turn: (state[at::TURN] % LINES as u64) as usize,
            place: state[at::PLACE],
            queues: array::from_fn(queue),
        }
    }
}

/// Zero stands where no job waits.
impl From<&Lines> for State {
    fn from(lines: &Lines) -> Self {
        let mut state = [0; STATE_NUMBERS];
        state[at::TURN] = lines.turn as u64;
        state[at::PLACE] = lines.place;
        for (line, queue) in lines.queues.iter().enumerate() {
            state[at::COUNTS + line] = queue.len() as u64;
            let jobs = state[at::JOBS + line * at::PER_LINE..].chunks_mut(at::PER_JOB);
            for (numbers, job) in jobs.zip(queue) {
                numbers.copy_from_slice(&[job.offset, job.length, u64::from(job.calls)]);
            }
        }
        state
    }
}
