//! What has happened in the sessions, and what has to.

use crate::{Call, Other};
use differential::{Coverage, ANSWER_NUMBERS};
use sheets::lines::*;
use sheets::request::{MAX_CALLS, MAX_POSTS};

const DONE: u32 = 0;
const STOPPED: u32 = 1;
const REFUSED: u32 = 2;
const UNFIT: u32 = 3;
const IDLE: u32 = 4;

/// A call, and all that both implementations told of it.
pub struct CallResult<'a> {
    pub call: Call,
    /// The state of the lines before it.
    pub before: &'a [u64],
    /// How many bytes of the store were lent.
    pub store: usize,
    pub other: Other,
    pub returned: u32,
    pub answer: &'a [u32],
    /// The whole list of posts after it.
    pub list: &'a [u32],
}

impl CallResult<'_> {
    fn cause(&self) -> u32 {
        self.answer[0]
    }

    fn place(&self) -> u64 {
        self.before[PLACE]
    }

    /// What a run has put into the list.
    fn posts_made(&self) -> &[u32] {
        match self.answer[6] as usize {
            0 => &[],
            made => &self.list[self.place() as usize..][..made],
        }
    }

    fn turn(&self) -> usize {
        (self.before[TURN] % LINES as u64) as usize
    }

    fn waiting(&self, line: usize) -> usize {
        self.before[COUNTS + line].min(QUEUE_JOBS as u64) as usize
    }

    /// The numbers of all of a line's jobs, also where none waits.
    fn jobs(&self, line: usize) -> &[u64] {
        let numbers = QUEUE_JOBS * JOB_NUMBERS;
        &self.before[JOBS + line * numbers..][..numbers]
    }

    fn has_inside(&self, offset: u64, length: u64) -> bool {
        u128::from(offset) + u128::from(length) <= self.store as u128
    }
}

#[derive(Default)]
pub struct Counts(pub Coverage);

/// What has to happen, beside the refusals by 1 to 8 and 31 and the stops.
const EXPECTED: [&str; 55] = [
    "lines that no entry made: a turn above 3",
    "lines that no entry made: a count above 8",
    "lines that no entry made: calls of more than 32 bits",
    "lines that no entry made: a job where none waits",
    "lines that no entry made: idle",
    "added",
    "added, an empty part at the very end",
    "added, a part up to the very end",
    "added, the queue is full now",
    "added, more than 4096 calls",
    "27",
    "27 and the part is outside",
    "28 at add",
    "28 at add, no sum past 64 bits",
    "28 at add, a sum past 64 bits",
    "28 at add and the queue is full",
    "29",
    "idle",
    "idle and the list has been written to",
    "served, 0 empty lines skipped",
    "served, 1 empty lines skipped",
    "served, 2 empty lines skipped",
    "served, 3 empty lines skipped",
    "served, the queue was full",
    "served line 0",
    "served line 1",
    "served line 2",
    "served line 3",
    "ended",
    "ended, with results held",
    "stopped, with results held",
    "ended, posts in the middle of the list",
    "stopped, posts in the middle of the list",
    "stopped by 22 in the middle of the list",
    "posts on a channel above 0 in the middle of the list",
    "run with all 256 entries left in the middle of the list",
    "run with a list that ends at the place",
    "run with a list that is shorter than the place",
    "stopped by 22 with a list that is shorter than the place",
    "refused by 28",
    "refused by 28 where 15 would follow",
    "refused by 28 where 16 would follow",
    "refused by 1 to 8 where 15 would follow",
    "refused by 1 to 8 where 16 would follow",
    "refused by 31 where 15 would follow",
    "refused by 31 where 16 would follow",
    "refused by 15, by the cell store",
    "refused by 15, by what is left of the list",
    "refused by 15 in the middle of the list",
    "refused by 15 where 16 would follow",
    "refused by 16",
    "a short answer at add",
    "a short answer at serve",
    "an answer of 8 numbers at serve",
    "lines of another length",
];

impl Counts {
    pub fn count_call(&mut self, result: &CallResult) {
        if result.returned == UNFIT {
            return self.count_unfit(result);
        }
        match result.call {
            Call::Add { line, job } => self.count_add(result, line, job),
            Call::Serve { posts } => self.count_serve(result, posts),
        }
    }

    fn count_unfit(&mut self, result: &CallResult) {
        let numbers = result.answer.len();
        match result.call {
            _ if result.other == Other::Lines => self.0.count("lines of another length"),
            Call::Add { .. } => self.0.count("a short answer at add"),
            Call::Serve { .. } if numbers == ANSWER_NUMBERS => {
                self.0.count("an answer of 8 numbers at serve");
            }
            Call::Serve { .. } => self.0.count("a short answer at serve"),
        }
    }

    fn count_add(&mut self, result: &CallResult, line: u32, job: Job) {
        let Job {
            offset,
            length,
            calls,
        } = job;
        let inside = result.has_inside(offset, length);
        let past = offset.checked_add(length).is_none();
        let waiting = (line < 4).then(|| result.waiting(line as usize));
        match (result.returned, result.cause()) {
            (DONE, 0) => {
                self.0.count("added");
                let at_end = offset + length == result.store as u64;
                self.0.count_if(
                    at_end && length == 0,
                    "added, an empty part at the very end",
                );
                self.0
                    .count_if(at_end && length > 0, "added, a part up to the very end");
                self.0
                    .count_if(waiting == Some(7), "added, the queue is full now");
                self.0
                    .count_if(calls > MAX_CALLS, "added, more than 4096 calls");
                self.count_made_by_none(result);
            }
            (REFUSED, 27) => {
                self.0.count("27");
                self.0.count_if(!inside, "27 and the part is outside");
            }
            (REFUSED, 28) => {
                self.0.count("28 at add");
                self.0.count_if(past, "28 at add, a sum past 64 bits");
                self.0.count_if(!past, "28 at add, no sum past 64 bits");
                self.0
                    .count_if(waiting == Some(8), "28 at add and the queue is full");
            }
            (REFUSED, 29) => self.0.count("29"),
            (returned, cause) => self
                .0
                .count(format!("{returned} returned by add, cause {cause}")),
        }
    }

    fn count_serve(&mut self, result: &CallResult, posts: usize) {
        if result.returned == IDLE {
            self.0.count("idle");
            self.0
                .count_if(result.place() > 0, "idle and the list has been written to");
            let made = result.turn() as u64 == result.before[TURN]
                && result.before[JOBS..].iter().all(|&number| number == 0);
            return self.0.count_if(!made, "lines that no entry made: idle");
        }
        self.count_made_by_none(result);
        let line = result.answer[ANSWER_NUMBERS] as usize;
        let skipped = (line + LINES - result.turn()) % LINES;
        self.0
            .count(format!("served, {skipped} empty lines skipped"));
        self.0.count(format!("served line {line}"));
        self.0.count_if(
            result.waiting(line) == QUEUE_JOBS,
            "served, the queue was full",
        );
        match result.returned {
            REFUSED => self.count_refused(result, posts, result.jobs(line)[2]),
            _ => self.count_run(result, posts),
        }
    }

    fn count_run(&mut self, result: &CallResult, posts: usize) {
        let (length, place) = (posts as u64, result.place());
        let made = !result.posts_made().is_empty();
        let in_the_middle = place > 0 && place < length;
        let has_held = result.answer[7] > 0;
        match (result.returned, result.cause()) {
            (DONE, 0) => {
                self.0.count("ended");
                self.0.count_if(has_held, "ended, with results held");
                self.0.count_if(
                    made && in_the_middle,
                    "ended, posts in the middle of the list",
                );
            }
            (STOPPED, cause) => {
                self.0.count(format!("stopped by {cause:2}"));
                self.0.count_if(has_held, "stopped, with results held");
                self.0.count_if(
                    made && in_the_middle,
                    "stopped, posts in the middle of the list",
                );
                self.0.count_if(
                    cause == 22 && made && in_the_middle,
                    "stopped by 22 in the middle of the list",
                );
                self.0.count_if(
                    cause == 22 && length < place,
                    "stopped by 22 with a list that is shorter than the place",
                );
            }
            (returned, cause) => self
                .0
                .count(format!("{returned} returned by serve, cause {cause}")),
        }
        let posts = result.posts_made();
        self.0.count_if(
            in_the_middle && posts.iter().any(|entry| entry >> 16 > 0),
            "posts on a channel above 0 in the middle of the list",
        );
        self.0.count_if(
            in_the_middle && length - place == MAX_POSTS as u64,
            "run with all 256 entries left in the middle of the list",
        );
        self.0.count_if(
            place > 0 && length == place,
            "run with a list that ends at the place",
        );
        self.0.count_if(
            length < place,
            "run with a list that is shorter than the place",
        );
    }

    fn count_refused(&mut self, result: &CallResult, posts: usize, calls: u64) {
        let cause = result.cause();
        let cells = result.other == Other::Cells;
        let left = (posts as u64).saturating_sub(result.place()) > MAX_POSTS as u64;
        let (buffers, allowance) = (cells || left, calls > u64::from(MAX_CALLS));
        match cause {
            15 => {
                self.0.count_if(cells, "refused by 15, by the cell store");
                self.0
                    .count_if(!cells && left, "refused by 15, by what is left of the list");
                self.0.count_if(
                    left && result.place() > 0,
                    "refused by 15 in the middle of the list",
                );
            }
            _ => self.0.count(format!("refused by {cause:2}")),
        }
        let group = match cause {
            1..=8 => "1 to 8".to_string(),
            _ => cause.to_string(),
        };
        let follow = [(buffers && cause != 15, 15), (allowance && cause != 16, 16)];
        for (_, later) in follow.into_iter().filter(|(would, _)| *would) {
            self.0
                .count(format!("refused by {group} where {later} would follow"));
        }
    }

    /// Counts by what no entry writes into a state, where it is read and
    /// another is written.
    fn count_made_by_none(&mut self, result: &CallResult) {
        let lines = || 0..LINES;
        let waiting = |line| {
            result
                .jobs(line)
                .chunks(JOB_NUMBERS)
                .take(result.waiting(line))
        };
        let of_none = |line: usize| &result.jobs(line)[result.waiting(line) * JOB_NUMBERS..];
        let beyond = |job: &[u64]| job[2] > u64::from(u32::MAX);
        let made_by_none = [
            (result.before[TURN] >= LINES as u64, "a turn above 3"),
            (
                lines().any(|line| result.before[COUNTS + line] > QUEUE_JOBS as u64),
                "a count above 8",
            ),
            (
                lines().any(|line| waiting(line).any(beyond)),
                "calls of more than 32 bits",
            ),
            (
                lines().any(|line| of_none(line).iter().any(|&number| number != 0)),
                "a job where none waits",
            ),
        ];
        for (_, what) in made_by_none.into_iter().filter(|(has, _)| *has) {
            self.0.count(format!("lines that no entry made: {what}"));
        }
    }

    /// What should have happened and never did.
    pub fn never(&self) -> Vec<String> {
        let refusals = (1..=8).chain([31]).map(|n| format!("refused by {n:2}"));
        let stops = (17..=22).map(|n| format!("stopped by {n:2}"));
        let expected = EXPECTED.map(String::from).into_iter();
        self.0.never(expected.chain(refusals).chain(stops))
    }
}
