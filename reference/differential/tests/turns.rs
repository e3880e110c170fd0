//! Whose turn it is, by the library's answers alone: the state of the lines is
//! not looked into. Each job has a number that its run tells. So it is seen
//! that the jobs of a line have their turns in the order they were added, each
//! of them one, and within 4 × (j + 1) runs where j were before it.

use differential::{settings, Library, LinesCall, ANSWER_NUMBERS};
use sheets::cases::computing;
use sheets::lines::{random_line, Job, Store, LINES, LIST, QUEUE_JOBS, STATE_NUMBERS};
use sheets::records::{Format, Records, TermRecord, TypeRecord};
use sheets::request::{MAX_CALLS, MAX_POSTS};
use sheets::rng::Rng;
use sheets::tree::{number, post, sum, variable};
use std::collections::VecDeque;

const SESSIONS: u64 = 4_000;

/// How many jobs a session may add.
const NUMBERS: usize = 150;

/// How a job tells its number: it ends in it, posts it and is stopped, or is
/// refused at the term of this number.
const WAYS: usize = 3;

const DONE: u32 = 0;
const STOPPED: u32 = 1;
const REFUSED: u32 = 2;
const IDLE: u32 = 4;

#[test]
fn turns_are_as_promised() {
    let store = numbered_sheets();
    let mut seen = Seen::default();
    for batch in settings::batches(SESSIONS) {
        for index in batch.items {
            let rng = &mut Rng::for_item(batch.seed.rotate_left(3), index);
            let again = settings::again(batch.seed, index);
            Session::new(rng, &store, again).go_through(rng, &mut seen);
        }
    }
    if settings::are_whole() {
        assert_eq!(seen.longest, [4, 8, 12, 16, 20, 24, 28, 32]);
        assert!(seen.reported.iter().all(|&times| times > 0), "{seen:?}");
        assert!(seen.unreported > 0 && seen.rejected > 0, "{seen:?}");
    }
}

/// The sheets of number n stand at 3n, one for each way.
fn numbered_sheets() -> Store {
    let mut store = Store {
        bytes: Vec::new(),
        sheets: Vec::new(),
    };
    for value in 0..NUMBERS as u16 {
        store.keep(&computing(number(value)));
        store.keep(&computing(sum(post(number(value)), variable(0))));
        store.keep(&refused_at(value));
    }
    store
}

/// Of its terms the last has a kind that there isn't.
fn refused_at(term: u16) -> Vec<u8> {
    let record = |kind| TermRecord {
        kind,
        small: 0,
        parts: [0; 3],
    };
    let mut terms = vec![record(1); usize::from(term)];
    terms.push(record(15));
    Records {
        format: Format::version_1(),
        principals: vec![0],
        types: vec![TypeRecord::bool(), TypeRecord::number()],
        terms,
    }
    .to_bytes()
}

/// What has happened, so that nothing was shown of nothing.
#[derive(Debug, Default)]
struct Seen {
    /// The most runs that a job waited for its turn, by how many were before.
    longest: [usize; QUEUE_JOBS],
    /// Jobs that told their number, by the way.
    reported: [usize; WAYS],
    /// Jobs that were refused by 15, 16 or 28 and could not tell it.
    unreported: usize,
    /// Jobs that no line took.
    rejected: usize,
}

/// A job that waits.
struct Ticket {
    number: u32,
    calls: u32,
    before: usize,
    waited: usize,
}

struct Session<'a> {
    store: &'a Store,
    lines_call: LinesCall,
    /// The tickets of each line, the oldest first.
    waiting: [VecDeque<Ticket>; LINES],
    added: usize,
    /// The posts made so far.
    posts: usize,
    /// How to have this session again.
    again: String,
}

impl<'a> Session<'a> {
    fn new(rng: &mut Rng, store: &'a Store, again: String) -> Self {
        Self {
            store,
            lines_call: LinesCall::random(rng, &[0; STATE_NUMBERS], LIST),
            waiting: Default::default(),
            added: 0,
            posts: 0,
            again,
        }
    }

    /// Adds and serves, and in the end serves what is left.
    fn go_through(&mut self, rng: &mut Rng, seen: &mut Seen) {
        let favoured = rng.below(LINES) as u32;
        let adds = rng.pick(&[30, 50, 60, 75]);
        while self.added < NUMBERS {
            if rng.percent(adds) {
                self.add(rng, favoured, seen);
            } else {
                self.serve(rng, seen);
            }
        }
        while self.waiting.iter().any(|line| !line.is_empty()) {
            self.serve(rng, seen);
        }
        self.serve(rng, seen);
    }

    /// Adds the job of the next number, or one that is turned back.
    fn add(&mut self, rng: &mut Rng, favoured: u32, seen: &mut Seen) {
        let line = random_line(rng, favoured);
        let sheet = self.store.sheets[WAYS * self.added + rng.below(WAYS)].clone();
        let job = Job {
            offset: sheet.start as u64,
            length: sheet.len() as u64,
            calls: rng.pick(&[0, 1, MAX_CALLS, MAX_CALLS + 1]),
        };
        let length = rng.pick(&[sheet.end, self.store.bytes.len(), sheet.end - 1]);
        let store = &self.store.bytes[..length];
        let returned = self.lines_call.add::<Library>(line, job, store);
        let takes = sheet.end <= store.len()
            && (line as usize) < LINES
            && self.waiting[line as usize].len() < QUEUE_JOBS;
        let expected = if takes { DONE } else { REFUSED };
        assert_eq!(returned, expected, "{}", self.again);
        if !takes {
            seen.rejected += 1;
            return;
        }
        let queue = &mut self.waiting[line as usize];
        queue.push_back(Ticket {
            number: self.added as u32,
            calls: job.calls,
            before: queue.len(),
            waited: 0,
        });
        self.added += 1;
    }

    /// Serves a job, now and then with a shorter store or too long a list.
    fn serve(&mut self, rng: &mut Rng, seen: &mut Seen) {
        let length = match rng.below(20) {
            0 => rng.below(self.store.bytes.len()),
            _ => self.store.bytes.len(),
        };
        let left = MAX_POSTS + usize::from(rng.percent(5));
        let place = self.posts;
        let returned = self
            .lines_call
            .serve::<Library>(&self.store.bytes[..length], place + left);
        if returned == IDLE {
            let none = self.waiting.iter().all(VecDeque::is_empty);
            assert!(none, "a job is lost, {}", self.again);
            return;
        }
        let answer = self.lines_call.answer.contents();
        self.posts += answer[6] as usize;
        let reported = self.reported(returned, place);
        let ticket = self.take_ticket(answer[ANSWER_NUMBERS] as usize, seen);
        let Some((way, number)) = reported else {
            let shorter = length < self.store.bytes.len();
            let refused = shorter || left > MAX_POSTS || ticket.calls > MAX_CALLS;
            assert!(refused, "refused for nothing, {}", self.again);
            seen.unreported += 1;
            return;
        };
        assert_eq!(number, ticket.number, "out of order, {}", self.again);
        seen.reported[way] += 1;
    }

    /// The ticket of the job that has had its turn. The others have waited.
    fn take_ticket(&mut self, line: usize, seen: &mut Seen) -> Ticket {
        for ticket in self.waiting.iter_mut().flatten() {
            ticket.waited += 1;
        }
        let ticket = self.waiting[line].pop_front();
        let ticket = ticket.unwrap_or_else(|| panic!("a job too many, {}", self.again));
        let Ticket { before, waited, .. } = ticket;
        assert!(waited <= 4 * (before + 1), "too late, {}", self.again);
        seen.longest[before] = waited.max(seen.longest[before]);
        ticket
    }

    /// The number of the job that was served, and the way it was told.
    fn reported(&self, returned: u32, place: usize) -> Option<(usize, u32)> {
        let answer = self.lines_call.answer.contents();
        match (returned, answer[0]) {
            (DONE, 0) => Some((0, answer[3])),
            (STOPPED, 18) => Some((1, self.lines_call.posts.contents()[place])),
            (REFUSED, 6) => Some((2, answer[1])),
            (REFUSED, 15 | 16 | 28) => None,
            other => panic!("told {other:?}"),
        }
    }
}
