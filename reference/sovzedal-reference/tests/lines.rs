//! The four lines of W6, sentence by sentence.

use sheets::cases::{asking_for_1, computing, endless, posting, posting_without_enable};
use sheets::smallest;
use sheets::tree::*;
use sovzedal_reference::lines::{at, Buffers, Job, Lines, Served, State, LINES, STATE_NUMBERS};
use sovzedal_reference::{run_eager, Cause, Outcome, Plain, Refusal, Request, Run, Stop};
use sovzedal_reference::{MAX_CALLS, MAX_CELL_BYTES, MAX_POSTS};

const ONE: u32 = 1 << 1;

/// The lines with a store, a cell store and a list to lend.
#[derive(Clone, Debug, PartialEq, Eq)]
struct Unit {
    lines: Lines,
    store: Vec<u8>,
    cells: Vec<u8>,
    posts: Vec<u32>,
}

impl Unit {
    fn new() -> Self {
        Self {
            lines: Lines::new(),
            store: Vec::new(),
            cells: vec![7; MAX_CELL_BYTES],
            posts: vec![7; MAX_POSTS],
        }
    }

    /// With numbers that no entry need have written.
    fn of(state: State) -> Self {
        Self {
            lines: Lines::from(&state),
            ..Self::new()
        }
    }

    fn state(&self) -> State {
        State::from(&self.lines)
    }

    /// Puts a sheet at the end of the store: the part that it is.
    fn keep(&mut self, sheet: &[u8]) -> (u64, u64) {
        let offset = self.store.len() as u64;
        self.store.extend_from_slice(sheet);
        (offset, sheet.len() as u64)
    }

    fn add(&mut self, line: u32, part: (u64, u64), calls: u32) -> Result<(), Refusal> {
        self.lines.add(line, job(part, calls), &self.store)
    }

    /// Puts a sheet into the store and queues it, with the largest allowance.
    fn queue(&mut self, line: u32, sheet: &[u8]) {
        let part = self.keep(sheet);
        self.add(line, part, MAX_CALLS).unwrap();
    }

    fn serve(&mut self) -> Option<Served> {
        self.lines.serve(Buffers {
            store: &self.store,
            cells: &mut self.cells,
            posts: &mut self.posts,
        })
    }

    /// Serves a job that there is.
    fn answer(&mut self) -> Result<Run, Refusal> {
        self.serve().expect("a job").answer
    }

    /// The line of each job and the number it ends in, until none waits.
    fn serve_all(&mut self) -> Vec<(usize, u16)> {
        let mut served = Vec::new();
        while let Some(Served { line, answer }) = self.serve() {
            let Outcome::End(Plain::Number(number)) = answer.expect("a run").outcome else {
                panic!("an end: {answer:?}");
            };
            served.push((line, number));
        }
        served
    }
}

fn job((offset, length): (u64, u64), calls: u32) -> Job {
    Job {
        offset,
        length,
        calls,
    }
}

fn refusal(cause: Cause) -> Refusal {
    Refusal { cause, place: 0 }
}

/// A sheet that ends in this number.
fn ending(value: u16) -> Vec<u8> {
    computing(number(value))
}

/// A sheet that makes these posts and ends in a sum of them.
fn making(posts: &[u16]) -> Vec<u8> {
    let posts = posts.iter().map(|&value| post(number(value)));
    computing(posts.reduce(sum).expect("a post"))
}

fn smallest(cause: usize) -> Vec<u8> {
    smallest::all().swap_remove(cause - 1).sheet
}

/// Queues a sheet that ends in `value` on each of the given lines, in order,
/// from 0 up.
fn queued_in_order(unit: &mut Unit, lines: &[u32]) {
    for (value, &line) in (0..).zip(lines) {
        unit.queue(line, &ending(value));
    }
}

#[test]
fn numbers() {
    let causes = [Cause::NoLine, Cause::OutsideStore, Cause::QueueFull];
    assert_eq!(causes.map(Cause::number), [27, 28, 29]);
    assert_eq!(STATE_NUMBERS, 102);
}

#[test]
fn the_queues_start_empty() {
    let mut unit = Unit::new();
    assert_eq!(unit.state(), [0; 102]);
    assert_eq!(Lines::from(&[0; 102]), Lines::new());
    assert_eq!(unit.serve(), None);
}

#[test]
fn each_line_keeps_up_to_eight_jobs() {
    let mut unit = Unit::new();
    for line in 0..4 {
        for count in 0..8 {
            assert_eq!(unit.lines.waiting(line as usize).count(), count);
            assert_eq!(unit.add(line, (0, 0), 0), Ok(()));
        }
        let before = unit.clone();
        assert_eq!(unit.add(line, (0, 0), 0), Err(refusal(Cause::QueueFull)));
        assert_eq!(unit, before);
    }
    // A turn makes room for one.
    assert_eq!(unit.answer(), Err(refusal(Cause::CutShort)));
    assert_eq!(unit.add(0, (0, 0), 0), Ok(()));
    assert_eq!(unit.add(0, (0, 0), 0), Err(refusal(Cause::QueueFull)));
}

#[test]
fn a_job_is_a_part_of_the_store() {
    let mut unit = Unit::new();
    unit.store = vec![0xFF; 3];
    let (first, second) = (unit.keep(&ending(1)), unit.keep(&ending(2)));
    unit.store.push(0);
    for part in [second, first, second] {
        unit.add(0, part, 0).unwrap();
    }
    assert_eq!(unit.serve_all(), [(0, 2), (0, 1), (0, 2)]);
    // With a byte more or less it isn't the sheet.
    let (offset, length) = second;
    unit.add(0, (offset, length + 1), 0).unwrap();
    unit.add(0, (offset, length - 1), 0).unwrap();
    assert_eq!(unit.answer(), Err(refusal(Cause::WrongTag)));
    assert_eq!(unit.answer(), Err(refusal(Cause::CutShort)));
}

#[test]
fn the_store_is_passed_anew_each_time() {
    // What is in it when the job is served is run.
    let mut unit = Unit::new();
    unit.queue(0, &ending(1));
    unit.store = ending(2);
    assert_eq!(unit.serve_all(), [(0, 2)]);
}

#[test]
fn a_job_has_a_calls_allowance() {
    let mut unit = Unit::new();
    let part = unit.keep(&endless());
    for calls in [0, 99, 4_096, 4_097, u32::MAX] {
        unit.add(0, part, calls).unwrap();
    }
    let mut stop = || {
        let run = unit.answer()?;
        match run.outcome {
            Outcome::Stop(stop) => Ok((stop.cause, run.calls)),
            Outcome::End(_) => panic!("an end"),
        }
    };
    assert_eq!(stop(), Ok((Cause::CallsSpent, 0)));
    assert_eq!(stop(), Ok((Cause::CallsSpent, 99)));
    // And 100 calls may be open.
    assert_eq!(stop(), Ok((Cause::TooManyOpenCalls, 100)));
    assert_eq!(stop(), Err(refusal(Cause::Allowance)));
    assert_eq!(stop(), Err(refusal(Cause::Allowance)));
}

#[test]
fn lines_are_served_in_turn_from_line_0() {
    let mut unit = Unit::new();
    queued_in_order(&mut unit, &[3, 2, 1, 0, 0, 1, 2, 3]);
    let in_turn = [
        (0, 3),
        (1, 2),
        (2, 1),
        (3, 0),
        (0, 4),
        (1, 5),
        (2, 6),
        (3, 7),
    ];
    assert_eq!(unit.serve_all(), in_turn);
}

#[test]
fn empty_lines_are_skipped() {
    let mut unit = Unit::new();
    queued_in_order(&mut unit, &[2, 2, 3]);
    assert_eq!(unit.serve_all(), [(2, 0), (3, 2), (2, 1)]);
    // The turn goes on after the line that was served, not after the one
    // whose turn it was: it is 3's now.
    queued_in_order(&mut unit, &[2, 1, 3]);
    assert_eq!(unit.serve_all(), [(3, 2), (1, 1), (2, 0)]);
}

#[test]
fn the_oldest_job_first() {
    let mut unit = Unit::new();
    queued_in_order(&mut unit, &[1, 1, 1]);
    assert_eq!(unit.answer().unwrap().outcome, end(0));
    unit.queue(1, &ending(3));
    assert_eq!(unit.serve_all(), [(1, 1), (1, 2), (1, 3)]);
}

fn end(value: u16) -> Outcome {
    Outcome::End(Plain::Number(value))
}

#[test]
fn one_whole_eager_run() {
    // With an empty stack and checks in force.
    let sheets = [
        posting(ONE),
        posting_without_enable(),
        asking_for_1(),
        endless(),
        smallest(20),
        smallest(21),
        smallest(22),
    ];
    for sheet in sheets {
        let mut unit = Unit::new();
        unit.queue(0, &sheet);
        let (mut cells, mut posts) = (unit.cells.clone(), unit.posts.clone());
        let run = run_eager(&sheet, &Request::LARGEST, &mut cells, &mut posts);
        assert_eq!(unit.answer(), run);
        assert_eq!((unit.cells, unit.posts), (cells, posts));
    }
}

#[test]
fn the_largest_cell_store() {
    let sheet = ending(1);
    for length in [0, 8, 65_528, 65_535, 65_537] {
        let mut unit = Unit::new();
        unit.cells = vec![7; length];
        unit.queue(0, &sheet);
        assert_eq!(unit.answer(), Err(refusal(Cause::Buffers)), "{length}");
        assert_eq!(unit.cells, vec![7; length]);
    }
}

#[test]
fn with_no_job_nothing_changes() {
    let mut unit = Unit::new();
    unit.queue(1, &making(&[4]));
    unit.answer().unwrap();
    let before = unit.clone();
    for _ in 0..3 {
        assert_eq!(unit.serve(), None);
        assert_eq!(unit, before);
    }
    // Line 2 still has the turn.
    queued_in_order(&mut unit, &[1, 2]);
    assert_eq!(unit.serve_all(), [(2, 1), (1, 0)]);
}

/// Whatever the other lines queue: from every turn, and for every j.
#[test]
fn a_job_has_its_turn_within_4_times_j_plus_1_runs() {
    let mut longest = [0; 8];
    for turn in 0..LINES {
        for line in 0..LINES {
            for (before, longest) in longest.iter_mut().enumerate() {
                let runs = runs_until_served(turn as u64, line, before);
                assert!(runs <= 4 * (before + 1), "{runs} for {before}");
                *longest = runs.max(*longest);
            }
        }
    }
    // The other lines are always full, so each bound is reached.
    assert_eq!(longest, [4, 8, 12, 16, 20, 24, 28, 32]);
}

/// How many runs it takes, its own and refused ones counted, while the other
/// lines are filled up after each.
fn runs_until_served(turn: u64, line: usize, before: usize) -> usize {
    let mut state = [0; 102];
    state[at::TURN] = turn;
    let mut unit = Unit::of(state);
    let part = unit.keep(&ending(77));
    for _ in 0..before {
        unit.add(line as u32, (0, 0), 0).unwrap();
    }
    unit.add(line as u32, part, 0).unwrap();
    for runs in 1.. {
        for other in (0..4).filter(|&other| other != line as u32) {
            while unit.add(other, (0, 0), 0).is_ok() {}
        }
        let served = unit.serve().expect("a job");
        if let Ok(run) = served.answer {
            assert_eq!((served.line, run.outcome), (line, end(77)));
            return runs;
        }
    }
    unreachable!("an end")
}

#[test]
fn posts_share_one_list() {
    let mut unit = Unit::new();
    unit.queue(0, &making(&[1, 2]));
    unit.queue(1, &computing(sum(post(number(3)), variable(0))));
    unit.queue(2, &ending(5));
    unit.queue(3, &making(&[4]));
    let posts = |unit: &mut Unit| unit.answer().unwrap().posts;
    assert_eq!((posts(&mut unit), unit.lines.place()), (2, 2));
    // Stopped, and its post stays.
    assert_eq!((posts(&mut unit), unit.lines.place()), (1, 3));
    assert_eq!((posts(&mut unit), unit.lines.place()), (0, 3));
    assert_eq!((posts(&mut unit), unit.lines.place()), (1, 4));
    assert_eq!(unit.posts[..5], [1, 2, 3, 4, 7]);
    assert_eq!(unit.posts[4..], [7; 252]);
}

#[test]
fn a_job_sees_only_what_is_left_of_the_list() {
    let mut unit = Unit::new();
    unit.posts = vec![7; 3];
    unit.queue(0, &making(&[1, 2]));
    unit.queue(0, &making(&[3, 4]));
    unit.queue(0, &making(&[5]));
    assert_eq!(unit.answer().unwrap().outcome, end(3));
    let full = |term, posts| Run {
        outcome: Outcome::Stop(Stop {
            cause: Cause::NoPost,
            term,
        }),
        calls: 0,
        cells: 0,
        posts,
        held: 0,
    };
    assert_eq!(unit.answer(), Ok(full(3, 1)));
    assert_eq!(unit.answer(), Ok(full(1, 0)));
    assert_eq!((unit.posts, unit.lines.place()), (vec![1, 2, 3], 3));
}

#[test]
fn nothing_is_left_of_a_list_that_is_shorter_than_the_place() {
    let mut unit = Unit::new();
    unit.queue(0, &making(&[1, 2, 3]));
    unit.queue(0, &making(&[4]));
    unit.queue(0, &ending(6));
    unit.queue(0, &making(&[5]));
    unit.answer().unwrap();
    let whole = unit.posts.clone();
    for length in [2, 0] {
        unit.posts = vec![9; length];
        let run = unit.answer().unwrap();
        assert_eq!((run.posts, unit.lines.place()), (0, 3));
        assert_eq!(unit.posts, vec![9; length]);
    }
    // The place is still there when the list is long enough again.
    unit.posts = whole;
    unit.answer().unwrap();
    assert_eq!(unit.posts[..5], [1, 2, 3, 5, 7]);
}

#[test]
fn fifteen_is_tested_on_what_is_left() {
    for place in [0, 1, 300] {
        let mut state = [0; 102];
        state[at::PLACE] = place as u64;
        for (left, cause) in [(256, None), (257, Some(Cause::Buffers))] {
            let mut unit = Unit::of(state);
            unit.posts = vec![7; place + left];
            unit.queue(0, &making(&[4]));
            assert_eq!(unit.answer().err(), cause.map(refusal));
            let posted = if cause.is_none() { 4 } else { 7 };
            assert_eq!(unit.posts[place], posted);
        }
    }
}

#[test]
fn a_refused_job_uses_up_its_turn_and_its_number_is_reported() {
    let refused = [
        (smallest(1), Cause::CutShort, 0),
        (smallest(5), Cause::TypeRecord, 1),
        (smallest(7), Cause::Shape, 0),
    ];
    for (sheet, cause, place) in refused {
        let mut unit = Unit::new();
        unit.queue(1, &making(&[4, 5]));
        unit.queue(1, &sheet);
        unit.queue(1, &ending(1));
        unit.queue(2, &ending(2));
        unit.serve();
        // Line 2 is served between them.
        assert_eq!(unit.serve().unwrap().line, 2);
        let before = unit.clone();
        let served = Served {
            line: 1,
            answer: Err(Refusal { cause, place }),
        };
        assert_eq!(unit.serve(), Some(served));
        assert_eq!(unit.lines.place(), 2);
        assert_eq!((&unit.cells, &unit.posts), (&before.cells, &before.posts));
        unit.queue(2, &ending(3));
        assert_eq!(unit.serve_all(), [(2, 3), (1, 1)]);
    }
}

#[test]
fn a_job_is_28_if_the_store_is_shorter_when_it_is_served() {
    let mut unit = Unit::new();
    let sheet = making(&[4]);
    unit.store = vec![0];
    for _ in 0..3 {
        unit.queue(3, &sheet);
    }
    let whole = unit.store.clone();
    unit.store.truncate(sheet.len());
    let before = unit.clone();
    let outside = Served {
        line: 3,
        answer: Err(refusal(Cause::OutsideStore)),
    };
    assert_eq!(unit.serve(), Some(outside));
    assert_eq!((&unit.cells, &unit.posts), (&before.cells, &before.posts));
    unit.store = Vec::new();
    assert_eq!(unit.serve(), Some(outside));
    // The last one is inside again.
    unit.store = whole;
    assert_eq!(unit.answer().unwrap().outcome, end(4));
    assert_eq!(unit.serve(), None);
}

#[test]
fn refusals_of_a_job_have_their_order() {
    let cause_of = |sheet: &[u8], store: usize, cells: usize, posts: usize, calls: u32| {
        let mut unit = Unit::new();
        let part = unit.keep(sheet);
        unit.add(0, part, calls).unwrap();
        unit.store.truncate(store);
        unit.cells = vec![7; cells];
        unit.posts = vec![7; posts];
        unit.answer().unwrap_err().cause.number() as usize
    };
    // First by 28, then by the sheet, the buffers and the allowance.
    for cause in 2..=8 {
        let sheet = smallest(cause);
        assert_eq!(cause_of(&sheet, sheet.len() - 1, 8, 257, 4_097), 28);
        assert_eq!(cause_of(&sheet, sheet.len(), 8, 257, 4_097), cause);
    }
    assert_eq!(cause_of(&[], 0, 8, 257, 4_097), 1);
    let sheet = ending(1);
    assert_eq!(cause_of(&sheet, sheet.len(), 8, 256, 4_097), 15);
    assert_eq!(cause_of(&sheet, sheet.len(), 65_536, 257, 4_097), 15);
    assert_eq!(cause_of(&sheet, sheet.len(), 65_536, 256, 4_097), 16);
}

#[test]
fn a_run_does_not_judge() {
    let causes = [9, 10, 11, 12, 13].map(|cause| {
        let mut unit = Unit::new();
        unit.queue(0, &smallest(cause));
        match unit.answer().unwrap().outcome {
            Outcome::Stop(stop) => stop.cause.number(),
            Outcome::End(_) => 0,
        }
    });
    assert_eq!(causes, [18, 18, 17, 18, 18]);
}

#[test]
fn a_line_other_than_0_to_3_is_27() {
    let mut unit = Unit::new();
    unit.store = vec![0; 4];
    for line in [4, 5, 255, 256, 259, 65_536, 1 << 31, u32::MAX] {
        assert_eq!(unit.add(line, (0, 4), 0), Err(refusal(Cause::NoLine)));
        assert_eq!(unit.state(), [0; 102]);
    }
}

#[test]
fn a_part_outside_the_store_is_28() {
    const MOST: u64 = u64::MAX;
    let mut unit = Unit::new();
    unit.store = vec![0; 4];
    let outside = [
        (0, 5),
        (4, 1),
        (5, 0),
        (3, 2),
        (MOST, 0),
        (MOST, 1),
        (1, MOST),
        (MOST, MOST),
        (2, MOST - 1),
        (MOST - 1, 4),
        (1 << 32, 0),
        (0, 1 << 32),
    ];
    for part in outside {
        assert_eq!(
            unit.add(0, part, 0),
            Err(refusal(Cause::OutsideStore)),
            "{part:?}"
        );
        assert_eq!(unit.state(), [0; 102]);
    }
    for part in [(0, 4), (0, 0), (3, 1), (2, 2), (4, 0)] {
        assert_eq!(unit.add(0, part, 0), Ok(()), "{part:?}");
    }
    unit.store.clear();
    assert_eq!(unit.add(0, (0, 0), 0), Ok(()));
}

#[test]
fn they_are_tested_in_that_order() {
    let mut unit = Unit::new();
    for line in 0..4 {
        while unit.add(line, (0, 0), 0).is_ok() {}
    }
    let before = unit.clone();
    let mut cause = |line, part| unit.add(line, part, 0).unwrap_err().cause;
    assert_eq!(cause(4, (0, 1)), Cause::NoLine);
    assert_eq!(cause(4, (0, 0)), Cause::NoLine);
    assert_eq!(cause(3, (0, 1)), Cause::OutsideStore);
    assert_eq!(cause(3, (0, 0)), Cause::QueueFull);
    assert_eq!(unit, before);
}

#[test]
fn a_state_has_the_turn_the_place_the_counts_and_the_jobs() {
    let mut unit = Unit::new();
    unit.store = vec![0; 100];
    unit.keep(&making(&[4]));
    unit.add(0, (100, 62), 3).unwrap();
    unit.add(2, (5, 6), 7).unwrap();
    unit.add(2, (8, 9), u32::MAX).unwrap();
    let mut state = [0; 102];
    state[2..9].copy_from_slice(&[1, 0, 2, 0, 100, 62, 3]);
    state[6 + 48..6 + 54].copy_from_slice(&[5, 6, 7, 8, 9, u64::from(u32::MAX)]);
    assert_eq!(unit.state(), state);
    assert_eq!(Lines::from(&state), unit.lines);

    unit.answer().unwrap();
    state[..9].copy_from_slice(&[1, 1, 0, 0, 2, 0, 0, 0, 0]);
    assert_eq!(unit.state(), state);

    unit.answer().unwrap_err();
    state[..6].copy_from_slice(&[3, 1, 0, 0, 1, 0]);
    state[54..60].copy_from_slice(&[8, 9, u64::from(u32::MAX), 0, 0, 0]);
    assert_eq!(unit.state(), state);
}

#[test]
fn a_state_that_no_entry_made() {
    const BEYOND: u64 = 1 << 32;
    let mut state = [BEYOND; 102];
    state[..6].copy_from_slice(&[BEYOND + 7, u64::MAX, 9, u64::MAX, 1, 0]);
    // The turn is 3's, which has no job; lines 0 and 1 have eight each.
    let mut unit = Unit::of(state);
    let counts = [0, 1, 2, 3].map(|line| unit.lines.waiting(line).count());
    assert_eq!(counts, [8, 8, 1, 0]);
    let job = job((BEYOND, BEYOND), u32::MAX);
    for line in 0..3 {
        assert!(unit.lines.waiting(line).all(|waiting| waiting == job));
    }
    assert_eq!(unit.add(0, (0, 0), 0), Err(refusal(Cause::QueueFull)));
    unit.add(3, (0, 0), 5).unwrap();
    let written = unit.state();
    assert_eq!(written[..6], [3, u64::MAX, 8, 8, 1, 1]);
    assert_eq!(written[6..9], [BEYOND, BEYOND, BEYOND - 1]);
    // Zero past the one job of line 2 and that of line 3.
    assert_eq!(written[57..78], [0; 21]);
    assert_eq!(written[78..81], [0, 0, 5]);
    assert_eq!(written[81..], [0; 21]);

    assert_eq!(unit.serve().unwrap().line, 3);
    unit.keep(&making(&[4]));
    for line in [0, 1, 2, 0] {
        let outside = Err(refusal(Cause::OutsideStore));
        let answer = outside;
        assert_eq!(unit.serve(), Some(Served { line, answer }));
    }
    // The place is past every list.
    let mut unit = Unit::of(state);
    unit.queue(3, &making(&[4]));
    assert_eq!(unit.answer().unwrap().posts, 0);
    assert_eq!((unit.lines.place(), unit.posts), (u64::MAX, vec![7; 256]));
}
