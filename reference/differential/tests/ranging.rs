//! Random sheets with ranges for their numbers, run by the library and by the
//! reference: they return the same, and every number in and around every buffer
//! is the same. Then numbers are drawn within the ranges and written into the
//! sheet, and the plain runs of both are held against the answer by W14's
//! sentence.

use differential::ranging::holds;
use differential::{settings, Buffers, Coverage, Implementation, Library, Ranging, Reference};
use differential::{Entry, Query, ANSWER_NUMBERS};
use sheets::extremes::{deepest, most_held, widest};
use sheets::load::frame_sheet;
use sheets::ranges::{self, Wrong};
use sheets::request::Request;
use sheets::rng::Rng;
use sheets::world::World;
use sheets::{hex, ranged};
use std::collections::BTreeSet;

const SHEETS: u64 = 24_000;

/// How many choices are made within the ranges of a run.
const CHOICES: usize = 6;

const ENDED: u32 = 0;
const STOPPED: u32 = 1;
const REFUSED: u32 = 2;
const UNFIT: u32 = 3;

/// An if whose condition is undecided.
const UNDECIDED: u32 = 36;
/// Pairs that aren't those of the sheet's numbers.
const PAIRS: u32 = 35;

/// What has to happen, beside each refusal and stop.
const EXPECTED: [&str; 22] = [
    "a short answer",
    "a longer answer",
    "ended in a range",
    "ended in a range up to 65,535",
    "ended in a range from 0",
    "ended in one number",
    "ended in no",
    "ended in yes",
    "ended undecided",
    "posts of ranges",
    "36 after posts",
    "36 after calls",
    "36 where the plain run ends",
    "36 with checks passed over, 17 in force",
    "version 2 by right pairs, 35",
    "plain runs that end apart",
    "plain runs that say yes and no",
    "plain runs that post apart",
    "plain runs that are stopped",
    "plain runs at the lowest of the answer",
    "plain runs at the highest of the answer",
    "plain runs with checks passed over",
];

#[test]
fn both_answer_alike_and_hold_the_plain_runs() {
    let mut coverage = Coverage::default();
    for case in ranged::all() {
        let rng = &mut Rng::new(14);
        for _ in 0..20 {
            let asking = Asking {
                sheet: &case.sheet,
                pairs: case.pairs.clone(),
                wrong: None,
                request: case.request.clone(),
                again: case.name.to_string(),
            };
            asking.ask_all(rng, &mut coverage);
        }
    }
    for batch in settings::batches(SHEETS) {
        for index in batch.items {
            // Not the sheets that the other tests have had from this seed.
            let rng = &mut Rng::for_item(batch.seed.rotate_left(14), index);
            let sample = ranges::random_sheet(rng);
            let (pairs, wrong) = random_pairs(rng, &sample.bytes);
            let asking = Asking {
                sheet: &sample.bytes,
                pairs,
                wrong,
                request: random_request(rng, &sample.world),
                again: settings::again(batch.seed, index),
            };
            asking.ask_all(rng, &mut coverage);
        }
    }
    println!("{coverage}");
    let refusals = (1..=8).chain([31, 14, 15, 16, PAIRS]);
    let refusals = refusals.map(|cause| format!("refused, {cause}"));
    let stops = (17..=22).chain([UNDECIDED]);
    let stops = stops.map(|cause| format!("stopped, {cause}"));
    let wrong = Wrong::ALL.map(|wrong| format!("{wrong:?}, {PAIRS}"));
    let before = [8, 31, 14, 15, 16].map(|cause| format!("wrong pairs, {cause} before {PAIRS}"));
    let expected = EXPECTED.map(String::from).into_iter();
    let expected = expected.chain(refusals).chain(stops);
    let never = coverage.never(expected.chain(wrong).chain(before));
    assert!(
        !settings::are_whole() || never.is_empty(),
        "never happened: {never:?}"
    );
}

/// The deepest, widest and costliest runs, with the numbers as they are written,
/// with some of them within limits, and with all of them unknown.
#[test]
fn the_largest_runs_are_alike() {
    let mut coverage = Coverage::default();
    let sheets = [deepest(), widest(), most_held(), frame_sheet(0)];
    for (index, sheet) in sheets.iter().enumerate() {
        let rng = &mut Rng::new(index as u64);
        let written = ranges::numbers_of(sheet).into_iter();
        let unknown = written.clone().flat_map(|_| [0, 65_535]).collect();
        let written = written.flat_map(|number| [number; 2]).collect();
        let some = ranges::random_pairs(rng, sheet);
        for pairs in [written, some, unknown] {
            let asking = Asking {
                sheet,
                pairs,
                wrong: None,
                request: Request::largest(),
                again: format!("sheet {index}"),
            };
            asking.ask_both(rng, 1, ANSWER_NUMBERS, &mut coverage);
        }
    }
    println!("{coverage}");
}

/// Right pairs, or wrong ones and what is wrong with them.
fn random_pairs(rng: &mut Rng, sheet: &[u8]) -> (Vec<u16>, Option<Wrong>) {
    let right = ranges::random_pairs(rng, sheet);
    if rng.percent(15) {
        let wrong = rng.pick(&Wrong::ALL);
        if let Some(pairs) = ranges::wrong_pairs(rng, &right, wrong) {
            return (pairs, Some(wrong));
        }
    }
    (right, None)
}

/// Mostly one that isn't refused.
fn random_request(rng: &mut Rng, world: &World) -> Request {
    let request = Request::random(rng, world);
    if rng.percent(30) {
        request
    } else {
        Request::random_admissible(rng, request.start)
    }
}

/// What is asked about one sheet.
struct Asking<'a> {
    sheet: &'a [u8],
    pairs: Vec<u16>,
    wrong: Option<Wrong>,
    request: Request,
    again: String,
}

/// A run's status, its answer and the posts made.
struct RunResult {
    status: u32,
    answer: [u32; ANSWER_NUMBERS],
    posts: Vec<u32>,
}

impl RunResult {
    fn new(status: u32, buffers: &Buffers) -> Self {
        let answer = *buffers.answer().expect("the answer has room");
        let posts = buffers.posts.contents()[..answer[6] as usize].to_vec();
        Self {
            status,
            answer,
            posts,
        }
    }

    fn cause(&self) -> u32 {
        self.answer[0]
    }

    fn holds(&self, plain: &RunResult) -> bool {
        holds(
            (self.status, &self.answer, &self.posts),
            (plain.status, &plain.answer, &plain.posts),
        )
    }
}

impl Asking<'_> {
    /// With checks in force and passed over.
    fn ask_all(&self, rng: &mut Rng, coverage: &mut Coverage) {
        let enforced = rng.pick(&[1, 1, 2, 256, u32::MAX]);
        let [enforced, skipped] = [enforced, 0].map(|enforce| {
            let answer = random_answer_length(rng);
            let result = self.ask_both(rng, enforce, answer, coverage)?;
            self.count(&result, coverage);
            if result.status != REFUSED && result.cause() != UNDECIDED {
                self.hold_plain_runs(rng, enforce, &result, coverage);
            }
            self.count_undecided(rng, enforce, &result, coverage);
            Some(result)
        });
        if let (Some(enforced), Some(skipped)) = (enforced, skipped) {
            coverage.count_if(
                enforced.cause() == 17 && skipped.cause() == UNDECIDED,
                "36 with checks passed over, 17 in force",
            );
        }
    }

    fn ranging(&self, enforce: u32) -> Ranging<'_> {
        Ranging {
            sheet: self.sheet,
            pairs: &self.pairs,
            request: &self.request,
            enforce,
        }
    }

    /// One run of both, compared whole; `None` if the answer has no room.
    fn ask_both(
        &self,
        rng: &mut Rng,
        enforce: u32,
        answer: usize,
        coverage: &mut Coverage,
    ) -> Option<RunResult> {
        let ranging = self.ranging(enforce);
        let before = ranging.buffers(rng, answer);
        let [mut library, mut reference] = [before.clone(), before.clone()];
        let returned = ranging.of::<Library>(&mut library);
        let expected = ranging.of::<Reference>(&mut reference);
        assert_eq!(
            (returned, library.answer.contents()),
            (expected, reference.answer.contents()),
            "enforce {enforce}, {}",
            self.what()
        );
        assert!(
            library == reference,
            "enforce {enforce}, first difference: cells {:?}, posts {:?}, {}",
            library.cells.first_difference(&reference.cells),
            library.posts.first_difference(&reference.posts),
            self.what()
        );
        if answer < ANSWER_NUMBERS {
            assert!(returned == UNFIT && library == before, "{}", self.what());
            coverage.count("a short answer");
            return None;
        }
        coverage.count_if(answer > ANSWER_NUMBERS, "a longer answer");
        if returned == REFUSED {
            let untouched = Buffers {
                answer: library.answer.clone(),
                ..before
            };
            assert!(library == untouched, "{}", self.what());
        }
        Some(RunResult::new(returned, &library))
    }

    fn count(&self, result: &RunResult, coverage: &mut Coverage) {
        let [cause, _, ty, value, calls, _, posts, held] = result.answer;
        assert_eq!(held, 0, "{}", self.what());
        match result.status {
            ENDED => coverage.count(match (ty, value) {
                (0, 0) => "ended in no",
                (0, 1) => "ended in yes",
                (0, 2) => "ended undecided",
                (1, _) if value >> 16 == value & 0xFFFF => "ended in one number",
                (1, _) if value & 0xFFFF == 65_535 => "ended in a range up to 65,535",
                (1, _) if value >> 16 == 0 => "ended in a range from 0",
                (1, _) => "ended in a range",
                _ => panic!("{:?}, {}", result.answer, self.what()),
            }),
            STOPPED => coverage.count(format!("stopped, {cause}")),
            _ => self.count_refused(cause, coverage),
        }
        let wide = |post: &u32| post >> 16 < post & 0xFFFF;
        coverage.count_if(result.posts.iter().any(wide), "posts of ranges");
        coverage.count_if(cause == UNDECIDED && posts > 0, "36 after posts");
        coverage.count_if(cause == UNDECIDED && calls > 0, "36 after calls");
    }

    /// Wrong pairs are told last.
    fn count_refused(&self, cause: u32, coverage: &mut Coverage) {
        coverage.count(format!("refused, {cause}"));
        match (cause, self.wrong) {
            (PAIRS, Some(wrong)) => coverage.count(format!("{wrong:?}, {PAIRS}")),
            (PAIRS, None) => coverage.count("version 2 by right pairs, 35"),
            (_, Some(_)) => coverage.count(format!("wrong pairs, {cause} before {PAIRS}")),
            (_, None) => {}
        }
    }

    /// An undecided if says nothing of the plain run, which may end or not.
    fn count_undecided(
        &self,
        rng: &mut Rng,
        enforce: u32,
        result: &RunResult,
        coverage: &mut Coverage,
    ) {
        if result.cause() == UNDECIDED {
            let ranging = self.ranging(enforce);
            let plain = run::<Reference>(rng, &ranging.plainly(self.sheet));
            coverage.count_if(plain.status == ENDED, "36 where the plain run ends");
        }
    }

    /// "for every such choice the plain run from the same stack, its checks
    /// treated alike, under the same allowances and buffers ends inside the
    /// answer or stops with the same cause and term, with as many posts, each
    /// inside its range, and equal calls and cells".
    fn hold_plain_runs(
        &self,
        rng: &mut Rng,
        enforce: u32,
        result: &RunResult,
        coverage: &mut Coverage,
    ) {
        let ranging = self.ranging(enforce);
        let (mut values, mut posts) = (BTreeSet::new(), BTreeSet::new());
        for _ in 0..CHOICES {
            let choice = ranges::random_choice(rng, &self.pairs);
            let chosen = ranges::with_numbers(self.sheet, &choice);
            let query = ranging.plainly(&chosen);
            let plain = run::<Library>(rng, &query);
            let held = result.holds(&plain);
            assert!(held, "enforce {enforce}, {choice:?}, {}", self.what());
            let held = result.holds(&run::<Reference>(rng, &query));
            assert!(held, "enforce {enforce}, {choice:?}, {}", self.what());
            values.insert(plain.answer[3]);
            posts.insert(plain.posts);
        }
        let [_, _, ty, value, ..] = result.answer;
        coverage.count_if(values.len() > 1, "plain runs that end apart");
        let both = result.status == ENDED && ty == 0 && values.len() == 2;
        coverage.count_if(both, "plain runs that say yes and no");
        coverage.count_if(posts.len() > 1, "plain runs that post apart");
        coverage.count_if(result.status == STOPPED, "plain runs that are stopped");
        let [lowest, highest] = [value >> 16, value & 0xFFFF];
        let reached = |end: u32| ty == 1 && lowest < highest && values.contains(&end);
        coverage.count_if(reached(lowest), "plain runs at the lowest of the answer");
        coverage.count_if(reached(highest), "plain runs at the highest of the answer");
        coverage.count_if(enforce == 0, "plain runs with checks passed over");
    }

    fn what(&self) -> String {
        format!(
            "sheet {}, pairs {:?}, {:?}, {}",
            hex(self.sheet),
            self.pairs,
            self.request,
            self.again
        )
    }
}

/// A plain run in buffers of its own.
fn run<I: Implementation>(rng: &mut Rng, query: &Query) -> RunResult {
    let mut buffers = Buffers::random(rng, Entry::RunEager, query.request, ANSWER_NUMBERS);
    let status = query.of::<I>(&mut buffers);
    RunResult::new(status, &buffers)
}

/// Mostly just enough; sometimes too short, sometimes with a rest to keep.
fn random_answer_length(rng: &mut Rng) -> usize {
    match rng.below(20) {
        0 => rng.below(ANSWER_NUMBERS),
        1 | 2 => rng.between(ANSWER_NUMBERS + 1, 2 * ANSWER_NUMBERS),
        _ => ANSWER_NUMBERS,
    }
}
