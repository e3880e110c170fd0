//! W14: members known within limits. The cases, the arithmetic of ranges over
//! all values of small ones, and plain runs of numbers drawn within.

use sheets::ranged::Ranged;
use sheets::ranges::{self, Wrong};
use sheets::request::Request as Query;
use sheets::rng::Rng;
use sheets::{hex, ranged};
use sovzedal_reference::{decode, run_eager, run_ranges};
use sovzedal_reference::{Cause, Checks, Outcome, Plain, Range, RangeRun, Refusal, Reply};
use sovzedal_reference::{Request, Run, Term, Truth};

const SHEETS: u64 = 6_000;
const SEED: u64 = 14;

/// How many choices are made for a sheet.
const CHOICES: usize = 8;

/// What the lent buffers hold before a run.
const CELL: u8 = 0xA5;
const POST: u32 = 0xA5A5_A5A5;

/// An answer with the buffers as it left them.
#[derive(Clone, Debug, PartialEq, Eq)]
struct Left<R> {
    result: Result<R, Refusal>,
    cells: Vec<u8>,
    posts: Vec<u32>,
}

fn left<R>(
    query: &Query,
    checks: Checks,
    run: impl FnOnce(&Request, &mut [u8], &mut [u32]) -> Result<R, Refusal>,
) -> Left<R> {
    let request = Request {
        start: &query.start,
        calls: query.calls,
        open_calls: query.open_calls,
        checks,
    };
    let (mut cells, mut posts) = (vec![CELL; query.cell_bytes], vec![POST; query.posts]);
    let result = run(&request, &mut cells, &mut posts);
    Left {
        result,
        cells,
        posts,
    }
}

fn over_ranges(sheet: &[u8], pairs: &[u16], query: &Query, checks: Checks) -> Left<RangeRun> {
    left(query, checks, |request, cells, posts| {
        run_ranges(sheet, pairs, request, cells, posts)
    })
}

fn plainly(sheet: &[u8], query: &Query, checks: Checks) -> Left<Run> {
    left(query, checks, |request, cells, posts| {
        run_eager(sheet, request, cells, posts)
    })
}

/// Sheets of every sort, pairs for them, and requests.
fn drawn() -> impl Iterator<Item = (Vec<u8>, Vec<u16>, Query, Rng)> {
    (0..SHEETS).map(|index| {
        let mut rng = Rng::for_item(SEED, index);
        let sample = ranges::random_sheet(&mut rng);
        let pairs = ranges::random_pairs(&mut rng, &sample.bytes);
        let request = Query::random(&mut rng, &sample.world);
        let request = match rng.percent(70) {
            true => Query::random_admissible(&mut rng, request.start),
            false => request,
        };
        (sample.bytes, pairs, request, rng)
    })
}

/// What is told, in short.
#[derive(Clone, Copy, Debug, PartialEq, Eq)]
enum Summary {
    Number(u16, u16),
    Bool(Truth),
    Stop(u32, u16),
    Refused(u32),
}

use Summary::{Number, Refused, Stop};

fn summary(run: Result<RangeRun, Refusal>) -> Summary {
    match run {
        Ok(run) => match run.outcome {
            Outcome::End(Plain::Number(range)) => Number(range.lowest, range.highest),
            Outcome::End(Plain::Bool(truth)) => Summary::Bool(truth),
            Outcome::Stop(stop) => Stop(stop.cause.number(), stop.term),
        },
        Err(refusal) => Refused(refusal.cause.number()),
    }
}

#[test]
fn each_case_has_its_answer() {
    const YES: Summary = Summary::Bool(Truth::Yes);
    const NO: Summary = Summary::Bool(Truth::No);
    const UNDECIDED: Summary = Summary::Bool(Truth::Undecided);
    let expected = [
        ("a number", Number(3, 9)),
        ("a number as it is written", Number(7, 7)),
        ("any number", Number(0, 65_535)),
        ("a boolean", YES),
        ("a sum", Number(13, 29)),
        ("a sum up to the limit", Number(1, 65_535)),
        ("a sum past the limit by one", Number(1, 65_535)),
        ("a sum that is held throughout", Number(65_535, 65_535)),
        ("the widest sum", Number(0, 65_535)),
        ("a difference", Number(5, 17)),
        ("a difference down to the limit", Number(0, 17)),
        ("a difference past the limit by one", Number(0, 17)),
        ("a difference that is held throughout", Number(0, 0)),
        ("the widest difference", Number(0, 65_535)),
        ("a held sum is the operand", Number(65_098, 65_534)),
        ("less, all below", YES),
        ("less, touching from below", UNDECIDED),
        ("less, overlapping", UNDECIDED),
        ("less, one inside the other", UNDECIDED),
        ("less, the other way round", UNDECIDED),
        ("less, touching from above", NO),
        ("less, above by one", NO),
        ("less, the same number", NO),
        ("less, the same range", UNDECIDED),
        ("less, numbers next to each other", YES),
        ("less, at the limits", YES),
        ("less, anything", UNDECIDED),
        ("less, anything than 0", NO),
        ("undecided, passed and returned", UNDECIDED),
        ("undecided, and never asked", Number(8, 9)),
        ("an if that is undecided", Stop(36, 5)),
        (
            "an if that is undecided between equal branches",
            Stop(36, 5),
        ),
        ("an if that is undecided in a body", Stop(36, 3)),
        ("an if that is undecided in a condition", Stop(36, 5)),
        ("an if that is decided", Number(5, 6)),
        ("an if that is decided the other way", Number(5, 6)),
        ("a branch that is undecided", UNDECIDED),
        ("an if of a number", Stop(18, 3)),
        ("an if of a function", Stop(18, 5)),
        ("a sum of what is undecided", Stop(18, 4)),
        ("a post of what is undecided", Stop(18, 3)),
        ("a call of what is undecided", Stop(18, 4)),
        ("less of what is undecided", Stop(18, 4)),
        ("a post", Number(3, 9)),
        ("a post of one number", Number(65_535, 65_535)),
        ("two posts", Number(0, 189)),
        ("a post before 36", Stop(36, 7)),
        ("a member twice", Number(6, 18)),
        ("a member minus itself", Number(0, 6)),
        ("a member against itself", UNDECIDED),
        ("a count that is known", Number(6, 9)),
        ("a count that is not", Stop(36, 11)),
        ("a count too high", Stop(19, 9)),
        ("a refused check", Stop(17, 2)),
        ("a check that passes", Number(3, 9)),
        ("an enabled check", Number(3, 9)),
        ("a test", Number(3, 9)),
        ("stuck at a variable", Stop(18, 1)),
        ("a function at the root", Stop(18, 3)),
        ("a call of a number", Stop(18, 2)),
        ("no open call", Stop(19, 4)),
        ("calls spent", Stop(20, 4)),
        ("no cell", Stop(21, 4)),
        ("one cell", Number(3, 9)),
        ("no place for a post", Stop(22, 1)),
        ("the right operand has the lower number", Number(8, 19)),
        ("three members by their places", Number(68, 99)),
        ("no pairs", Refused(35)),
        ("a pair too few", Refused(35)),
        ("half a pair too few", Refused(35)),
        ("half a pair too many", Refused(35)),
        ("a pair too many", Refused(35)),
        ("the first lowest above its highest", Refused(35)),
        ("the last lowest above its highest", Refused(35)),
        ("a lowest above its highest where no run comes", Refused(35)),
        ("pairs for no numbers", Refused(35)),
        ("version 2", Refused(35)),
        ("version 2, without pairs", Refused(35)),
        ("31 before 35", Refused(31)),
        ("7 before 35", Refused(7)),
        ("14 before 35", Refused(14)),
        ("15 before 35", Refused(15)),
        ("16 before 35", Refused(16)),
    ];
    let all: Vec<_> = ranged::all()
        .iter()
        .map(|case| {
            let left = over_ranges(&case.sheet, &case.pairs, &case.request, Checks::Enforced);
            (case.name, summary(left.result))
        })
        .collect();
    assert_eq!(all, expected);
}

/// "a post is listed as lowest × 65,536 + highest", and what was posted and
/// counted before 36 stands.
#[test]
fn posts_and_counts_of_the_cases() {
    let of = |name: &str| {
        let all = ranged::all();
        let case = all.iter().find(|case| case.name == name).expect(name);
        let left = over_ranges(&case.sheet, &case.pairs, &case.request, Checks::Enforced);
        let run = left.result.expect("a run that starts");
        assert!(left.cells.iter().all(|&byte| byte == 0));
        assert!(left.posts[run.posts as usize..]
            .iter()
            .all(|&post| post == POST));
        (
            run.calls,
            run.cells,
            left.posts[..run.posts as usize].to_vec(),
        )
    };
    let word = |lowest: u32, highest: u32| lowest * 65_536 + highest;
    assert_eq!(of("a post"), (0, 0, vec![word(3, 9)]));
    assert_eq!(of("a post of one number"), (0, 0, vec![u32::MAX]));
    let two = vec![word(100, 200), word(11, 65_535)];
    assert_eq!(of("two posts"), (0, 0, two));
    assert_eq!(of("a post before 36"), (0, 0, vec![word(3, 9)]));
    assert_eq!(of("an if that is undecided in a body"), (1, 1, vec![]));
    assert_eq!(of("a count that is known"), (4, 5, vec![]));
    assert_eq!(of("a count that is not"), (3, 4, vec![]));
    assert_eq!(of("a count too high"), (100, 101, vec![]));
    assert_eq!(of("a refused check"), (0, 0, vec![]));
}

/// Checks are passed over as in an eager run; a test is not.
#[test]
fn checks_passed_over() {
    for case in ranged::all() {
        let [enforced, skipped] = [Checks::Enforced, Checks::Skipped]
            .map(|checks| over_ranges(&case.sheet, &case.pairs, &case.request, checks));
        if case.name == "a refused check" {
            assert_eq!(summary(skipped.result), Number(3, 9));
            assert_eq!(skipped.posts[0], 3 * 65_536 + 9);
        } else {
            assert_eq!(enforced, skipped, "{}", case.name);
        }
    }
}

/// Entry 3 of the answer has a range as a list of posts has it, or 2 for
/// undecided, and entry 7 is 0: "Held results aren't counted."
#[test]
fn answers_by_their_numbers() {
    for case in ranged::all() {
        let left = over_ranges(&case.sheet, &case.pairs, &case.request, Checks::Enforced);
        let counts = left
            .result
            .map_or([0; 4], |run| [run.calls, run.cells, run.posts, 0]);
        let (status, first) = match summary(left.result) {
            Number(lowest, highest) => (0, [0, 0, 1, u32::from(lowest) << 16 | u32::from(highest)]),
            Summary::Bool(Truth::No) => (0, [0, 0, 0, 0]),
            Summary::Bool(Truth::Yes) => (0, [0, 0, 0, 1]),
            Summary::Bool(Truth::Undecided) => (0, [0, 0, 0, 2]),
            Stop(cause, term) => (1, [cause, term.into(), 0, 0]),
            Refused(cause) => (2, [cause, left.result.unwrap_err().place, 0, 0]),
        };
        let reply = Reply::from(left.result);
        assert_eq!(reply.status, status, "{}", case.name);
        assert_eq!(reply.answer[..4], first, "{}", case.name);
        assert_eq!(reply.answer[4..], counts, "{}", case.name);
    }
}

/// "A sum or difference has the range from the least to the greatest of its
/// results, held ones too, over all pairs of values from its two ranges. Less is
/// undecided unless every pair of values from its two ranges agrees": over all
/// ranges of a few numbers at both limits and in the middle, by all their values.
#[test]
fn ranges_are_the_least_that_hold_all_results() {
    const WINDOW: u16 = 7;
    let windows = [0, 32_768 - WINDOW / 2, u16::MAX - (WINDOW - 1)];
    let mut small = Vec::new();
    for begin in windows {
        for lowest in begin..=begin + (WINDOW - 1) {
            for highest in lowest..=begin + (WINDOW - 1) {
                small.push(Range { lowest, highest });
            }
        }
    }
    for &left in &small {
        for &right in &small {
            all_results_are_held(left, right);
        }
    }
    let rng = &mut Rng::new(SEED);
    for _ in 0..300 {
        let mut any = || {
            let anywhere = rng.below(65_536);
            let lowest = rng.pick(&[0, 1, 200, 32_700, 65_300, 65_535, anywhere]);
            let highest = (lowest + rng.below(300)).min(65_535);
            Range {
                lowest: lowest as u16,
                highest: highest as u16,
            }
        };
        all_results_are_held(any(), any());
    }
}

fn all_results_are_held(left: Range, right: Range) {
    let values = |range: Range| range.lowest..=range.highest;
    let pairs = || values(left).flat_map(|one| values(right).map(move |other| (one, other)));
    let least_to_greatest = |of: fn(u16, u16) -> u16| {
        let results = || pairs().map(|(one, other)| of(one, other));
        Range {
            lowest: results().min().expect("a range has a number"),
            highest: results().max().expect("a range has a number"),
        }
    };
    assert_eq!(left.sum(right), least_to_greatest(u16::saturating_add));
    assert_eq!(
        left.difference(right),
        least_to_greatest(u16::saturating_sub)
    );
    let [no, yes] = [false, true].map(|answer| pairs().any(|(one, other)| (one < other) == answer));
    let agreed = match (no, yes) {
        (true, true) => Truth::Undecided,
        (_, answer) => Truth::from(answer),
    };
    assert_eq!(left.less(right), agreed, "{left:?} {right:?}");
}

/// The theorem: "for every such choice the plain run from the same stack, its
/// checks treated alike, under the same allowances and buffers ends inside the
/// answer or stops with the same cause and term, with as many posts, each inside
/// its range, and equal calls and cells."
#[test]
fn plain_runs_are_inside_the_answer() {
    let cases = ranged::all().into_iter().map(|case| {
        let Ranged {
            sheet,
            pairs,
            request,
            ..
        } = case;
        (sheet, pairs, request, Rng::new(SEED))
    });
    let (mut ended, mut stopped, mut apart) = (0, 0, 0);
    for (sheet, pairs, query, mut rng) in cases.chain(drawn()) {
        for checks in [Checks::Enforced, Checks::Skipped] {
            let answer = over_ranges(&sheet, &pairs, &query, checks);
            let Ok(run) = answer.result else {
                continue;
            };
            if matches!(run.outcome, Outcome::Stop(stop) if stop.cause == Cause::Undecided) {
                continue;
            }
            let mut ends = Vec::new();
            for _ in 0..CHOICES {
                let choice = ranges::random_choice(&mut rng, &pairs);
                let chosen = ranges::with_numbers(&sheet, &choice);
                let plain = plainly(&chosen, &query, checks);
                let plain_run = plain.result.expect("a run that starts");
                assert!(
                    is_inside(&plain, &answer),
                    "{} {pairs:?} {choice:?}",
                    hex(&sheet)
                );
                ends.push(plain_run.outcome);
            }
            match run.outcome {
                Outcome::End(_) => ended += 1,
                Outcome::Stop(_) => stopped += 1,
            }
            apart += usize::from(ends.iter().any(|end| *end != ends[0]));
        }
    }
    assert!(
        ended >= 2_000 && stopped >= 500 && apart >= 300,
        "{ended} {stopped} {apart}"
    );
}

fn is_inside(plain: &Left<Run>, answer: &Left<RangeRun>) -> bool {
    let (Ok(run), Ok(over)) = (plain.result, answer.result) else {
        return false;
    };
    let outcome = match (run.outcome, over.outcome) {
        (Outcome::End(Plain::Number(number)), Outcome::End(Plain::Number(range))) => {
            range.contains(number)
        }
        (Outcome::End(Plain::Bool(value)), Outcome::End(Plain::Bool(truth))) => {
            truth.contains(value)
        }
        (Outcome::Stop(one), Outcome::Stop(other)) => one == other,
        _ => false,
    };
    let counts = (run.calls, run.cells, run.posts) == (over.calls, over.cells, over.posts);
    let made = over.posts as usize;
    let posts = plain.posts[..made].iter().zip(&answer.posts);
    let mut posts = posts.map(|(&number, &word)| word >> 16 <= number && number <= word & 0xFFFF);
    outcome
        && counts
        && posts.all(|inside| inside)
        && plain.posts[made..] == answer.posts[made..]
        && plain.cells == answer.cells
}

/// Where each range has one number, what is written, a run over ranges is the
/// plain run.
#[test]
fn single_numbers_give_the_plain_run() {
    let mut compared = 0;
    for (sheet, _, query, _) in drawn() {
        let numbers = ranges::numbers_of(&sheet);
        let pairs: Vec<u16> = numbers.iter().flat_map(|&number| [number; 2]).collect();
        let over = over_ranges(&sheet, &pairs, &query, Checks::Enforced);
        let plain = plainly(&sheet, &query, Checks::Enforced);
        let (run, expected) = match (over.result, plain.result) {
            (Ok(run), Ok(expected)) => (run, expected),
            (Err(refusal), Ok(_)) if refusal.cause == Cause::Ranges => {
                assert!(decode(&sheet).unwrap().guards.is_some());
                continue;
            }
            (over, plain) => {
                assert_eq!(over.unwrap_err(), plain.unwrap_err());
                continue;
            }
        };
        let single = |number| Range {
            lowest: number,
            highest: number,
        };
        let outcome = match expected.outcome {
            Outcome::End(Plain::Number(number)) => Outcome::End(Plain::Number(single(number))),
            Outcome::End(Plain::Bool(value)) => Outcome::End(Plain::Bool(value.into())),
            Outcome::Stop(stop) => Outcome::Stop(stop),
        };
        let due = RangeRun {
            outcome,
            calls: expected.calls,
            cells: expected.cells,
            posts: expected.posts,
        };
        assert_eq!(run, due, "{}", hex(&sheet));
        assert!(is_inside(&plain, &over), "{}", hex(&sheet));
        compared += 1;
    }
    assert!(compared >= 3_000, "{compared}");
}

/// The sheet with other numbers is readable exactly if the sheet is, with the
/// same refusal, and differs from it in its number terms alone.
#[test]
fn other_numbers_are_as_readable() {
    let (mut readable, mut not) = (0, 0);
    for (sheet, pairs, _, mut rng) in drawn() {
        let choice = ranges::random_choice(&mut rng, &pairs);
        let chosen = ranges::with_numbers(&sheet, &choice);
        assert_eq!(ranges::numbers_of(&chosen), choice);
        match (decode(&sheet), decode(&chosen)) {
            (Ok(mut sheet), Ok(chosen)) => {
                let mut choice = choice.iter();
                for term in &mut sheet.terms {
                    if let Term::Number(number) = term {
                        *number = *choice.next().expect("a number for each term");
                    }
                }
                assert_eq!(sheet, chosen);
                readable += 1;
            }
            (Err(one), Err(other)) => {
                assert_eq!(one, other);
                not += 1;
            }
            _ => panic!("{} {choice:?}", hex(&sheet)),
        }
    }
    assert!(readable >= 3_000 && not >= 300, "{readable} {not}");
}

/// "a wrong number of pairs, a lowest above its highest or a version 2 sheet is
/// 35, after 16, with every buffer untouched": wrong pairs are 35 where the plain
/// run starts, and what the plain run is refused by else.
#[test]
fn wrong_pairs_come_last() {
    let (mut wrong_pairs, mut before, mut version_2) = (0, 0, 0);
    for (sheet, right, query, mut rng) in drawn() {
        let plain = plainly(&sheet, &query, Checks::Enforced);
        for wrong in [
            None,
            Some(Wrong::HalfAPair),
            Some(Wrong::Fewer),
            Some(Wrong::More),
            Some(Wrong::NumbersForPairs),
            Some(Wrong::Crossed),
        ] {
            let pairs = match wrong {
                None => Some(right.clone()),
                Some(wrong) => ranges::wrong_pairs(&mut rng, &right, wrong),
            };
            let Some(pairs) = pairs else {
                continue;
            };
            let over = over_ranges(&sheet, &pairs, &query, Checks::Enforced);
            let Err(refusal) = over.result else {
                assert!(wrong.is_none() && plain.result.is_ok(), "{}", hex(&sheet));
                continue;
            };
            assert!(over.cells.iter().all(|&byte| byte == CELL));
            assert!(over.posts.iter().all(|&post| post == POST));
            if let Err(first) = plain.result {
                assert_eq!(refusal, first, "{}", hex(&sheet));
                before += 1;
                continue;
            }
            assert_eq!((refusal.cause, refusal.place), (Cause::Ranges, 0));
            match wrong {
                Some(_) => wrong_pairs += 1,
                None => {
                    assert!(decode(&sheet).unwrap().guards.is_some(), "{}", hex(&sheet));
                    version_2 += 1;
                }
            }
        }
    }
    assert!(
        wrong_pairs >= 10_000 && before >= 2_000 && version_2 >= 100,
        "{wrong_pairs} {before} {version_2}"
    );
}
