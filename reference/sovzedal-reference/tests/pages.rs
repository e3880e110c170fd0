//! Request W8: sheets of version 2, their channels and the guards of these.

use sheets::cases::computing;
use sheets::generate::sample;
use sheets::grow::accepted;
use sheets::pages::{self, GRANTED, HIGHEST, OTHER, OTHER_PAGE, PAGE, SECOND_PAGE};
use sheets::records::{Format, Records, CHANNELS, UNGUARDED};
use sheets::request::Request as Query;
use sheets::rng::Rng;
use sheets::spoil::spoil_one;
use sheets::tree::*;
use sheets::world::World;
use sovzedal_reference::lines::{Buffers, Job, Lines};
use sovzedal_reference::registers::{at, status, Block, Loaded, RUN};
use sovzedal_reference::{decode, report, run_eager, run_lazy, typecheck};
use sovzedal_reference::{Cause, Checks, Outcome, Plain, Refusal, Request, Run, Set, Stop};
use sovzedal_reference::{TermId, TypeId, MAX_CALLS, MAX_CELL_BYTES, MAX_POSTS};

const ONE: u32 = 1 << GRANTED;
const TWO: u32 = 1 << OTHER;

const MAX_NESTING: usize = 32;

const SHEETS: u64 = 10_000;
const SEED: u64 = 8;

type CauseAndPlace = (Cause, u32);

fn cause_and_place(refusal: Refusal) -> CauseAndPlace {
    (refusal.cause, refusal.place)
}

#[test]
fn how_sheets_are_read() {
    let refused = |cause, place| Some((cause, place));
    let expected = [
        ("version 1", None),
        ("version 2", None),
        ("version 1 with a tag 5", refused(Cause::WrongTag, 0)),
        ("version 2 without a tag 5", refused(Cause::CutShort, 0)),
        ("version 0", refused(Cause::WrongVersion, 0)),
        ("version 3 without a tag 5", refused(Cause::WrongVersion, 0)),
        ("version 3 with a tag 5", refused(Cause::WrongVersion, 0)),
        ("version 258", refused(Cause::WrongVersion, 0)),
        ("tag 5 without its length", refused(Cause::CutShort, 0)),
        ("another tag than 5", refused(Cause::WrongTag, 0)),
        ("length 0", refused(Cause::WrongLength, 0)),
        ("length 15", refused(Cause::WrongLength, 0)),
        ("length 17", refused(Cause::WrongLength, 0)),
        ("length 32", refused(Cause::WrongLength, 0)),
        ("guards cut short", refused(Cause::CutShort, 0)),
        ("a byte after the guards", refused(Cause::WrongTag, 0)),
        ("a second tag 5", refused(Cause::WrongTag, 0)),
        ("channel 15", None),
        ("channel 16", refused(Cause::TermRecord, 1)),
        ("channel 255", refused(Cause::TermRecord, 1)),
        ("channel 1 in version 1", refused(Cause::TermRecord, 1)),
        ("guard 31", None),
        ("guard 32", refused(Cause::Guard, 15)),
        ("guard 254", refused(Cause::Guard, 0)),
        ("two bad guards", refused(Cause::Guard, 4)),
        ("31 before 9", refused(Cause::Guard, 3)),
        ("31 before 10", refused(Cause::Guard, 3)),
        ("31 before 14", refused(Cause::Guard, 3)),
        ("8 before 31", refused(Cause::Nesting, 0)),
        ("7 before 31", refused(Cause::Shape, 0)),
        ("6 before 31", refused(Cause::TermRecord, 1)),
    ];
    let cases = pages::reading();
    let read = cases
        .iter()
        .map(|case| (case.name, decode(&case.sheet).err().map(cause_and_place)));
    assert_eq!(read.collect::<Vec<_>>(), expected);
}

/// The judge and the runs tell what the reader does, and a run that is turned
/// back leaves its buffers.
#[test]
fn what_cannot_be_read_is_refused_alike() {
    for case in pages::reading() {
        let Err(refusal) = decode(&case.sheet) else {
            continue;
        };
        assert_eq!(typecheck(&case.sheet), Err(refusal), "{}", case.name);
        for checks in [Checks::Enforced, Checks::Skipped] {
            let request = request(&case.request, checks);
            let (mut cells, mut posts, mut frames) = ([9; 80], [9; 5], [9; 7]);
            let eager = run_eager(&case.sheet, &request, &mut cells, &mut posts);
            let lazy = run_lazy(&case.sheet, &request, &mut cells, &mut posts, &mut frames);
            assert_eq!((eager, lazy), (Err(refusal), Err(refusal)), "{}", case.name);
            assert_eq!((cells, posts, frames), ([9; 80], [9; 5], [9; 7]));
        }
    }
}

#[test]
fn every_prefix_is_cut_short() {
    let case = &pages::posting()[0];
    for length in 0..case.sheet.len() {
        let refusal = decode(&case.sheet[..length]).expect_err("a fault");
        assert_eq!(cause_and_place(refusal), (Cause::CutShort, 0), "{length}");
    }
}

/// An entry of the list: channel × 65,536 + number.
fn on(channel: u8, number: u32) -> u32 {
    u32::from(channel) * 65_536 + number
}

fn end(value: u16) -> Outcome {
    Outcome::End(Plain::Number(value))
}

fn stop(cause: Cause, term: TermId) -> Outcome {
    Outcome::Stop(Stop { cause, term })
}

#[test]
fn what_a_guard_adds_to_needs() {
    let type_fault = |place| Err((Cause::TypeMismatch, place));
    let expected = [
        ("an open channel", Ok(0)),
        ("the highest channel", Ok(0)),
        ("a guarded channel", Ok(ONE)),
        ("a guard that refuses", Ok(TWO)),
        ("channels by turns", Ok(ONE)),
        ("one guard of two channels", Ok(ONE)),
        ("a post of what a post yields", Ok(ONE)),
        ("the number before the guard", Ok(TWO)),
        ("stuck before the guard", type_fault(1)),
        ("stuck where the guard passes", type_fault(1)),
        ("the number's own fault", Err((Cause::UnboundVariable, 1))),
        ("a check in the number before the guard", Ok(ONE | TWO)),
        ("a check around a guarded post", Ok(ONE | TWO)),
        ("an enable", Ok(0)),
        ("an enable of another", Ok(TWO)),
        ("an enable in the number", Ok(TWO)),
        ("an enable by the unable", Err((Cause::SignNeeds, 3))),
        ("signed by the unable", Err((Cause::SignNeeds, 2))),
        ("signed by the unable, an open channel", Ok(0)),
        ("a yes-branch", Ok(0)),
        ("a yes-branch that is taken", Ok(0)),
        ("a yes-branch of another", Ok(TWO)),
        ("a no-branch", Ok(TWO)),
        ("a function that names the guard", Ok(ONE)),
        ("a function that doesn't", Err((Cause::BodyNeeds, 3))),
        ("a function with an enable of its own", Ok(0)),
    ];
    let cases = pages::posting();
    let judged = cases.iter().map(|case| {
        let needs = typecheck(&case.sheet).map(|verdict| verdict.needs.bits());
        (case.name, needs.map_err(cause_and_place))
    });
    assert_eq!(judged.collect::<Vec<_>>(), expected);
}

/// On a stack that grants [`GRANTED`] and not [`OTHER`].
#[test]
fn what_a_guard_lets_pass() {
    let refused = |term| stop(Cause::RefusedCheck, term);
    let stuck = |term| stop(Cause::Stuck, term);
    let expected = [
        ("an open channel", end(7), vec![7]),
        ("the highest channel", end(65_535), vec![on(15, 65_535)]),
        ("a guarded channel", end(7), vec![on(PAGE, 7)]),
        ("a guard that refuses", refused(1), vec![]),
        (
            "channels by turns",
            end(6),
            vec![on(PAGE, 1), 2, on(HIGHEST, 3)],
        ),
        (
            "one guard of two channels",
            end(3),
            vec![on(PAGE, 1), on(SECOND_PAGE, 2)],
        ),
        (
            "a post of what a post yields",
            end(7),
            vec![on(PAGE, 7), on(HIGHEST, 7)],
        ),
        ("the number before the guard", refused(2), vec![7]),
        ("stuck before the guard", stuck(1), vec![]),
        ("stuck where the guard passes", stuck(1), vec![]),
        ("the number's own fault", stuck(1), vec![]),
        ("a check in the number before the guard", refused(1), vec![]),
        ("a check around a guarded post", refused(1), vec![]),
        ("an enable", end(7), vec![on(OTHER_PAGE, 7)]),
        ("an enable of another", refused(1), vec![]),
        ("an enable in the number", refused(2), vec![]),
        ("an enable by the unable", refused(1), vec![]),
        ("signed by the unable", refused(1), vec![]),
        ("signed by the unable, an open channel", end(7), vec![7]),
        ("a yes-branch", end(0), vec![]),
        ("a yes-branch that is taken", end(7), vec![on(PAGE, 7)]),
        ("a yes-branch of another", refused(1), vec![]),
        ("a no-branch", refused(2), vec![]),
        ("a function that names the guard", end(7), vec![on(PAGE, 7)]),
        ("a function that doesn't", end(7), vec![on(PAGE, 7)]),
        (
            "a function with an enable of its own",
            end(7),
            vec![on(PAGE, 7)],
        ),
    ];
    let cases = pages::posting();
    let results = cases.iter().map(|case| {
        let (run, posts) = run(&case.sheet, &case.request, Checks::Enforced);
        (case.name, run.outcome, posts)
    });
    assert_eq!(results.collect::<Vec<_>>(), expected);
}

/// Checks and guards are passed over together: nothing is refused, and the
/// rest is as it would be.
#[test]
fn guards_are_passed_over_with_checks() {
    for case in pages::posting() {
        let (enforced, posts) = run(&case.sheet, &case.request, Checks::Enforced);
        let (skipped, all) = run(&case.sheet, &case.request, Checks::Skipped);
        let Outcome::Stop(Stop {
            cause: Cause::RefusedCheck,
            ..
        }) = enforced.outcome
        else {
            assert_eq!((enforced, posts), (skipped, all), "{}", case.name);
            continue;
        };
        assert!(all.starts_with(&posts), "{}", case.name);
        assert_eq!(skipped.outcome, end(7), "{}", case.name);
        assert_eq!(all.last(), Some(&on(last_channel(case.name), 7)));
    }
}

/// The channel that a refused case posts to last.
fn last_channel(name: &str) -> u8 {
    match name {
        "an enable by the unable" | "signed by the unable" => PAGE,
        "a check in the number before the guard" => PAGE,
        _ => OTHER_PAGE,
    }
}

#[test]
fn the_guard_is_checked_before_a_place() {
    let expected = [
        ("the guard before a place", stop(Cause::RefusedCheck, 1), 0),
        ("no place for a guarded post", stop(Cause::NoPost, 1), 0),
        ("stuck before a place", stop(Cause::Stuck, 1), 0),
        (
            "the guard before a second place",
            stop(Cause::RefusedCheck, 3),
            1,
        ),
    ];
    let cases = pages::without_a_place();
    let results = cases.iter().map(|case| {
        let (run, _) = run(&case.sheet, &case.request, Checks::Enforced);
        (case.name, run.outcome, run.posts)
    });
    assert_eq!(results.collect::<Vec<_>>(), expected);
    // Passed over, a guard leaves the place to be missed.
    let (skipped, _) = run(&cases[0].sheet, &cases[0].request, Checks::Skipped);
    assert_eq!(skipped.outcome, stop(Cause::NoPost, 1));
}

/// The sheet of a case, by its name.
fn named(name: &str) -> Vec<u8> {
    let mut cases = pages::all().into_iter();
    cases.find(|case| case.name == name).expect(name).sheet
}

#[test]
fn the_program_prints_what_guards_do() {
    assert_eq!(report(&named("31 before 9")), "refused 31 at 3\n");
    assert_eq!(
        report(&named("a guarded channel")),
        "terms 3\nneeds 00000002\ntype num\nstop 17 at 1 calls 0 cells 0 posts 0 held 0\n"
    );
    assert_eq!(
        report(&named("a function with an enable of its own")),
        "terms 9\nneeds 00000000\ntype num\nend num 7 calls 1 cells 1 posts 1 held 0\n"
    );
}

/// In a block a bad guard comes before the lengths of the buffers, and a post
/// is refused as a check is: the stack is empty.
#[test]
fn a_block_has_guarded_sheets_run() {
    let run = |sheet: &[u8], posts: &mut [u32]| {
        let mut block = Block::new();
        let loaded = Loaded {
            sheet,
            cells: &mut vec![9; MAX_CELL_BYTES],
            posts,
        };
        block.write(at::COMMAND as u32, RUN, loaded).unwrap();
        let place = u16::from_be_bytes([block.bytes[at::PLACE], block.bytes[at::PLACE + 1]]);
        (block.bytes[at::STATUS], block.bytes[at::CAUSE], place)
    };
    let (mut posts, mut short) = ([9; MAX_POSTS], [9; 3]);
    let bad = named("two bad guards");
    assert_eq!(run(&bad, &mut short), (status::REFUSED, 31, 4));
    let refused = named("a guarded channel");
    assert_eq!(run(&refused, &mut posts), (status::STOPPED, 17, 1));
    assert_eq!((posts, short), ([9; MAX_POSTS], [9; 3]));
    let enabled = named("an enable");
    assert_eq!(run(&enabled, &mut posts), (status::ENDED, 0, 0));
    assert_eq!(posts[..2], [on(OTHER_PAGE, 7), 9]);
}

/// Jobs share one list, whatever their versions.
#[test]
fn lines_have_guarded_sheets_run() {
    let sheets = [
        named("an enable"),
        computing(post(number(5))),
        named("a guarded channel"),
        named("guard 32"),
        named("the highest channel"),
    ];
    let (mut lines, mut store) = (Lines::new(), Vec::new());
    for sheet in &sheets {
        let job = Job {
            offset: store.len() as u64,
            length: sheet.len() as u64,
            calls: MAX_CALLS,
        };
        store.extend(sheet);
        lines.add(0, job, &store).unwrap();
    }
    let (mut cells, mut posts) = (vec![9; MAX_CELL_BYTES], [9; 4]);
    let mut serve = || {
        let buffers = Buffers {
            store: &store,
            cells: &mut cells,
            posts: &mut posts,
        };
        let answer = lines.serve(buffers).expect("a job").answer;
        answer.map(|run| run.outcome).map_err(cause_and_place)
    };
    assert_eq!(serve(), Ok(end(7)));
    assert_eq!(serve(), Ok(end(5)));
    assert_eq!(serve(), Ok(stop(Cause::RefusedCheck, 1)));
    assert_eq!(serve(), Err((Cause::Guard, 15)));
    assert_eq!(serve(), Ok(end(65_535)));
    assert_eq!(posts, [on(OTHER_PAGE, 7), 5, on(HIGHEST, 65_535), 9]);
}

/// For the rules a guarded post is a post with a check around it.
#[test]
fn a_guard_is_judged_as_a_check() {
    let (mut guarded, mut matters) = (0, 0);
    for index in 0..SHEETS {
        let rng = &mut Rng::for_item(SEED, index);
        let world = World::random(rng);
        let size = rng.between(2, 40);
        let mut tree = accepted(rng, &world, size);
        if rng.percent(50) {
            spoil_one(rng, &world, &mut tree);
        }
        let checked = guards_as_checks(&world, &tree);
        if checked == tree || checked.height() > MAX_NESTING {
            continue;
        }
        let today = judged(&bytes(&world, world.format(), &tree));
        let twin = judged(&bytes(&world, unguarded(), &checked));
        assert_eq!(today, twin, "item {index}");
        let bare = judged(&bytes(&world, unguarded(), &tree));
        guarded += usize::from(today.is_ok());
        matters += usize::from(today != bare);
    }
    // Else the sheets that are drawn say little about the rule.
    assert!(guarded >= 500 && matters >= 300, "{guarded} {matters}");
}

/// The type and the needs, or the cause: its place isn't the same where there
/// are more terms.
fn judged(sheet: &[u8]) -> Result<(TypeId, Set), Cause> {
    let verdict = typecheck(sheet);
    verdict
        .map(|verdict| (verdict.ty, verdict.needs))
        .map_err(|refusal| refusal.cause)
}

/// The tree with a check around each guarded post.
fn guards_as_checks(world: &World, tree: &Tree) -> Tree {
    let mut copy = tree.clone();
    let children = tree.children.iter();
    copy.children = children.map(|it| guards_as_checks(world, it)).collect();
    match copy.kind {
        Kind::Post => match world.guard(copy.small) {
            Some(guard) => check(guard, copy),
            None => copy,
        },
        _ => copy,
    }
}

/// Guards passed over are as if there were none, whatever is granted.
#[test]
fn passed_over_there_are_no_guards() {
    let mut refused = 0;
    for index in 0..SHEETS {
        let rng = &mut Rng::for_item(!SEED, index);
        let world = World::random(rng);
        let size = rng.between(2, 40);
        let tree = accepted(rng, &world, size);
        if world.guards.is_none() {
            continue;
        }
        let query = Query::random_admissible(rng, vec![]);
        let with = bytes(&world, world.format(), &tree);
        let without = bytes(&world, unguarded(), &tree);
        if decode(&with).is_err() {
            continue;
        }
        let skipped = run(&with, &query, Checks::Skipped);
        assert_eq!(skipped, run(&without, &query, Checks::Skipped));
        let enforced = run(&with, &query, Checks::Enforced).0.outcome;
        let bare = run(&without, &query, Checks::Enforced).0.outcome;
        refused += usize::from(enforced != bare);
    }
    assert!(refused >= 300, "{refused}");
}

/// A sheet of version 1 is as the same one of version 2 that guards nothing.
#[test]
fn version_1_has_no_guard() {
    let mut compared = 0;
    for index in 0..SHEETS {
        let rng = &mut Rng::for_item(SEED + 1, index);
        let sample = sample(rng);
        let one = &sample.bytes;
        if decode(one).is_err() || one[4] != 1 {
            continue;
        }
        let mut two = one.clone();
        two[4] = 2;
        two.extend([5, 0, 16]);
        two.extend([UNGUARDED; CHANNELS]);
        assert_eq!(typecheck(one), typecheck(&two), "item {index}");
        let query = Query::random_admissible(rng, vec![]);
        for checks in [Checks::Enforced, Checks::Skipped] {
            let (result, posts) = run(one, &query, checks);
            assert!(posts.iter().all(|&entry| entry < 65_536));
            assert_eq!((result, posts), run(&two, &query, checks), "item {index}");
        }
        compared += 1;
    }
    assert!(compared >= 2_000, "{compared}");
}

fn unguarded() -> Format {
    Format::version_2(&[UNGUARDED; CHANNELS])
}

fn bytes(world: &World, format: Format, tree: &Tree) -> Vec<u8> {
    Records {
        format,
        principals: world.principals.clone(),
        types: world.types.clone(),
        terms: tree.assemble(),
    }
    .to_bytes()
}

fn request(query: &Query, checks: Checks) -> Request<'_> {
    Request {
        start: &query.start,
        calls: query.calls,
        open_calls: query.open_calls,
        checks,
    }
}

/// What both runners tell, and the posts made.
fn run(sheet: &[u8], query: &Query, checks: Checks) -> (Run, Vec<u32>) {
    let request = request(query, checks);
    let mut cells = vec![9; query.cell_bytes];
    let mut posts = vec![u32::MAX; query.posts];
    let mut frames = vec![9; query.frame_numbers];
    let lazy = run_lazy(sheet, &request, &mut cells, &mut posts, &mut frames);
    let lazy_posts = std::mem::replace(&mut posts, vec![u32::MAX; query.posts]);
    let eager = run_eager(sheet, &request, &mut cells, &mut posts);
    assert_eq!((eager, &posts), (lazy, &lazy_posts));
    let run = eager.expect("an admissible request");
    let rest = posts.split_off(run.posts as usize);
    assert!(rest.iter().all(|&entry| entry == u32::MAX));
    (run, posts)
}
