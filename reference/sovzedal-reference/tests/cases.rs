//! The cases that the contract names, and those of its requests.

use sheets::cases::*;
use sheets::tree::*;
use sheets::{branches, pages, yes_branch};
use sovzedal_reference::*;

const ONE: u32 = 1 << 1;
const TWO: u32 = 1 << 2;

/// Runs eagerly and lazily with the largest buffers; both must tell the same.
fn run(sheet: &[u8], request: Request) -> (Run, Vec<u32>) {
    let mut cells = vec![9; MAX_CELL_BYTES];
    let mut posts = vec![9; MAX_POSTS];
    let mut frames = vec![9; FRAME_NUMBERS];
    let mut lazy_posts = posts.clone();
    let eager = run_eager(sheet, &request, &mut cells, &mut posts).unwrap();
    assert!(cells.iter().all(|&byte| byte == 0));

    cells.fill(9);
    let lazy = run_lazy(sheet, &request, &mut cells, &mut lazy_posts, &mut frames).unwrap();
    assert!(cells.iter().all(|&byte| byte == 0));
    assert!(frames.iter().all(|&number| number == 0));
    assert_eq!((eager, &posts), (lazy, &lazy_posts));

    assert!(posts[eager.posts as usize..].iter().all(|&post| post == 9));
    posts.truncate(eager.posts as usize);
    (eager, posts)
}

fn outcome(sheet: &[u8], request: Request) -> Outcome {
    run(sheet, request).0.outcome
}

fn on(start: &[u32]) -> Request<'_> {
    Request {
        start,
        ..Request::LARGEST
    }
}

fn with_calls(calls: u32, open_calls: u32) -> Request<'static> {
    Request {
        calls,
        open_calls,
        ..Request::LARGEST
    }
}

fn stop(cause: Cause, term: TermId) -> Outcome {
    Outcome::Stop(Stop { cause, term })
}

fn number_end(value: u16) -> Outcome {
    Outcome::End(Plain::Number(value))
}

fn bool_end(value: bool) -> Outcome {
    Outcome::End(Plain::Bool(value))
}

fn refused(cause: Cause, place: u32) -> Option<Refusal> {
    Some(Refusal { cause, place })
}

fn needs(sheet: &[u8]) -> u32 {
    typecheck(sheet).unwrap().needs.bits()
}

#[test]
fn the_sheet_above() {
    let text = "terms 5\nneeds 00000000\ntype num\nend num 7 calls 0 cells 0 posts 1 held 0\n";
    assert_eq!(report(&posting(ONE)), text);
    let (_, posts) = run(&posting(ONE), Request::LARGEST);
    assert_eq!(posts, [7]);
}

#[test]
fn the_sheet_above_with_nothing_authorised() {
    let sheet = posting(0);
    assert_eq!(typecheck(&sheet).err(), refused(Cause::SignNeeds, 4));
    assert_eq!(report(&sheet), "refused 11 at 4\n");
    let (run, posts) = run(&sheet, Request::LARGEST);
    assert_eq!(run.outcome, stop(Cause::RefusedCheck, 2));
    assert!(posts.is_empty());
}

#[test]
fn the_sheet_above_without_its_enable() {
    let sheet = posting_without_enable();
    assert_eq!(needs(&sheet), 2);
    assert_eq!(
        outcome(&sheet, Request::LARGEST),
        stop(Cause::RefusedCheck, 2)
    );
    assert_eq!(outcome(&sheet, on(&[0, ONE])), number_end(7));
    assert_eq!(
        report(&sheet),
        "terms 4\nneeds 00000002\ntype num\nstop 17 at 2 calls 0 cells 0 posts 0 held 0\n"
    );
}

#[test]
fn checks_passed_over() {
    let request = Request {
        checks: Checks::Skipped,
        ..Request::LARGEST
    };
    assert_eq!(outcome(&posting_without_enable(), request), number_end(7));
    // A test isn't passed over.
    assert_eq!(outcome(&asking_for_1(), request), bool_end(false));
}

#[test]
fn the_empty_file() {
    assert_eq!(decode(&[]).err(), refused(Cause::CutShort, 0));
    assert_eq!(report(&[]), "refused 1 at 0\n");
}

#[test]
fn what_stacks_grant() {
    let granted = |start| outcome(&asking_for_1(), on(start));
    assert_eq!(granted(&[1, 0, 0, ONE]), bool_end(false));
    assert_eq!(granted(&[0, ONE, 1, 0]), bool_end(true));
    assert_eq!(granted(&[1, ONE]), bool_end(false));
    assert_eq!(granted(&[]), bool_end(false));
}

#[test]
fn identity_on_numbers() {
    let (run_of_5, _) = run(&identity_of_5(), Request::LARGEST);
    assert_eq!(run_of_5.outcome, number_end(5));
    assert_eq!((run_of_5.calls, run_of_5.cells), (1, 1));

    let (no_calls, _) = run(&identity_of_5(), with_calls(0, 100));
    assert_eq!(no_calls.outcome, stop(Cause::CallsSpent, 4));
    assert_eq!((no_calls.calls, no_calls.cells), (0, 0));

    let nothing = outcome(&identity_of_5(), with_calls(0, 0));
    assert_eq!(nothing, stop(Cause::TooManyOpenCalls, 4));
}

#[test]
fn a_function_that_calls_itself_forever() {
    let (run_of_all, _) = run(&endless(), Request::LARGEST);
    assert_eq!(run_of_all.outcome, stop(Cause::TooManyOpenCalls, 2));
    assert_eq!((run_of_all.calls, run_of_all.cells), (100, 101));

    let (run_of_99, _) = run(&endless(), with_calls(99, 100));
    assert_eq!(run_of_99.outcome, stop(Cause::CallsSpent, 2));
    assert_eq!((run_of_99.calls, run_of_99.cells), (99, 100));
}

/// Request W1 changed this case: before it the needs were 00000002. Its runs
/// are as before.
#[test]
fn a_yes_branch_knows_what_is_tested() {
    assert_eq!(needs(&test_then_check()), 0);
    assert_eq!(outcome(&test_then_check(), Request::LARGEST), number_end(0));
    assert_eq!(outcome(&test_then_check(), on(&[0, ONE])), number_end(7));
}

#[test]
fn what_a_test_takes_out_of_needs() {
    // Sets with the tested privilege are those that it stays in.
    let expected = [
        ("yes-branch alone", Ok(0)),
        ("no-branch alone", Ok(ONE)),
        ("both branches", Ok(ONE)),
        ("another privilege in the yes-branch", Ok(TWO)),
        ("another privilege in the no-branch", Ok(TWO)),
        ("a check around the test", Ok(ONE)),
        ("a check beside the test", Ok(ONE)),
        ("signed by the unable", Ok(0)),
        (
            "signed by the unable, no-branch",
            Err((Cause::SignNeeds, 4)),
        ),
        (
            "signed by the unable, in the yes-branch",
            Err((Cause::SignNeeds, 2)),
        ),
        ("a test of both", Ok(0)),
        ("the inner test's no-branch", Ok(0)),
        ("the inner test's own privilege in its no-branch", Ok(TWO)),
        ("tested again in the no-branch", Ok(0)),
        ("tested again in the yes-branch", Ok(0)),
        ("an enable", Ok(0)),
        ("an enable of another", Ok(0)),
        ("an enable by the unable", Ok(0)),
        ("an enable around the test", Ok(0)),
        ("a call with a latent need", Ok(0)),
        ("a call with a latent need in the no-branch", Ok(ONE)),
        ("a binder with a latent need", Ok(0)),
        // The test takes nothing out of a latent set.
        ("a function of both branches, called outside", Ok(ONE)),
        ("the body of a quiet function", Ok(0)),
    ];
    let verdicts: Vec<_> = yes_branch::all()
        .iter()
        .map(|case| (case.name, judged(&case.sheet)))
        .collect();
    assert_eq!(verdicts, expected);
}

fn judged(sheet: &[u8]) -> Result<u32, (Cause, u32)> {
    let verdict = typecheck(sheet);
    verdict
        .map(|verdict| verdict.needs.bits())
        .map_err(|refusal| (refusal.cause, refusal.place))
}

/// With less needed, more stacks grant it, and with more sheets accepted there
/// is more to run: on each of these stacks the checks, in force, are met.
#[test]
fn where_needs_are_granted_checks_may_be_passed_over() {
    let cases = yes_branch::all().into_iter().chain(branches::all());
    for case in cases.chain(pages::posting()) {
        let Ok(needs) = judged(&case.sheet) else {
            continue;
        };
        for granted in [0, ONE, TWO, ONE | TWO] {
            if needs & !granted != 0 {
                continue;
            }
            let start = [0, granted];
            let query = |checks| Request {
                checks,
                ..on(&start)
            };
            let enforced = run(&case.sheet, query(Checks::Enforced));
            assert!(
                matches!(enforced.0.outcome, Outcome::End(_)),
                "{}: {enforced:?}",
                case.name
            );
            assert_eq!(enforced, run(&case.sheet, query(Checks::Skipped)));
        }
    }
}

#[test]
fn arithmetic() {
    let result = |tree| outcome(&computing(tree), Request::LARGEST);
    assert_eq!(result(sum(number(65_535), number(1))), number_end(65_535));
    assert_eq!(result(difference(number(3), number(5))), number_end(0));
    assert_eq!(result(less(number(5), number(5))), bool_end(false));
    assert_eq!(result(less(number(4), number(5))), bool_end(true));
}

#[test]
fn nesting() {
    assert!(decode(&nested(32)).is_ok());
    assert_eq!(decode(&nested(33)).err(), refused(Cause::Nesting, 0));
}

#[test]
fn type_depth() {
    assert!(decode(&with_type_depth(12)).is_ok());
    assert_eq!(
        decode(&with_type_depth(13)).err(),
        refused(Cause::TypeRecord, 14)
    );
}
