//! Causes 14 to 22, their order, and what a run leaves behind.

use sheets::cases::{computing, endless, identity_of_5, plain, with_functions, FIRST_FUNCTION};
use sheets::records::{TypeRecord, NUMBER};
use sheets::tree::*;
use sovzedal_reference::*;

const ONE: u32 = 1 << 1;

fn eager(sheet: &[u8], request: Request, cells: usize, posts: usize) -> Result<Run, Refusal> {
    run_eager(sheet, &request, &mut vec![1; cells], &mut vec![1; posts])
}

fn largest(sheet: &[u8]) -> Run {
    eager(sheet, Request::LARGEST, MAX_CELL_BYTES, MAX_POSTS).unwrap()
}

fn stop(run: Run) -> Option<(Cause, TermId)> {
    match run.outcome {
        Outcome::Stop(stop) => Some((stop.cause, stop.term)),
        Outcome::End(_) => None,
    }
}

fn functions() -> [TypeRecord; 1] {
    [TypeRecord::function(NUMBER, NUMBER, 0)]
}

fn sheet(tree: Tree) -> Vec<u8> {
    with_functions(&[ONE, 0], &functions(), sign(0, tree))
}

#[test]
fn requests_that_are_rejected() {
    let sheet = computing(number(1));
    let cause = |start: &[u32], calls, open_calls, cells, posts| {
        let request = Request {
            start,
            calls,
            open_calls,
            checks: Checks::Enforced,
        };
        eager(&sheet, request, cells, posts)
            .err()
            .map(|refusal| refusal.cause)
    };
    assert_eq!(cause(&[0; 32], 4096, 100, 65_536, 256), None);
    assert_eq!(cause(&[0; 34], 0, 0, 0, 0), Some(Cause::StartStack));
    assert_eq!(cause(&[0; 3], 0, 0, 0, 0), Some(Cause::StartStack));
    for unknown in [1, 256, 65_536, u32::MAX] {
        assert_eq!(cause(&[unknown, 0], 0, 0, 0, 0), Some(Cause::StartStack));
    }
    assert_eq!(cause(&[], 0, 0, 65_537, 0), Some(Cause::Buffers));
    assert_eq!(cause(&[], 0, 0, 0, 257), Some(Cause::Buffers));
    assert_eq!(cause(&[], 4097, 0, 0, 0), Some(Cause::Allowance));
    assert_eq!(cause(&[], 0, 101, 0, 0), Some(Cause::Allowance));
    // In this order.
    assert_eq!(cause(&[0], 4097, 0, 65_537, 0), Some(Cause::StartStack));
    assert_eq!(cause(&[], 4097, 0, 65_537, 0), Some(Cause::Buffers));
}

#[test]
fn frame_stores_have_one_length() {
    let sheet = computing(number(1));
    for (numbers, admitted) in [
        (FRAME_NUMBERS, true),
        (6_495, false),
        (6_497, false),
        (0, false),
    ] {
        let mut frames = vec![5; numbers];
        let run = run_lazy(&sheet, &Request::LARGEST, &mut [], &mut [], &mut frames);
        assert_eq!(run.is_ok(), admitted);
        let left = if admitted { 0 } else { 5 };
        assert!(frames.iter().all(|&number| number == left));
    }
    assert_eq!(FRAME_NUMBERS, 6_496);
}

#[test]
fn refusals_leave_the_buffers_alone() {
    let request = Request {
        calls: 5_000,
        ..Request::LARGEST
    };
    let (mut cells, mut posts) = ([7; 20], [7; 3]);
    let run = run_eager(
        &computing(post(number(1))),
        &request,
        &mut cells,
        &mut posts,
    );
    assert!(run.is_err());
    assert_eq!((cells, posts), ([7; 20], [7; 3]));
}

#[test]
fn runs_leave_posts_and_zeroed_stores() {
    let (mut cells, mut posts) = ([7; 20], [7; 3]);
    let sheet = computing(sum(post(number(4)), boolean(true)));
    let run = run_eager(&sheet, &Request::LARGEST, &mut cells, &mut posts).unwrap();
    assert_eq!(stop(run), Some((Cause::Stuck, 3)));
    assert_eq!((cells, posts), ([0; 20], [4, 7, 7]));
}

#[test]
fn stuck_terms() {
    let stop_of = |tree| stop(largest(&sheet(tree)));
    let stuck_at = |term| Some((Cause::Stuck, term));
    assert_eq!(stop_of(variable(0)), stuck_at(0));
    assert_eq!(stop_of(when(number(1), number(2), number(3))), stuck_at(3));
    assert_eq!(stop_of(post(boolean(true))), stuck_at(1));
    assert_eq!(stop_of(less(number(1), boolean(true))), stuck_at(2));
    // Operands are looked at when all have a value.
    assert_eq!(stop_of(sum(boolean(true), variable(9))), stuck_at(1));
    assert_eq!(stop_of(call(number(1), variable(9))), stuck_at(1));
    // A root that gives a function.
    assert_eq!(
        stop_of(function(FIRST_FUNCTION, sign(0, variable(0)))),
        stuck_at(3)
    );
}

#[test]
fn a_stuck_call_comes_before_the_allowances() {
    let request = Request {
        calls: 0,
        open_calls: 0,
        ..Request::LARGEST
    };
    let run = eager(&sheet(call(number(1), number(2))), request, 0, 0).unwrap();
    assert_eq!(stop(run), Some((Cause::Stuck, 2)));
}

#[test]
fn allowances_of_a_call_in_order() {
    let cause = |calls, open_calls, cells| {
        let request = Request {
            calls,
            open_calls,
            ..Request::LARGEST
        };
        let run = eager(&identity_of_5(), request, cells, 0).unwrap();
        assert_eq!((run.calls, run.cells) == (0, 0), stop(run).is_some());
        stop(run).map(|(cause, _)| cause)
    };
    assert_eq!(cause(0, 0, 0), Some(Cause::TooManyOpenCalls));
    assert_eq!(cause(0, 1, 0), Some(Cause::CallsSpent));
    assert_eq!(cause(1, 1, 0), Some(Cause::NoCell));
    assert_eq!(cause(1, 1, 7), Some(Cause::NoCell));
    assert_eq!(cause(1, 1, 8), None);
}

#[test]
fn a_binder_takes_a_cell() {
    let run = eager(&endless(), Request::LARGEST, 0, 0).unwrap();
    assert_eq!(stop(run), Some((Cause::NoCell, 7)));
    let run = eager(&endless(), Request::LARGEST, 8 * 51 + 7, 0).unwrap();
    assert_eq!(stop(run), Some((Cause::NoCell, 2)));
    assert_eq!((run.calls, run.cells), (50, 51));
}

#[test]
fn no_place_for_a_post_comes_after_stuck() {
    let run = |tree| eager(&computing(tree), Request::LARGEST, 0, 1).unwrap();
    let second = run(sum(post(number(1)), post(number(2))));
    assert_eq!(stop(second), Some((Cause::NoPost, 3)));
    assert_eq!(second.posts, 1);
    let stuck = run(sum(post(number(1)), post(boolean(true))));
    assert_eq!(stop(stuck), Some((Cause::Stuck, 3)));
}

/// Tells by 1 or 0 whether privilege 1 is granted.
fn asking() -> Tree {
    test(1, number(1), number(0))
}

fn result(tree: Tree) -> Outcome {
    let sheet = sheet(tree);
    let mut frames = vec![3; FRAME_NUMBERS];
    let (mut cells, mut posts) = (vec![0; 800], vec![0; 20]);
    let lazy = run_lazy(
        &sheet,
        &Request::LARGEST,
        &mut cells,
        &mut posts,
        &mut frames,
    );
    let eager = run_eager(&sheet, &Request::LARGEST, &mut cells, &mut posts);
    assert_eq!(lazy, eager);
    eager.unwrap().outcome
}

fn number_end(value: u16) -> Outcome {
    Outcome::End(Plain::Number(value))
}

#[test]
fn enabling_what_the_principal_may_not_use() {
    assert_eq!(result(sign(1, enable(1, asking()))), number_end(0));
    assert_eq!(result(sign(0, enable(1, asking()))), number_end(1));
}

#[test]
fn a_body_runs_with_the_privileges_of_its_caller() {
    let asker = || function(FIRST_FUNCTION, sign(0, asking()));
    // Made where 1 is granted, called where it isn't, and the other way.
    assert_eq!(result(call(enable(1, asker()), number(0))), number_end(0));
    assert_eq!(result(enable(1, call(asker(), number(0)))), number_end(1));
}

#[test]
fn an_enable_lasts_until_its_own_term_ends() {
    let identity = || function(FIRST_FUNCTION, sign(0, variable(0)));
    let after_call = enable(1, sum(call(identity(), number(0)), asking()));
    assert_eq!(result(after_call), number_end(1));
    let after_enable = sum(enable(1, number(0)), asking());
    assert_eq!(result(after_enable), number_end(0));
    let enabled_twice = enable(1, sum(enable(1, number(0)), asking()));
    assert_eq!(result(enabled_twice), number_end(1));
}

#[test]
fn a_sign_forgets_what_its_principal_may_not_use() {
    assert_eq!(result(enable(1, sign(1, sign(0, asking())))), number_end(0));
    assert_eq!(result(enable(1, sign(0, asking()))), number_end(1));
    assert_eq!(
        result(enable(1, sum(sign(1, number(0)), asking()))),
        number_end(1)
    );
}

#[test]
fn evaluation_goes_left_to_right() {
    let sheet = computing(sum(post(number(1)), sum(post(number(2)), post(number(3)))));
    let mut posts = [0; 3];
    run_eager(&sheet, &Request::LARGEST, &mut [], &mut posts).unwrap();
    assert_eq!(posts, [1, 2, 3]);
}

#[test]
fn closures_keep_their_bindings() {
    // (x => y => x - y)(9)(4), by types 2 and 3.
    let functions = [
        TypeRecord::function(NUMBER, NUMBER, 0),
        TypeRecord::function(NUMBER, FIRST_FUNCTION, 0),
    ];
    let inner = function(2, sign(0, difference(variable(1), variable(0))));
    let outer = function(3, sign(0, inner));
    let root = sign(0, call(call(outer, number(9)), number(4)));
    let run = largest(&with_functions(&[0], &functions, root));
    assert_eq!(run.outcome, number_end(5));
    assert_eq!((run.calls, run.cells), (2, 2));
}

#[test]
fn a_sheet_refused_by_the_rules_runs_nevertheless() {
    let bytes = plain(
        &[0],
        sign(0, when(boolean(true), number(1), boolean(false))),
    );
    assert!(typecheck(&bytes).is_err());
    assert_eq!(largest(&bytes).outcome, number_end(1));
}
