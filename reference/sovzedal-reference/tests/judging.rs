//! Causes 9 to 13 and 24 to 26, and which of several is told.

use sheets::cases::{computing, plain, with_functions};
use sheets::records::{TypeRecord, BOOL, NUMBER};
use sheets::tree::*;
use sovzedal_reference::{typecheck, Cause};

/// Types 2 and 3: numbers to numbers, needing nothing and privilege 1.
const QUIET: u16 = 2;
const NEEDY: u16 = 3;
/// Types 4 and 5: they take a quiet and a needy function.
const TAKES_QUIET: u16 = 4;
const TAKES_NEEDY: u16 = 5;
const UNBOUND: u16 = 77;

/// Principal 0 may use privilege 1, principal 1 nothing.
fn sheet(tree: Tree) -> Vec<u8> {
    let functions = [
        TypeRecord::function(NUMBER, NUMBER, 0),
        TypeRecord::function(NUMBER, NUMBER, 2),
        TypeRecord::function(QUIET, BOOL, 0),
        TypeRecord::function(NEEDY, BOOL, 0),
    ];
    with_functions(&[2, 0], &functions, sign(0, tree))
}

fn needs(tree: Tree) -> u32 {
    typecheck(&sheet(tree))
        .expect("an accepted sheet")
        .needs
        .bits()
}

fn refused(tree: Tree) -> (Cause, u32) {
    let refusal = typecheck(&sheet(tree)).expect_err("a refused sheet");
    (refusal.cause, refusal.place)
}

fn quiet() -> Tree {
    function(QUIET, sign(0, variable(0)))
}

fn needy() -> Tree {
    function(NEEDY, sign(0, check(1, variable(0))))
}

fn taking(ty: u16) -> Tree {
    function(ty, sign(0, boolean(true)))
}

#[test]
fn latent_sets_are_needed_by_calls_alone() {
    assert_eq!(needs(call(needy(), number(1))), 2);
    assert_eq!(needs(call(taking(TAKES_NEEDY), needy())), 0);
}

#[test]
fn a_binder_needs_its_latent_set() {
    let body = sign(0, variable(0));
    assert_eq!(needs(letrec(NEEDY, body, number(1))), 2);
}

#[test]
fn enabling_helps_only_the_authorised() {
    assert_eq!(needs(enable(1, check(1, number(1)))), 0);
    assert_eq!(needs(enable(1, enable(0, check(1, number(1))))), 0);
    let unauthorised = sign(1, enable(1, check(1, number(1))));
    assert_eq!(refused(unauthorised).0, Cause::SignNeeds);
}

#[test]
fn functions_fit_where_more_is_allowed() {
    assert_eq!(needs(call(taking(TAKES_NEEDY), quiet())), 0);
    let more_than_allowed = call(taking(TAKES_QUIET), needy());
    assert_eq!(refused(more_than_allowed).0, Cause::Argument);
}

#[test]
fn arguments_fit_the_other_way_round() {
    // A taker of takers: what takes needy functions may be given where one
    // that takes quiet functions is asked, and not the other way.
    let judged = |query, given| {
        let functions = [
            TypeRecord::function(NUMBER, NUMBER, 0),
            TypeRecord::function(NUMBER, NUMBER, 2),
            TypeRecord::function(QUIET, BOOL, 0),
            TypeRecord::function(NEEDY, BOOL, 0),
            TypeRecord::function(query, BOOL, 0),
        ];
        let outer = function(6, sign(0, boolean(true)));
        let root = sign(0, call(outer, taking(given)));
        typecheck(&with_functions(&[2], &functions, root)).is_ok()
    };
    assert!(judged(TAKES_QUIET, TAKES_NEEDY));
    assert!(!judged(TAKES_NEEDY, TAKES_QUIET));
}

#[test]
fn a_body_has_exactly_the_result_type() {
    let functions = [
        TypeRecord::function(NUMBER, NUMBER, 0),
        TypeRecord::function(NUMBER, NUMBER, 2),
        TypeRecord::function(NUMBER, NEEDY, 0),
    ];
    let outer = function(4, sign(0, quiet()));
    let root = sign(0, call(call(outer, number(1)), number(2)));
    let refusal = typecheck(&with_functions(&[2], &functions, root)).unwrap_err();
    assert_eq!(refusal.cause, Cause::TypeMismatch);
}

/// More of this stands in `branches.rs`.
#[test]
fn branches_have_the_wider_type() {
    let branches = || when(boolean(true), quiet(), needy());
    assert_eq!(needs(call(branches(), number(1))), 2);
    // A body doesn't have its result's type if it only fits it.
    let body = function(QUIET, sign(0, branches()));
    assert_eq!(refused(body).0, Cause::TypeMismatch);
}

#[test]
fn an_if_is_judged_after_its_branches() {
    let unbound = || variable(UNBOUND);
    let in_yes = when(number(1), unbound(), boolean(true));
    assert_eq!(refused(in_yes), (Cause::UnboundVariable, 1));
    let in_no = when(number(1), number(2), unbound());
    assert_eq!(refused(in_no), (Cause::UnboundVariable, 2));
    let condition = when(number(1), quiet(), needy());
    assert_eq!(refused(condition), (Cause::TypeMismatch, 8));
    let all_three = when(number(1), number(2), boolean(true));
    assert_eq!(refused(all_three), (Cause::TypeMismatch, 3));
    let branches = when(boolean(true), number(2), boolean(true));
    assert_eq!(refused(branches), (Cause::Branches, 3));
    let in_test = test(1, number(2), unbound());
    assert_eq!(refused(in_test), (Cause::UnboundVariable, 1));
}

#[test]
fn variables() {
    assert_eq!(refused(variable(0)), (Cause::UnboundVariable, 0));
    // In the body 0 is the argument and 1 the function; in the rest 0 is the
    // function.
    let body = sign(0, call(variable(1), variable(0)));
    assert_eq!(needs(letrec(QUIET, body, call(variable(0), number(1)))), 0);
    let in_rest = letrec(QUIET, sign(0, variable(0)), variable(1));
    assert_eq!(refused(in_rest), (Cause::UnboundVariable, 2));
}

#[test]
fn the_root_gives_no_function() {
    assert_eq!(refused(quiet()), (Cause::RootType, 3));
}

#[test]
fn children_are_judged_in_order() {
    let type_fault = || post(boolean(true));
    let unbound = || variable(UNBOUND);
    assert_eq!(
        refused(sum(type_fault(), unbound())),
        (Cause::TypeMismatch, 1)
    );
    assert_eq!(
        refused(sum(unbound(), type_fault())),
        (Cause::UnboundVariable, 0)
    );
    assert_eq!(
        refused(call(number(1), unbound())),
        (Cause::UnboundVariable, 1)
    );
}

#[test]
fn a_binder_is_judged_after_its_rest() {
    let wrong_body = || sign(0, boolean(true));
    let in_rest = letrec(QUIET, wrong_body(), variable(UNBOUND));
    assert_eq!(refused(in_rest), (Cause::UnboundVariable, 2));
    let sound_rest = letrec(QUIET, wrong_body(), number(1));
    assert_eq!(refused(sound_rest), (Cause::TypeMismatch, 3));
}

#[test]
fn a_bodys_type_is_reported_before_its_needs() {
    let both = function(QUIET, sign(0, check(1, boolean(true))));
    assert_eq!(refused(both), (Cause::TypeMismatch, 3));
    let needs_alone = function(QUIET, sign(0, check(1, number(1))));
    assert_eq!(refused(needs_alone), (Cause::BodyNeeds, 3));
}

#[test]
fn needs_of_a_sign() {
    let bytes = plain(&[0], sign(0, check(31, number(1))));
    let refusal = typecheck(&bytes).unwrap_err();
    assert_eq!((refusal.cause, refusal.place), (Cause::SignNeeds, 2));
    assert_eq!(typecheck(&computing(boolean(true))).unwrap().ty, BOOL);
}
