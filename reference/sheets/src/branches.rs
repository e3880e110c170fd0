//! The cases of request W4: which branches an if and a test take, and the
//! type that they have then.

use crate::cases::{with_functions, Case};
use crate::records::{TypeRecord, NUMBER};
use crate::request::Request;
use crate::tree::*;

/// The privilege that the start stack grants, and that is tested.
pub const GRANTED: u8 = 1;
/// Another one.
pub const OTHER: u8 = 2;

/// A principal that may use both, and one that may use neither.
const ABLE: u8 = 0;
const UNABLE: u8 = 1;

/// Numbers to numbers, by their latent sets. `QUIET` is the narrowest and
/// `NEEDS_BOTH` the widest; of the two between them neither fits the other.
const QUIET: u16 = 2;
const NEEDY: u16 = 3;
const NEEDS_OTHER: u16 = 4;
const NEEDS_BOTH: u16 = 5;
/// They take such functions, and the last two take their takers.
const TAKES_QUIET: u16 = 6;
const TAKES_NEEDY: u16 = 7;
const TAKES_TAKER_OF_QUIET: u16 = 8;
const TAKES_TAKER_OF_NEEDY: u16 = 9;
/// They give such functions.
const GIVES_QUIET: u16 = 10;
const GIVES_NEEDY: u16 = 11;

/// Each is asked for on a stack that grants [`GRANTED`] and no other.
pub fn all() -> Vec<Case> {
    let (granted, other) = (1 << GRANTED, 1 << OTHER);
    let numbers = |latent| TypeRecord::function(NUMBER, NUMBER, latent);
    let takes = |taken| TypeRecord::function(taken, NUMBER, 0);
    let gives = |given| TypeRecord::function(NUMBER, given, 0);
    let functions = [
        numbers(0),
        numbers(granted),
        numbers(other),
        numbers(granted | other),
        takes(QUIET),
        takes(NEEDY),
        takes(TAKES_QUIET),
        takes(TAKES_NEEDY),
        gives(QUIET),
        gives(NEEDY),
    ];
    let case = |(name, tree)| Case {
        name,
        sheet: with_functions(&[granted | other, 0], &functions, sign(ABLE, tree)),
        request: Request::largest().with_start(&[ABLE.into(), granted]),
    };
    trees().into_iter().map(case).collect()
}

fn trees() -> Vec<(&'static str, Tree)> {
    vec![
        // The call tells the type: it needs its latent set.
        ("if, the same type", called(chosen(needy(), needy()))),
        ("if, yes fits no", called(chosen(quiet(), needy()))),
        ("if, no fits yes", called(chosen(needy(), quiet()))),
        ("if, neither fits", called(chosen(needy(), needs_other()))),
        ("test, the same type", called(tested(needy(), needy()))),
        ("test, yes fits no", called(tested(quiet(), needy()))),
        ("test, no fits yes", called(tested(needy(), quiet()))),
        ("test, neither fits", called(tested(needy(), needs_other()))),
        ("if, number and boolean", chosen(number(1), boolean(true))),
        ("test, boolean and number", tested(boolean(true), number(1))),
        ("if, function and number", chosen(quiet(), number(1))),
        (
            "a number for a condition, and fitting branches",
            called(when(number(1), quiet(), needy())),
        ),
        (
            "needs of the narrower branch",
            called(chosen(check(OTHER, quiet()), needy())),
        ),
        (
            "nested, wider and wider",
            called(chosen(chosen(quiet(), needy()), needs_both())),
        ),
        (
            "nested, the middle one last",
            called(tested(chosen(quiet(), needs_both()), needy())),
        ),
        (
            "nested, each with the widest",
            called(chosen(
                tested(needy(), needs_both()),
                tested(needs_other(), needs_both()),
            )),
        ),
        // The type is never a third one that both fit.
        (
            "nested, neither fits but both fit the third",
            called(chosen(chosen(needy(), needs_other()), needs_both())),
        ),
        (
            "given where the wider is asked",
            call(taker(TAKES_NEEDY), chosen(quiet(), needy())),
        ),
        (
            "given where the narrower is asked",
            call(taker(TAKES_QUIET), chosen(quiet(), needy())),
        ),
        // Of takers the wider is the one that takes less.
        (
            "takers, called with the narrower",
            call(chosen(taker(TAKES_NEEDY), taker(TAKES_QUIET)), quiet()),
        ),
        (
            "takers, called with the wider",
            call(chosen(taker(TAKES_NEEDY), taker(TAKES_QUIET)), needy()),
        ),
        (
            "takers of takers, called with the one that takes more",
            call(
                tested(taker(TAKES_TAKER_OF_QUIET), taker(TAKES_TAKER_OF_NEEDY)),
                taker(TAKES_NEEDY),
            ),
        ),
        (
            "takers of takers, called with the one that takes less",
            call(
                tested(taker(TAKES_TAKER_OF_QUIET), taker(TAKES_TAKER_OF_NEEDY)),
                taker(TAKES_QUIET),
            ),
        ),
        (
            "givers",
            called(called(chosen(
                giver(GIVES_QUIET, quiet()),
                giver(GIVES_NEEDY, needy()),
            ))),
        ),
        (
            "a body that gives the wider, as it should",
            called(called(giver(GIVES_NEEDY, chosen(quiet(), needy())))),
        ),
        (
            "a body that gives the wider, and should the narrower",
            called(called(giver(GIVES_QUIET, chosen(quiet(), needy())))),
        ),
        (
            "a body that gives the narrower, and should the wider",
            called(called(giver(GIVES_NEEDY, chosen(quiet(), quiet())))),
        ),
        (
            "the body of a binder",
            letrec(
                GIVES_NEEDY,
                sign(ABLE, tested(needy(), quiet())),
                called(called(variable(0))),
            ),
        ),
        (
            "more than the body's type names",
            called(function(
                QUIET,
                sign(ABLE, call(chosen(quiet(), needy()), variable(0))),
            )),
        ),
        (
            "more than who signs may use",
            sign(UNABLE, called(tested(quiet(), needy()))),
        ),
        ("at the root", chosen(quiet(), needy())),
    ]
}

fn chosen(yes: Tree, no: Tree) -> Tree {
    when(boolean(true), yes, no)
}

fn tested(yes: Tree, no: Tree) -> Tree {
    test(GRANTED, yes, no)
}

fn called(callee: Tree) -> Tree {
    call(callee, number(7))
}

fn quiet() -> Tree {
    function(QUIET, sign(ABLE, variable(0)))
}

fn needy() -> Tree {
    function(NEEDY, sign(ABLE, check(GRANTED, variable(0))))
}

fn needs_other() -> Tree {
    function(NEEDS_OTHER, sign(ABLE, check(OTHER, variable(0))))
}

fn needs_both() -> Tree {
    function(
        NEEDS_BOTH,
        sign(ABLE, check(OTHER, check(GRANTED, variable(0)))),
    )
}

fn taker(ty: u16) -> Tree {
    function(ty, sign(ABLE, number(8)))
}

fn giver(ty: u16, given: Tree) -> Tree {
    function(ty, sign(ABLE, given))
}
