//! The cases of request W5: faults of types, those with numbers of their own
//! and the others, and which of several is told.

use crate::cases::{with_functions, Case};
use crate::records::{TypeRecord, NUMBER};
use crate::request::Request;
use crate::tree::*;

/// Numbers to numbers, with an empty latent set and with [`PRIVILEGE`] in it;
/// the third takes the first.
const QUIET: u16 = 2;
const NEEDY: u16 = 3;
const TAKES_QUIET: u16 = 4;

const PRIVILEGE: u8 = 1;
const UNBOUND: u16 = 77;

pub fn all() -> Vec<Case> {
    let functions = [
        TypeRecord::function(NUMBER, NUMBER, 0),
        TypeRecord::function(NUMBER, NUMBER, 1 << PRIVILEGE),
        TypeRecord::function(QUIET, NUMBER, 0),
    ];
    let case = |(name, tree)| Case {
        name,
        sheet: with_functions(&[1 << PRIVILEGE], &functions, sign(0, tree)),
        request: Request::largest(),
    };
    trees().into_iter().map(case).collect()
}

fn trees() -> Vec<(&'static str, Tree)> {
    let mut trees = calls();
    trees.extend(branches());
    trees.extend(others());
    trees.extend(turns());
    trees
}

fn calls() -> Vec<(&'static str, Tree)> {
    vec![
        ("a number is called", call(number(1), number(2))),
        ("function and argument exchanged", call(number(1), quiet())),
        ("a call too many", call(call(quiet(), number(1)), number(2))),
        (
            "a body calls its argument",
            letrec(
                QUIET,
                sign(0, call(variable(0), variable(1))),
                call(variable(0), number(1)),
            ),
        ),
        ("a boolean for a number", call(quiet(), boolean(true))),
        ("a function for a number", call(quiet(), quiet())),
        ("a number for a function", call(takes_quiet(), number(1))),
        (
            "a function that needs too much",
            call(takes_quiet(), needy()),
        ),
    ]
}

fn branches() -> Vec<(&'static str, Tree)> {
    vec![
        ("if, number and boolean", chosen(number(1), boolean(true))),
        (
            "if, functions of other arguments",
            chosen(quiet(), takes_quiet()),
        ),
        ("test, boolean and number", tested(boolean(true), number(1))),
        ("test, function and number", tested(quiet(), number(1))),
    ]
}

fn others() -> Vec<(&'static str, Tree)> {
    vec![
        (
            "a number for a condition",
            when(number(1), number(2), number(3)),
        ),
        (
            "a function for a condition",
            when(quiet(), number(2), number(3)),
        ),
        ("sum of a boolean", sum(boolean(true), number(1))),
        ("difference of a function", difference(number(1), quiet())),
        ("less of a boolean", less(number(1), boolean(true))),
        ("post of a boolean", post(boolean(true))),
        (
            "a body of another type",
            call(function(QUIET, sign(0, boolean(true))), number(1)),
        ),
        (
            "a binder's body of another type",
            letrec(QUIET, sign(0, quiet()), call(variable(0), number(1))),
        ),
        ("a function at the root", quiet()),
    ]
}

/// Two faults each.
fn turns() -> Vec<(&'static str, Tree)> {
    vec![
        ("24 before 25", call(number(1), boolean(true))),
        ("10 before 26", when(number(1), number(2), boolean(true))),
        ("a child before 24", call(number(1), variable(UNBOUND))),
        ("a child before 25", call(quiet(), post(boolean(true)))),
        (
            "a child before 26",
            chosen(number(1), call(boolean(true), number(3))),
        ),
        (
            "24 before the needs of its body",
            function(QUIET, sign(0, check(PRIVILEGE, call(number(1), number(2))))),
        ),
        (
            "25 in the rest before a binder's body",
            letrec(
                QUIET,
                sign(0, boolean(true)),
                call(variable(0), boolean(true)),
            ),
        ),
        (
            "25 before the needs of a sign",
            call(takes_quiet(), check(0, needy())),
        ),
        ("26 before the root", tested(quiet(), takes_quiet())),
    ]
}

fn chosen(yes: Tree, no: Tree) -> Tree {
    when(boolean(true), yes, no)
}

fn tested(yes: Tree, no: Tree) -> Tree {
    test(PRIVILEGE, yes, no)
}

fn quiet() -> Tree {
    function(QUIET, sign(0, variable(0)))
}

fn needy() -> Tree {
    function(NEEDY, sign(0, check(PRIVILEGE, variable(0))))
}

fn takes_quiet() -> Tree {
    function(TAKES_QUIET, sign(0, call(variable(0), number(1))))
}
