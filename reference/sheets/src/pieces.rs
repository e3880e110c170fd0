//! The cases of request W13: which piece of a refused sheet is the smallest
//! that is faulty, and sheets that have none.

use crate::cases::{with_functions, with_guards};
use crate::records::{Format, Records, TypeRecord, CHANNELS, NUMBER, UNGUARDED};
use crate::tree::*;

/// A principal that may use [`PRIVILEGE`], the root's, and one that may use
/// nothing.
const ABLE: u8 = 0;
const UNABLE: u8 = 1;

const PRIVILEGE: u8 = 1;
/// One that neither may use.
const OTHER: u8 = 2;

/// Numbers to numbers, with an empty latent set and with the privilege in it;
/// the third takes the first.
const QUIET: u16 = 2;
const NEEDY: u16 = 3;
const TAKES_QUIET: u16 = 4;

/// A channel of version 2 that the privilege guards.
const PAGE: u8 = 1;

const UNBOUND: u16 = 77;

#[derive(Clone, Debug)]
pub struct Pieced {
    pub name: &'static str,
    pub sheet: Vec<u8>,
}

pub fn all() -> Vec<Pieced> {
    let version_1 = |(name, tree)| Pieced {
        name,
        sheet: with_functions(&principals(), &functions(), sign(ABLE, tree)),
    };
    let mut guards = [UNGUARDED; CHANNELS];
    guards[usize::from(PAGE)] = PRIVILEGE;
    let version_2 = |(name, tree)| Pieced {
        name,
        sheet: with_guards(&guards, &principals(), &functions(), sign(ABLE, tree)),
    };
    let in_version_1 = [alone(), sizes(), ties(), signs(), bindings(), none()];
    let mut all: Vec<Pieced> = in_version_1
        .into_iter()
        .flatten()
        .map(version_1)
        .chain(pages().into_iter().map(version_2))
        .collect();
    all.push(second_is_lower());
    all
}

fn principals() -> [u32; 2] {
    [1 << PRIVILEGE, 0]
}

fn functions() -> [TypeRecord; 3] {
    [
        TypeRecord::function(NUMBER, NUMBER, 0),
        TypeRecord::function(NUMBER, NUMBER, 1 << PRIVILEGE),
        TypeRecord::function(QUIET, NUMBER, 0),
    ]
}

/// One fault each, of every number.
fn alone() -> Vec<(&'static str, Tree)> {
    vec![
        ("9", sum(number(1), variable(UNBOUND))),
        (
            "10 of an operand",
            sum(number(1), less(number(2), boolean(true))),
        ),
        ("10 of a condition", when(number(1), number(2), number(3))),
        (
            "10 of a body",
            call(function(QUIET, sign(ABLE, boolean(true))), number(1)),
        ),
        ("11", sum(number(1), sign(UNABLE, checked(7)))),
        ("11 of the root", check(OTHER, number(7))),
        (
            "12",
            call(
                function(QUIET, sign(ABLE, check(PRIVILEGE, variable(0)))),
                number(1),
            ),
        ),
        ("24", post(call(number(1), number(2)))),
        ("25", post(call(quiet(), boolean(true)))),
        (
            "26 of an if",
            post(when(boolean(true), number(1), boolean(true))),
        ),
        (
            "26 of a test",
            post(test(PRIVILEGE, boolean(true), number(1))),
        ),
    ]
}

/// Several faults of different sizes, the first of which is told by the judge.
fn sizes() -> Vec<(&'static str, Tree)> {
    let large = || when(number(1), number(2), number(3));
    let unbound = || variable(UNBOUND);
    vec![
        ("the larger first", sum(large(), unbound())),
        ("the smaller first", sum(unbound(), large())),
        (
            "the smallest in the third child",
            when(large(), sum(boolean(true), number(1)), post(unbound())),
        ),
        (
            "the smallest in the argument of a call of no function",
            call(call(number(1), number(2)), unbound()),
        ),
        (
            "the smallest in the rest of a binder",
            letrec(QUIET, sign(ABLE, large()), sum(number(1), unbound())),
        ),
        (
            "the smallest in the body of a function that is refused, too",
            sum(
                large(),
                call(
                    function(QUIET, sign(UNABLE, post(boolean(true)))),
                    number(1),
                ),
            ),
        ),
        (
            "the smallest in a branch behind a faulty condition",
            when(
                large(),
                call(quiet(), boolean(true)),
                call(number(1), number(2)),
            ),
        ),
        (
            "a fault of many terms, alone",
            sign(
                UNABLE,
                check(
                    PRIVILEGE,
                    sum(sum(number(1), number(2)), sum(number(3), number(4))),
                ),
            ),
        ),
    ]
}

fn ties() -> Vec<(&'static str, Tree)> {
    vec![
        (
            "two of one term",
            sum(variable(UNBOUND), variable(UNBOUND + 1)),
        ),
        (
            "three of three terms, of three faults",
            when(
                sum(boolean(true), number(1)),
                call(number(1), number(2)),
                sign(UNABLE, checked(7)),
            ),
        ),
        (
            "the deeper first",
            sum(
                post(post(call(number(1), number(2)))),
                call(number(3), number(4)),
            ),
        ),
        (
            "the deeper second",
            sum(
                call(number(1), number(2)),
                post(post(call(number(3), number(4)))),
            ),
        ),
    ]
}

/// Which principal a term stands under.
fn signs() -> Vec<(&'static str, Tree)> {
    let enabled = || enable(PRIVILEGE, checked(7));
    vec![
        ("an enable under the unable", sign(UNABLE, enabled())),
        (
            "the inner of two signs",
            sign(ABLE, sign(UNABLE, checked(7))),
        ),
        (
            "under four signs",
            sign(
                UNABLE,
                sign(ABLE, sign(UNABLE, sign(ABLE, sign(UNABLE, checked(7))))),
            ),
        ),
        (
            "a body is under its own sign",
            call(
                function(QUIET, sign(UNABLE, enable(PRIVILEGE, checked(7)))),
                number(1),
            ),
        ),
        (
            "behind another fault, under its own sign",
            sum(
                when(number(1), number(2), sum(number(3), number(4))),
                sign(UNABLE, enabled()),
            ),
        ),
    ]
}

/// Which bindings a term stands in: those declared, whatever is faulty.
fn bindings() -> Vec<(&'static str, Tree)> {
    vec![
        (
            "an argument is no function",
            call(
                function(QUIET, sign(ABLE, call(variable(0), number(3)))),
                number(5),
            ),
        ),
        (
            "a function's body, a binding too few",
            call(function(QUIET, sign(ABLE, variable(1))), number(5)),
        ),
        (
            "a binder's body, a binding too few",
            letrec(QUIET, sign(ABLE, variable(2)), number(5)),
        ),
        (
            "a binder's rest, a binding too few",
            letrec(QUIET, sign(ABLE, variable(0)), variable(1)),
        ),
        (
            "the rest has the declared type, and the body another",
            letrec(
                QUIET,
                sign(ABLE, boolean(true)),
                call(variable(0), number(1)),
            ),
        ),
        (
            "the rest gives the wrong argument, and the body is of another type",
            letrec(
                QUIET,
                sign(ABLE, boolean(true)),
                call(variable(0), boolean(true)),
            ),
        ),
        (
            "an argument has the declared type, and the call is refused",
            call(
                function(QUIET, sign(ABLE, sum(variable(0), number(1)))),
                boolean(true),
            ),
        ),
        (
            "a function for a function that needs less",
            call(
                function(TAKES_QUIET, sign(ABLE, call(variable(0), number(1)))),
                function(NEEDY, sign(ABLE, check(PRIVILEGE, variable(0)))),
            ),
        ),
        (
            "a variable of a binder around a function",
            letrec(
                QUIET,
                sign(ABLE, variable(0)),
                call(
                    function(QUIET, sign(ABLE, call(variable(1), boolean(true)))),
                    number(3),
                ),
            ),
        ),
    ]
}

/// Sheets that are accepted or refused by 13, and one of a function that is
/// refused itself.
fn none() -> Vec<(&'static str, Tree)> {
    vec![
        ("accepted", number(7)),
        (
            "accepted, an enable under the able",
            sign(ABLE, enable(PRIVILEGE, checked(7))),
        ),
        (
            "accepted, the nearest sign counts",
            enable(
                PRIVILEGE,
                sign(ABLE, sign(ABLE, enable(PRIVILEGE, checked(7)))),
            ),
        ),
        ("13", quiet()),
        (
            "13 would follow",
            function(QUIET, sign(ABLE, check(PRIVILEGE, variable(0)))),
        ),
    ]
}

fn pages() -> Vec<(&'static str, Tree)> {
    vec![
        (
            "a guarded post by the unable",
            sum(number(1), sign(UNABLE, post_to(PAGE, number(7)))),
        ),
        ("a guarded post of no number", post_to(PAGE, boolean(true))),
        ("accepted, a guarded post", post_to(PAGE, number(7))),
        (
            "accepted, an open post by the unable",
            sign(UNABLE, post(number(7))),
        ),
    ]
}

/// Two variables, of which the second operand has the lower number.
fn second_is_lower() -> Pieced {
    let tree = sign(ABLE, sum(variable(UNBOUND), variable(UNBOUND + 1)));
    let mut terms = tree.assemble();
    terms[2].parts = [1, 0, 0];
    let mut types = vec![TypeRecord::bool(), TypeRecord::number()];
    types.extend(functions());
    let records = Records {
        format: Format::version_1(),
        principals: principals().to_vec(),
        types,
        terms,
    };
    Pieced {
        name: "a tie, the second operand has the lower number",
        sheet: records.to_bytes(),
    }
}

fn checked(value: u16) -> Tree {
    check(PRIVILEGE, number(value))
}

fn quiet() -> Tree {
    function(QUIET, sign(ABLE, variable(0)))
}
