//! The cases of request W1: what a test takes out of the needs of its
//! yes-branch, and what it leaves there.

use crate::cases::{with_functions, Case};
use crate::records::{TypeRecord, NUMBER};
use crate::request::Request;
use crate::tree::*;

/// The privilege that is tested.
pub const TESTED: u8 = 1;
/// Another one.
pub const OTHER: u8 = 2;

/// A principal that may use both, and one that may use neither.
const ABLE: u8 = 0;
const UNABLE: u8 = 1;

/// Numbers to numbers, with an empty latent set and with the tested privilege
/// in it.
const QUIET: u16 = 2;
const NEEDY: u16 = 3;

/// Each is asked for on a stack that grants the tested privilege and no other,
/// so that the yes-branch runs.
pub fn all() -> Vec<Case> {
    let granted = 1 << TESTED;
    let functions = [0, granted].map(|latent| TypeRecord::function(NUMBER, NUMBER, latent));
    let case = |(name, tree)| Case {
        name,
        sheet: with_functions(&[granted | 1 << OTHER, 0], &functions, sign(ABLE, tree)),
        request: Request::largest().with_start(&[ABLE.into(), granted]),
    };
    trees().into_iter().map(case).collect()
}

fn trees() -> Vec<(&'static str, Tree)> {
    vec![
        ("yes-branch alone", tested(checked(7), number(0))),
        ("no-branch alone", tested(number(0), checked(7))),
        ("both branches", tested(checked(7), checked(8))),
        (
            "another privilege in the yes-branch",
            tested(check(OTHER, checked(7)), number(0)),
        ),
        (
            "another privilege in the no-branch",
            tested(checked(7), check(OTHER, number(8))),
        ),
        (
            "a check around the test",
            check(TESTED, tested(checked(7), number(0))),
        ),
        (
            "a check beside the test",
            sum(tested(checked(7), number(0)), checked(8)),
        ),
        // Who signs doesn't matter to the test itself, but a sign in the
        // branch has its say before the test has.
        (
            "signed by the unable",
            sign(UNABLE, tested(checked(7), number(0))),
        ),
        (
            "signed by the unable, no-branch",
            sign(UNABLE, tested(number(0), checked(7))),
        ),
        (
            "signed by the unable, in the yes-branch",
            tested(sign(UNABLE, checked(7)), number(0)),
        ),
        (
            "a test of both",
            tested(test(OTHER, check(OTHER, checked(7)), number(1)), number(0)),
        ),
        (
            "the inner test's no-branch",
            tested(test(OTHER, number(1), checked(7)), number(0)),
        ),
        (
            "the inner test's own privilege in its no-branch",
            tested(test(OTHER, checked(7), check(OTHER, number(1))), number(0)),
        ),
        (
            "tested again in the no-branch",
            tested(number(0), tested(checked(7), number(1))),
        ),
        (
            "tested again in the yes-branch",
            tested(tested(number(1), checked(7)), number(0)),
        ),
        ("an enable", tested(enable(TESTED, checked(7)), number(0))),
        (
            "an enable of another",
            tested(enable(OTHER, check(OTHER, checked(7))), number(0)),
        ),
        (
            "an enable by the unable",
            sign(UNABLE, tested(enable(TESTED, checked(7)), number(0))),
        ),
        (
            "an enable around the test",
            enable(TESTED, tested(checked(7), checked(8))),
        ),
        (
            "a call with a latent need",
            tested(call(needy(), number(7)), number(0)),
        ),
        (
            "a call with a latent need in the no-branch",
            tested(number(0), call(needy(), number(7))),
        ),
        (
            "a binder with a latent need",
            tested(letrec(NEEDY, sign(ABLE, checked(7)), number(7)), number(0)),
        ),
        (
            "a function of both branches, called outside",
            call(tested(needy(), needy()), number(7)),
        ),
        (
            "the body of a quiet function",
            call(
                function(
                    QUIET,
                    sign(ABLE, tested(check(TESTED, variable(0)), number(0))),
                ),
                number(7),
            ),
        ),
    ]
}

fn tested(yes: Tree, no: Tree) -> Tree {
    test(TESTED, yes, no)
}

fn checked(value: u16) -> Tree {
    check(TESTED, number(value))
}

fn needy() -> Tree {
    function(NEEDY, sign(ABLE, check(TESTED, variable(0))))
}
