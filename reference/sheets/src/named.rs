//! The cases of request W11: which term names a privilege, and where none does
//! that looks like it.

use crate::cases::{with_functions, with_guards};
use crate::records::{TypeRecord, CHANNELS, NUMBER, UNGUARDED};
use crate::tree::*;

/// The privilege that is asked about.
pub const PRIVILEGE: u8 = 1;
/// Another one.
pub const OTHER: u8 = 2;

/// A principal that may use both, and one that may use neither. The second has
/// the number of the privilege.
pub const ABLE: u8 = 0;
pub const UNABLE: u8 = 1;

/// Numbers to numbers, with an empty latent set and with the privilege in it.
const QUIET: u16 = 2;
const NEEDY: u16 = 3;

/// Channels of version 2: two that the privilege guards, and one that another
/// does and that has the number of the privilege. Nothing guards the rest.
const PAGE: u8 = 2;
const LAST_PAGE: u8 = 15;
const OTHER_PAGE: u8 = PRIVILEGE;

#[derive(Clone, Debug)]
pub struct Named {
    pub name: &'static str,
    pub sheet: Vec<u8>,
}

pub fn all() -> Vec<Named> {
    let principals = [1 << PRIVILEGE | 1 << OTHER, 0];
    let functions = [0, 1 << PRIVILEGE].map(|latent| TypeRecord::function(NUMBER, NUMBER, latent));
    let mut guards = [UNGUARDED; CHANNELS];
    for (page, guard) in [
        (PAGE, PRIVILEGE),
        (LAST_PAGE, PRIVILEGE),
        (OTHER_PAGE, OTHER),
    ] {
        guards[usize::from(page)] = guard;
    }
    let version_1 = |(name, tree)| Named {
        name,
        sheet: with_functions(&principals, &functions, sign(ABLE, tree)),
    };
    let version_2 = |(name, tree)| Named {
        name,
        sheet: with_guards(&guards, &principals, &functions, sign(ABLE, tree)),
    };
    let in_version_1 = [checks_and_tests(), out_of_reach(), others(), refused()];
    let in_version_1 = in_version_1.into_iter().flatten().map(version_1);
    in_version_1
        .chain(posts().into_iter().map(version_2))
        .collect()
}

fn checks_and_tests() -> Vec<(&'static str, Tree)> {
    vec![
        ("a check", checked(7)),
        ("a test", tested(7, 8)),
        ("a check below an enable", enable(PRIVILEGE, checked(7))),
        ("two checks", sum(checked(7), checked(8))),
        ("a test before a check", sum(tested(7, 8), checked(9))),
        ("a check in a test", test(PRIVILEGE, checked(7), number(8))),
        (
            "a check after others",
            check(OTHER, check(PRIVILEGE, sum(number(7), number(8)))),
        ),
    ]
}

/// Terms that no run comes to.
fn out_of_reach() -> Vec<(&'static str, Tree)> {
    vec![
        (
            "a check in a body that nothing calls",
            letrec(
                QUIET,
                sign(ABLE, enable(PRIVILEGE, check(PRIVILEGE, variable(0)))),
                number(7),
            ),
        ),
        (
            "a test in a branch that isn't chosen",
            when(boolean(true), number(7), tested(8, 9)),
        ),
    ]
}

/// What doesn't name it.
fn others() -> Vec<(&'static str, Tree)> {
    vec![
        ("a check of another", check(OTHER, number(7))),
        ("a test of another", test(OTHER, number(7), number(8))),
        (
            "an enable",
            sum(
                enable(PRIVILEGE, test(OTHER, post(number(7)), number(8))),
                number(9),
            ),
        ),
        (
            "an enable in vain",
            sign(UNABLE, enable(PRIVILEGE, test(OTHER, number(7), number(8)))),
        ),
        (
            "a need of it",
            call(function(NEEDY, sign(ABLE, variable(0))), number(7)),
        ),
        ("a post", post(number(7))),
        ("a boolean of its number", boolean(true)),
        ("a number and a variable of its number", {
            let body = function(QUIET, sign(ABLE, sum(variable(1), number(1))));
            call(
                function(QUIET, sign(ABLE, call(body, number(1)))),
                number(2),
            )
        }),
        ("a sign of its number", sign(UNABLE, number(7))),
    ]
}

/// Sheets that the rules refuse: by 10, and by 11 at a sign.
fn refused() -> Vec<(&'static str, Tree)> {
    vec![
        (
            "a check, no number",
            sum(check(PRIVILEGE, boolean(true)), number(7)),
        ),
        (
            "an enable, no number",
            sum(enable(PRIVILEGE, boolean(true)), number(7)),
        ),
        ("a check by the unable", sign(UNABLE, checked(7))),
    ]
}

fn posts() -> Vec<(&'static str, Tree)> {
    let posted = || post_to(PAGE, number(7));
    vec![
        ("a guarded post", posted()),
        (
            "a guarded post to the last channel",
            post_to(LAST_PAGE, number(7)),
        ),
        (
            "a post that another guards, to the channel of its number",
            post_to(OTHER_PAGE, number(7)),
        ),
        ("a post to an open channel", post(number(7))),
        ("no post", number(7)),
        ("an enable of no post", enable(PRIVILEGE, number(7))),
        (
            "a guarded post below an enable",
            enable(PRIVILEGE, posted()),
        ),
        ("a guarded post before a check", sum(posted(), checked(8))),
        ("a check before a guarded post", sum(checked(8), posted())),
        (
            "a guarded post in a body that nothing calls",
            letrec(
                QUIET,
                sign(ABLE, enable(PRIVILEGE, post_to(PAGE, variable(0)))),
                number(7),
            ),
        ),
    ]
}

fn checked(value: u16) -> Tree {
    check(PRIVILEGE, number(value))
}

fn tested(yes: u16, no: u16) -> Tree {
    test(PRIVILEGE, number(yes), number(no))
}
