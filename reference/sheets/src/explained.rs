//! The cases of request W7: where a need comes from, and where there is none.
//! W8 has added the guards.

use crate::cases::{with_functions, with_guards};
use crate::records::{TypeRecord, CHANNELS, NUMBER, UNGUARDED};
use crate::tree::*;

/// The privilege that is asked about.
pub const PRIVILEGE: u8 = 1;
/// Another one.
pub const OTHER: u8 = 2;

/// A principal that may use both, one that may use neither, and one that may
/// use the first alone.
const ABLE: u8 = 0;
const UNABLE: u8 = 1;
const ALSO_ABLE: u8 = 2;

/// Numbers to numbers, with an empty latent set and with the privilege in it;
/// a function that takes one of the latter, and one that gives one. Neither
/// has it in its own latent set.
const QUIET: u16 = 2;
const NEEDY: u16 = 3;
const TAKES_NEEDY: u16 = 4;
const GIVES_NEEDY: u16 = 5;

/// Channels of version 2 that these privileges guard.
const PAGE: u8 = 1;
const OTHER_PAGE: u8 = 2;

#[derive(Clone, Debug)]
pub struct Explained {
    pub name: &'static str,
    pub sheet: Vec<u8>,
}

pub fn all() -> Vec<Explained> {
    let able = 1 << PRIVILEGE | 1 << OTHER;
    let functions = [
        TypeRecord::function(NUMBER, NUMBER, 0),
        TypeRecord::function(NUMBER, NUMBER, 1 << PRIVILEGE),
        TypeRecord::function(NEEDY, NUMBER, 0),
        TypeRecord::function(NUMBER, NEEDY, 0),
    ];
    let principals = [able, 0, 1 << PRIVILEGE];
    let explained = |(name, tree)| Explained {
        name,
        sheet: with_functions(&principals, &functions, sign(ABLE, tree)),
    };
    let mut guards = [UNGUARDED; CHANNELS];
    guards[usize::from(PAGE)] = PRIVILEGE;
    guards[usize::from(OTHER_PAGE)] = OTHER;
    let with_pages = |(name, tree)| Explained {
        name,
        sheet: with_guards(&guards, &principals, &functions, sign(ABLE, tree)),
    };
    [causes(), ways(), causes_on_the_way(), hidden()]
        .into_iter()
        .flatten()
        .map(explained)
        .chain(guarded().into_iter().map(with_pages))
        .collect()
}

/// What a chain can end in.
fn causes() -> Vec<(&'static str, Tree)> {
    vec![
        ("a check", checked(7)),
        ("a call", call(needy(), number(7))),
        ("a binder", letrec(NEEDY, needy_body(), number(7))),
        (
            "a binder whose body needs nothing",
            letrec(NEEDY, sign(ABLE, variable(0)), number(7)),
        ),
        (
            "a call of the wider of two",
            call(when(boolean(true), quiet(), needy()), number(7)),
        ),
        (
            "a call of what a call gives",
            call(call(gives_needy(), number(7)), number(8)),
        ),
        (
            "a call of what a bound function gives",
            letrec(
                GIVES_NEEDY,
                sign(ABLE, needy()),
                letrec(
                    QUIET,
                    sign(ABLE, variable(0)),
                    call(call(variable(1), number(7)), number(8)),
                ),
            ),
        ),
    ]
}

/// Which child a chain goes on with.
fn ways() -> Vec<(&'static str, Tree)> {
    vec![
        ("sum, both", sum(checked(7), checked(8))),
        ("sum, the second", sum(number(7), checked(8))),
        (
            "if, all three",
            when(check(PRIVILEGE, boolean(true)), checked(7), checked(8)),
        ),
        (
            "if, both branches",
            when(boolean(true), checked(7), checked(8)),
        ),
        (
            "if, the no-branch",
            when(boolean(true), number(7), checked(8)),
        ),
        (
            "call, both parts",
            call(check(PRIVILEGE, quiet()), checked(7)),
        ),
        ("call, the argument", call(quiet(), checked(7))),
        (
            "binder, the rest",
            letrec(QUIET, sign(ABLE, variable(0)), checked(7)),
        ),
        (
            "test of it, both branches",
            test(PRIVILEGE, checked(7), checked(8)),
        ),
        (
            "test of it, twice",
            test(
                PRIVILEGE,
                number(0),
                test(PRIVILEGE, checked(7), checked(8)),
            ),
        ),
        (
            "test of another, both branches",
            test(OTHER, checked(7), checked(8)),
        ),
        (
            "test of another, the no-branch",
            test(OTHER, number(7), checked(8)),
        ),
        (
            "another principal",
            sum(number(7), sign(ALSO_ABLE, checked(8))),
        ),
        (
            "one kind below the other",
            post(difference(
                number(7),
                when(less(number(1), checked(2)), number(3), number(4)),
            )),
        ),
    ]
}

/// Terms that are a cause themselves, and others that look like one.
fn causes_on_the_way() -> Vec<(&'static str, Tree)> {
    vec![
        ("a check of a check", check(PRIVILEGE, checked(7))),
        ("a check of another around", check(OTHER, checked(7))),
        ("a call on a check", call(needy(), checked(7))),
        (
            "a call of a check",
            call(check(PRIVILEGE, needy()), number(7)),
        ),
        (
            "a binder and a call of what it binds",
            letrec(NEEDY, needy_body(), call(variable(0), number(7))),
        ),
        ("a call on a call", call(quiet(), call(needy(), number(7)))),
        (
            "a call that is given what needs it",
            call(takes_needy(), check(PRIVILEGE, needy())),
        ),
    ]
}

/// Needs that something takes out.
fn hidden() -> Vec<(&'static str, Tree)> {
    vec![
        ("a number", number(7)),
        ("a check of another", check(OTHER, number(7))),
        ("an enable", enable(PRIVILEGE, checked(7))),
        ("an enable of another", enable(OTHER, checked(7))),
        (
            "an enable beside a check",
            sum(enable(PRIVILEGE, checked(7)), checked(8)),
        ),
        ("the yes-branch", test(PRIVILEGE, checked(7), number(0))),
        (
            "the yes-branch of another",
            test(OTHER, checked(7), number(0)),
        ),
        (
            "an enable in vain in the yes-branch",
            sign(
                UNABLE,
                test(PRIVILEGE, enable(PRIVILEGE, checked(7)), number(0)),
            ),
        ),
        (
            "a function that is given and not called",
            call(takes_needy(), needy()),
        ),
        (
            "a function that is called in another's body",
            call(function(QUIET, sign(ABLE, enabled_call())), number(7)),
        ),
    ]
}

/// Posts to guarded channels.
fn guarded() -> Vec<(&'static str, Tree)> {
    let posted = |value| post_to(PAGE, number(value));
    vec![
        ("a guarded post", posted(7)),
        (
            "a post that another guards",
            post_to(OTHER_PAGE, checked(7)),
        ),
        ("a post to an open channel", post(checked(7))),
        ("a guarded post of a check", post_to(PAGE, checked(7))),
        ("a check of a guarded post", check(PRIVILEGE, posted(7))),
        (
            "a guarded post of a guarded post",
            post_to(PAGE, post_to(PAGE, number(7))),
        ),
        ("sum, both guarded", sum(posted(7), posted(8))),
        ("a guarded post beside a check", sum(checked(7), posted(8))),
        ("an enable of a guarded post", enable(PRIVILEGE, posted(7))),
        (
            "an enable of another of a guarded post",
            enable(OTHER, posted(7)),
        ),
        (
            "a guarded post in the yes-branch",
            test(PRIVILEGE, posted(7), number(0)),
        ),
        (
            "a guarded post in the no-branch",
            test(PRIVILEGE, posted(7), posted(8)),
        ),
        ("only another guards", post_to(OTHER_PAGE, number(7))),
    ]
}

fn checked(value: u16) -> Tree {
    check(PRIVILEGE, number(value))
}

fn needy_body() -> Tree {
    sign(ABLE, check(PRIVILEGE, variable(0)))
}

fn needy() -> Tree {
    function(NEEDY, needy_body())
}

fn quiet() -> Tree {
    function(QUIET, sign(ABLE, variable(0)))
}

fn takes_needy() -> Tree {
    function(TAKES_NEEDY, sign(ABLE, number(0)))
}

fn gives_needy() -> Tree {
    function(GIVES_NEEDY, sign(ABLE, needy()))
}

fn enabled_call() -> Tree {
    enable(PRIVILEGE, call(needy(), variable(0)))
}
