//! The cases of request W10: sums and differences at the limits and past them,
//! and where held ones are counted.

use crate::cases::{with_functions, Case};
use crate::records::{TypeRecord, NUMBER};
use crate::request::Request;
use crate::tree::*;

/// Numbers to numbers.
const FUNCTION: u16 = 2;

/// What the checks name. Nothing grants it.
const PRIVILEGE: u8 = 1;

/// The highest number.
const HIGHEST: u16 = 65_535;

pub fn all() -> Vec<Case> {
    let mut cases: Vec<Case> = trees()
        .into_iter()
        .map(|(name, tree)| case(name, tree, Request::largest()))
        .collect();
    cases.extend(prevented());
    cases
}

fn case(name: &'static str, tree: Tree, request: Request) -> Case {
    let functions = [TypeRecord::function(NUMBER, NUMBER, 0)];
    Case {
        name,
        sheet: with_functions(&[1 << PRIVILEGE], &functions, sign(0, tree)),
        request,
    }
}

fn trees() -> Vec<(&'static str, Tree)> {
    let mut trees = limits();
    trees.extend(operands());
    trees.extend(evaluated());
    trees.extend(stops());
    trees
}

fn limits() -> Vec<(&'static str, Tree)> {
    let sum_of = |left, right| sum(number(left), number(right));
    let difference_of = |left, right| difference(number(left), number(right));
    vec![
        ("65,535 + 0", sum_of(HIGHEST, 0)),
        ("32,767 + 32,768", sum_of(32_767, 32_768)),
        ("65,535 + 1", sum_of(HIGHEST, 1)),
        ("1 + 65,535", sum_of(1, HIGHEST)),
        ("32,768 + 32,768", sum_of(32_768, 32_768)),
        ("65,535 + 65,535", sum_of(HIGHEST, HIGHEST)),
        ("0 + 0", sum_of(0, 0)),
        ("7 - 7", difference_of(7, 7)),
        ("65,535 - 65,535", difference_of(HIGHEST, HIGHEST)),
        ("7 - 8", difference_of(7, 8)),
        ("0 - 65,535", difference_of(0, HIGHEST)),
        ("65,535 - 0", difference_of(HIGHEST, 0)),
        ("0 less 65,535", less(number(0), number(HIGHEST))),
        ("65,535 less 0", less(number(HIGHEST), number(0))),
    ]
}

/// The exact result is that of the operands' numbers, as they were held.
fn operands() -> Vec<(&'static str, Tree)> {
    vec![
        (
            "a held sum less the limit",
            difference(high(), number(HIGHEST)),
        ),
        ("a held sum less one more", difference(high(), high())),
        (
            "a held difference and the limit",
            sum(low(), number(HIGHEST)),
        ),
        ("three held sums", sum(high(), high())),
        (
            "three held differences",
            difference(low(), sum(low(), number(1))),
        ),
    ]
}

/// What is evaluated counts, as often as it is.
fn evaluated() -> Vec<(&'static str, Tree)> {
    let twice = || function(FUNCTION, sign(0, sum(variable(0), variable(0))));
    vec![
        (
            "in a condition",
            when(less(low(), number(1)), number(3), number(4)),
        ),
        (
            "in the branch that is chosen",
            when(boolean(true), high(), number(4)),
        ),
        (
            "in the other branch",
            when(boolean(false), high(), number(4)),
        ),
        (
            "in the yes-branch of a test",
            test(PRIVILEGE, high(), low()),
        ),
        ("posted", post(high())),
        ("in an argument and in the body", call(twice(), high())),
        ("in an argument alone", call(twice(), low())),
        (
            "in a body that isn't called",
            sum(number(1), call_of_one(high())),
        ),
        ("in a body that calls itself", countdown(9)),
    ]
}

/// A function that gives its argument, beside one that is only bound.
fn call_of_one(body: Tree) -> Tree {
    let identity = function(FUNCTION, sign(0, variable(0)));
    letrec(FUNCTION, sign(0, body), call(identity, number(1)))
}

/// f(n) = if n less 1 then 0 else (0 - 1) + f(n - 1).
fn countdown(rounds: u16) -> Tree {
    let again = call(variable(1), difference(variable(0), number(1)));
    let body = when(less(variable(0), number(1)), number(0), sum(low(), again));
    let rest = call(variable(0), number(rounds));
    letrec(FUNCTION, sign(0, body), rest)
}

/// What was held before a stop stays counted, and a sum that is stuck isn't.
fn stops() -> Vec<(&'static str, Tree)> {
    let checked = || check(PRIVILEGE, number(1));
    vec![
        ("stuck", sum(number(HIGHEST), boolean(true))),
        (
            "stuck, difference",
            difference(boolean(true), number(HIGHEST)),
        ),
        ("stuck after a held sum", sum(high(), boolean(true))),
        ("stuck before a held sum", sum(boolean(true), high())),
        ("a post that is stuck", post(less(low(), high()))),
        ("a check after a held sum", sum(high(), checked())),
        ("a check around a held sum", check(PRIVILEGE, high())),
        ("a call of what is no function", call(number(1), high())),
    ]
}

/// Requests that allow less than the sheet asks, or that are turned back.
fn prevented() -> Vec<Case> {
    let identity = || function(FUNCTION, sign(0, variable(0)));
    let largest = Request::largest;
    vec![
        case(
            "no open call",
            call(identity(), high()),
            Request {
                open_calls: 0,
                ..largest()
            },
        ),
        case(
            "calls spent",
            call(identity(), high()),
            Request {
                calls: 0,
                ..largest()
            },
        ),
        case(
            "no cell",
            call(identity(), high()),
            Request {
                cell_bytes: 0,
                ..largest()
            },
        ),
        case(
            "no place for a post",
            post(high()),
            Request {
                posts: 0,
                ..largest()
            },
        ),
        case("turned back", high(), largest().with_start(&[0])),
    ]
}

/// A sum that is held.
fn high() -> Tree {
    sum(number(HIGHEST), number(1))
}

/// A difference that is held.
fn low() -> Tree {
    difference(number(0), number(1))
}
