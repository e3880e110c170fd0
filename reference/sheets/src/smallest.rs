//! For each cause the smallest sheet known to reach it. 23, 27 to 30 and 34 are
//! told of no sheet, 32 and 33 only where one is to be made lean, and 35 and 36
//! only of runs over ranges.

use crate::cases::{computing, endless, nested, plain};
use crate::cases::{with_functions, with_guards, FIRST_FUNCTION};
use crate::records::{Format, Records, TypeRecord, BOOL, CHANNELS, NUMBER, UNGUARDED};
use crate::request::{Request, MAX_CALLS, MAX_POSTS};
use crate::tree::*;

#[derive(Clone, Debug)]
pub struct Smallest {
    pub cause: u32,
    pub sheet: Vec<u8>,
    /// How to ask for a run, where the cause is found by one.
    pub request: Request,
}

/// One for each cause that a sheet or a request can have.
pub fn all() -> Vec<Smallest> {
    (1..=22)
        .chain(24..=26)
        .chain([31])
        .map(|cause| Smallest {
            cause,
            sheet: sheet(cause),
            request: request(cause),
        })
        .collect()
}

fn sheet(cause: u32) -> Vec<u8> {
    match cause {
        1 => vec![],
        2 => vec![0, 0, 0],
        3 => vec![1, 0, 2, 0, 0],
        4 => vec![1, 0, 0],
        5 => one_term(TypeRecord::bool(), sign(0, boolean(false))),
        6 => one_term(TypeRecord::number(), sign(0, boolean(false))),
        7 => one_term(TypeRecord::number(), boolean(false)),
        8 => nested(33),
        9 | 18 => computing(variable(0)),
        10 => computing(post(boolean(false))),
        11 => plain(&[0], sign(0, check(0, boolean(false)))),
        12 => with_functions(&[1], &[bool_to_bool()], sign(0, needing_function())),
        13 => with_functions(&[0], &[bool_to_bool()], sign(0, constant_function())),
        14..=16 => computing(boolean(false)),
        17 => plain(&[1], sign(0, check(0, boolean(false)))),
        19 => endless(),
        20 => doubling(|step| step),
        21 => doubling(|step| letrec(FIRST_FUNCTION, sign(0, variable(0)), beneath_binder(step))),
        22 => posting_thrice(),
        24 => computing(call(boolean(false), boolean(false))),
        25 => with_functions(
            &[0],
            &[bool_to_bool()],
            sign(0, call(constant_function(), number(0))),
        ),
        26 => computing(test(0, boolean(false), number(0))),
        31 => badly_guarded(),
        _ => unreachable!("no sheet has another cause"),
    }
}

fn request(cause: u32) -> Request {
    let largest = Request::largest();
    match cause {
        14 => largest.with_start(&[0]),
        15 => Request {
            posts: MAX_POSTS + 1,
            ..largest
        },
        16 => Request {
            calls: MAX_CALLS + 1,
            ..largest
        },
        _ => largest,
    }
}

/// A sheet whose terms are the root of `tree` alone.
fn one_term(second_type: TypeRecord, tree: Tree) -> Vec<u8> {
    let root = *tree.assemble().last().expect("a tree has a root");
    Records {
        format: Format::version_1(),
        principals: vec![0],
        types: vec![TypeRecord::bool(), second_type],
        terms: vec![root],
    }
    .to_bytes()
}

/// There is no privilege 32 to guard channel 0.
fn badly_guarded() -> Vec<u8> {
    let mut guards = [UNGUARDED; CHANNELS];
    guards[0] = 32;
    with_guards(&guards, &[0], &[], sign(0, boolean(false)))
}

fn bool_to_bool() -> TypeRecord {
    TypeRecord::function(BOOL, BOOL, 0)
}

fn constant_function() -> Tree {
    function(FIRST_FUNCTION, sign(0, boolean(false)))
}

fn needing_function() -> Tree {
    function(FIRST_FUNCTION, sign(0, check(0, boolean(false))))
}

/// f(x) = x, found the long way: for x less 12 it is f(f(x + 1)) - 1. That
/// makes 2^12 calls and more, but never more than 13 at a time.
fn doubling(wrap: impl Fn(Tree) -> Tree) -> Vec<u8> {
    const ROUNDS: u16 = 12;
    let (argument, itself) = (|| variable(0), || variable(1));
    let next = call(itself(), call(itself(), sum(argument(), number(1))));
    let step = when(
        less(argument(), number(ROUNDS)),
        difference(next, number(1)),
        argument(),
    );
    let root = sign(
        0,
        letrec(
            FIRST_FUNCTION,
            sign(0, wrap(step)),
            call(variable(0), number(0)),
        ),
    );
    with_functions(&[0], &[TypeRecord::function(NUMBER, NUMBER, 0)], root)
}

/// The same tree, with one more binding between it and its variables.
fn beneath_binder(mut tree: Tree) -> Tree {
    for index in 0..tree.size() {
        let term = tree.nth_mut(index);
        if term.kind == Kind::Variable {
            term.number += 1;
        }
    }
    tree
}

/// f(x) = f(x posted thrice): 100 open calls are enough for 256 posts.
fn posting_thrice() -> Vec<u8> {
    let argument = post(post(post(variable(0))));
    let body = sign(0, call(variable(1), argument));
    let rest = call(variable(0), number(0));
    let root = sign(0, letrec(FIRST_FUNCTION, body, rest));
    with_functions(&[0], &[TypeRecord::function(NUMBER, NUMBER, 0)], root)
}
