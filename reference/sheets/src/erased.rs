//! The cases of request W9: sheets with their lean form, and sheets that have
//! none.

use crate::cases::{computing, plain, posting, posting_without_enable};
use crate::cases::{with_functions, with_guards};
use crate::records::{Format, Records, TermRecord, TypeRecord, BOOL, CHANNELS, NUMBER, UNGUARDED};
use crate::tree::*;

/// Two privileges and their sets.
const P: u8 = 1;
const Q: u8 = 2;
const ONLY_P: u32 = 1 << P;
const ONLY_Q: u32 = 1 << Q;

/// The principals of most cases: one who may use both, and one who may use
/// neither.
const PRINCIPALS: [u32; 2] = [ONLY_P | ONLY_Q, 0];
const ABLE: u8 = 0;
const UNABLE: u8 = 1;

/// The function types of most cases: numbers to numbers with an empty latent
/// set, and with one of the privileges in it. They become one.
const QUIET: u16 = 2;
const NEEDY: u16 = 3;
const THREE: [(u16, u16, u32); 3] = [
    (NUMBER, NUMBER, 0),
    (NUMBER, NUMBER, ONLY_P),
    (NUMBER, NUMBER, ONLY_Q),
];
const ONE: [(u16, u16, u32); 1] = [(NUMBER, NUMBER, 0)];

/// A sheet and what is written of it.
#[derive(Clone, Debug)]
pub struct Erased {
    pub name: &'static str,
    pub sheet: Vec<u8>,
    pub lean: Vec<u8>,
}

pub fn all() -> Vec<Erased> {
    let mut all = contracts_sheets();
    all.extend(children());
    all.extend(types());
    all.push(another_order());
    all
}

/// Sheets that the rules accept and that have no lean form, with what is told
/// of them: 32.
pub fn without_lean_form() -> Vec<(&'static str, Vec<u8>)> {
    let test = || test(P, check(P, number(7)), number(8));
    let of_test = |tree| with_functions(&PRINCIPALS, &functions(&THREE), sign(ABLE, tree));
    let guarded = |guard, tree| {
        let mut guards = [UNGUARDED; CHANNELS];
        guards[3] = guard;
        with_guards(&guards, &PRINCIPALS, &functions(&THREE), sign(ABLE, tree))
    };
    vec![
        ("a test", of_test(test())),
        (
            "a test in a branch that is not chosen",
            of_test(when(boolean(true), number(7), test())),
        ),
        (
            "a test in a body that nothing calls",
            of_test(letrec(QUIET, sign(ABLE, test()), number(7))),
        ),
        (
            "a test below a check and an enable",
            of_test(enable(Q, check(Q, test()))),
        ),
        ("version 2", guarded(UNGUARDED, number(7))),
        (
            "version 2, a guard that nothing meets",
            guarded(P, number(7)),
        ),
        (
            "version 2, a guarded post",
            guarded(P, post_to(3, number(7))),
        ),
        ("version 2, a test", guarded(UNGUARDED, test())),
    ]
}

fn contracts_sheets() -> Vec<Erased> {
    let lean = || plain(&[ONLY_P], sign(0, post(number(7))));
    let three = || sum(number(1), number(2));
    vec![
        Erased {
            name: "the contract's sheet",
            sheet: posting(ONLY_P),
            lean: lean(),
        },
        Erased {
            name: "the same without its enable, which has needs",
            sheet: posting_without_enable(),
            lean: lean(),
        },
        Erased {
            name: "nothing to leave out",
            sheet: computing(three()),
            lean: computing(three()),
        },
        Erased {
            name: "principals that nothing names",
            sheet: plain(&[ONLY_P, ONLY_Q, 0], sign(0, check(P, three()))),
            lean: plain(&[ONLY_P, ONLY_Q, 0], sign(0, three())),
        },
    ]
}

/// Checks and enables in all places that a term has for a child.
fn children() -> Vec<Erased> {
    let named = |name, old, new| Erased {
        name,
        sheet: with_functions(&PRINCIPALS, &functions(&THREE), sign(ABLE, old)),
        lean: with_functions(&PRINCIPALS, &functions(&ONE), sign(ABLE, new)),
    };
    let body = || sign(ABLE, variable(0));
    vec![
        named(
            "several in a row",
            check(P, enable(Q, enable(P, check(Q, number(7))))),
            number(7),
        ),
        named(
            "an enable in vain",
            sign(UNABLE, enable(P, number(7))),
            sign(UNABLE, number(7)),
        ),
        named(
            "sum",
            sum(check(P, number(1)), enable(P, number(2))),
            sum(number(1), number(2)),
        ),
        named(
            "difference",
            difference(enable(P, number(1)), check(P, number(2))),
            difference(number(1), number(2)),
        ),
        named(
            "less",
            less(check(P, check(Q, number(1))), number(2)),
            less(number(1), number(2)),
        ),
        named("post", post(check(P, number(1))), post(number(1))),
        named(
            "if",
            when(
                check(P, boolean(true)),
                enable(P, number(1)),
                enable(Q, check(Q, number(2))),
            ),
            when(boolean(true), number(1), number(2)),
        ),
        named(
            "call",
            call(
                check(P, function(QUIET, body())),
                enable(P, check(P, number(1))),
            ),
            call(function(QUIET, body()), number(1)),
        ),
        named(
            "binder",
            letrec(
                QUIET,
                sign(ABLE, enable(P, check(P, variable(0)))),
                check(Q, call(variable(0), number(1))),
            ),
            letrec(QUIET, body(), call(variable(0), number(1))),
        ),
    ]
}

/// What becomes of type tables.
fn types() -> Vec<Erased> {
    let named = |name, old: (&[Parts], Tree), new: (&[Parts], Tree)| Erased {
        name,
        sheet: with_functions(&PRINCIPALS, &functions(old.0), sign(ABLE, old.1)),
        lean: with_functions(&PRINCIPALS, &functions(new.0), sign(ABLE, new.1)),
    };
    let quiet = |ty| function(ty, sign(ABLE, variable(0)));
    let needy = |ty| function(ty, sign(ABLE, check(P, variable(0))));
    let constant = |ty| function(ty, sign(ABLE, number(3)));
    vec![
        named(
            "types that differ in their latent sets alone",
            (
                &THREE,
                enable(
                    P,
                    sum(call(needy(NEEDY), number(7)), call(quiet(QUIET), number(8))),
                ),
            ),
            (
                &ONE,
                sum(call(quiet(QUIET), number(7)), call(quiet(QUIET), number(8))),
            ),
        ),
        named(
            "the first of them has the larger set",
            (
                &[(NUMBER, NUMBER, ONLY_P), (NUMBER, NUMBER, 0)],
                enable(P, sum(call(needy(2), number(7)), call(quiet(3), number(8)))),
            ),
            (
                &ONE,
                sum(call(quiet(2), number(7)), call(quiet(2), number(8))),
            ),
        ),
        named(
            "types that differ in an argument or a result that is merged",
            (
                &[
                    (NUMBER, NUMBER, 0),
                    (NUMBER, NUMBER, ONLY_P),
                    (2, NUMBER, 0),
                    (3, NUMBER, ONLY_Q),
                    (NUMBER, 3, ONLY_Q),
                    (NUMBER, 2, 0),
                    (5, 6, ONLY_P),
                    (4, 7, ONLY_Q),
                    (4, 6, 0),
                ],
                call(constant(4), quiet(2)),
            ),
            (
                &[
                    (NUMBER, NUMBER, 0),
                    (2, NUMBER, 0),
                    (NUMBER, 2, 0),
                    (3, 4, 0),
                ],
                call(constant(3), quiet(2)),
            ),
        ),
        named(
            "those after a merged one move up",
            (
                &[
                    (NUMBER, NUMBER, 0),
                    (NUMBER, NUMBER, ONLY_P),
                    (BOOL, NUMBER, ONLY_P),
                    (4, NUMBER, 0),
                ],
                letrec(5, sign(ABLE, number(1)), call(variable(0), constant(4))),
            ),
            (
                &[(NUMBER, NUMBER, 0), (BOOL, NUMBER, 0), (3, NUMBER, 0)],
                letrec(4, sign(ABLE, number(1)), call(variable(0), constant(3))),
            ),
        ),
        named(
            "those that nothing names stay",
            (
                &[
                    (BOOL, BOOL, ONLY_Q),
                    (NUMBER, NUMBER, ONLY_P),
                    (BOOL, BOOL, 0),
                    (2, 4, 0),
                ],
                number(7),
            ),
            (
                &[(BOOL, BOOL, 0), (NUMBER, NUMBER, 0), (2, 2, 0)],
                number(7),
            ),
        ),
        named(
            "arguments that only fitted",
            (
                &[
                    (NUMBER, NUMBER, 0),
                    (NUMBER, NUMBER, ONLY_P),
                    (3, NUMBER, 0),
                ],
                call(constant(4), quiet(2)),
            ),
            (
                &[(NUMBER, NUMBER, 0), (2, NUMBER, 0)],
                call(constant(3), quiet(2)),
            ),
        ),
        named(
            "branches of which one type was wider",
            (
                &THREE,
                enable(
                    P,
                    call(when(boolean(true), quiet(QUIET), needy(NEEDY)), number(7)),
                ),
            ),
            (
                &ONE,
                call(when(boolean(true), quiet(QUIET), quiet(QUIET)), number(7)),
            ),
        ),
    ]
}

/// A sum whose first part has the higher number, and is a check.
fn another_order() -> Erased {
    let record = |kind: Kind, small, parts| TermRecord {
        kind: kind as u8,
        small,
        parts,
    };
    let records = |terms: &[TermRecord]| Records {
        format: Format::version_1(),
        principals: vec![ONLY_P],
        types: vec![TypeRecord::bool(), TypeRecord::number()],
        terms: terms.to_vec(),
    };
    Erased {
        name: "terms in another order",
        sheet: records(&[
            record(Kind::Number, 0, [8, 0, 0]),
            record(Kind::Enable, P, [0, 0, 0]),
            record(Kind::Number, 0, [7, 0, 0]),
            record(Kind::Check, P, [2, 0, 0]),
            record(Kind::Sum, 0, [3, 1, 0]),
            record(Kind::Sign, 0, [4, 0, 0]),
        ])
        .to_bytes(),
        lean: records(&[
            record(Kind::Number, 0, [8, 0, 0]),
            record(Kind::Number, 0, [7, 0, 0]),
            record(Kind::Sum, 0, [1, 0, 0]),
            record(Kind::Sign, 0, [2, 0, 0]),
        ])
        .to_bytes(),
    }
}

/// Argument, result and latent set.
type Parts = (u16, u16, u32);

fn functions(parts: &[Parts]) -> Vec<TypeRecord> {
    let record =
        |&(argument, result, latent): &Parts| TypeRecord::function(argument, result, latent);
    parts.iter().map(record).collect()
}
