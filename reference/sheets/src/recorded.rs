//! The cases of request W12: sheets, and what their runs decide.

use crate::cases::{endless, posting, with_functions, with_guards, FIRST_FUNCTION};
use crate::records::{TypeRecord, CHANNELS, NUMBER, UNGUARDED};
use crate::request::Request;
use crate::tree::*;

/// The privilege that the start stack grants.
const GRANTED: u8 = 3;
/// Another one.
const OTHER: u8 = 31;

/// A channel that [`GRANTED`] guards, and one that [`OTHER`] does.
const PAGE: u8 = 4;
const OTHER_PAGE: u8 = 15;

/// Who may use both privileges, and who may use neither.
const ABLE: u8 = 0;
const UNABLE: u8 = 1;
const PRINCIPALS: [u32; 2] = [1 << GRANTED | 1 << OTHER, 0];

/// A term, a privilege, and whether it was granted.
pub type Decision = (u16, u8, bool);

#[derive(Clone, Debug)]
pub struct Recorded {
    pub name: &'static str,
    pub sheet: Vec<u8>,
    pub request: Request,
    pub enforced: Vec<Decision>,
    pub skipped: Vec<Decision>,
}

/// A sheet of version 2 on a stack that grants [`GRANTED`] and no other. Terms
/// are numbered from the leaves up, from left to right.
fn case(name: &'static str, tree: Tree, enforced: &[Decision], skipped: &[Decision]) -> Recorded {
    let mut guards = [UNGUARDED; CHANNELS];
    guards[usize::from(PAGE)] = GRANTED;
    guards[usize::from(OTHER_PAGE)] = OTHER;
    let functions = [TypeRecord::function(NUMBER, NUMBER, 0)];
    Recorded {
        name,
        sheet: with_guards(&guards, &PRINCIPALS, &functions, sign(ABLE, tree)),
        request: Request::largest().with_start(&[ABLE.into(), 1 << GRANTED]),
        enforced: enforced.to_vec(),
        skipped: skipped.to_vec(),
    }
}

pub fn all() -> Vec<Recorded> {
    let mut all = one_by_one();
    all.extend(in_order());
    all.extend(with_stops());
    all.push(Recorded {
        name: "the contract's sheet",
        sheet: posting(1 << 1),
        request: Request::largest(),
        enforced: vec![(2, 1, true)],
        skipped: vec![],
    });
    all
}

fn one_by_one() -> Vec<Recorded> {
    let seven = || number(7);
    vec![
        case("a check", check(GRANTED, seven()), &[(1, 3, true)], &[]),
        case(
            "a refused check",
            check(OTHER, seven()),
            &[(1, 31, false)],
            &[],
        ),
        case(
            "a test, yes",
            test(GRANTED, seven(), seven()),
            &[(2, 3, true)],
            &[(2, 3, true)],
        ),
        case(
            "a test, no",
            test(OTHER, seven(), seven()),
            &[(2, 31, false)],
            &[(2, 31, false)],
        ),
        case("a guard", post_to(PAGE, seven()), &[(1, 3, true)], &[]),
        case(
            "a refused guard",
            post_to(OTHER_PAGE, seven()),
            &[(1, 31, false)],
            &[],
        ),
        case("a post without a guard", post(seven()), &[], &[]),
        case(
            "an enable decides nothing",
            enable(OTHER, seven()),
            &[],
            &[],
        ),
        case(
            "an if decides nothing",
            when(boolean(true), seven(), seven()),
            &[],
            &[],
        ),
        case(
            "an enabled privilege",
            enable(OTHER, check(OTHER, seven())),
            &[(1, 31, true)],
            &[],
        ),
        case(
            "an enable by the unable",
            sign(UNABLE, enable(GRANTED, test(GRANTED, seven(), seven()))),
            &[(2, 3, false)],
            &[(2, 3, false)],
        ),
    ]
}

fn in_order() -> Vec<Recorded> {
    let asks = |privilege| test(privilege, number(1), number(0));
    // f(n) = if n less 1 then 0 else f(n - 1) + check GRANTED n
    let again = || call(variable(1), difference(variable(0), number(1)));
    let when_more = |more| when(less(variable(0), number(1)), number(0), more);
    let loops = letrec(
        FIRST_FUNCTION,
        sign(ABLE, when_more(sum(again(), check(GRANTED, variable(0))))),
        call(variable(0), number(3)),
    );
    // f(n) = if n less 1 then 0 else check GRANTED (f(n - 1) + f(n - 1))
    let doubles = letrec(
        FIRST_FUNCTION,
        sign(ABLE, when_more(check(GRANTED, sum(again(), again())))),
        call(variable(0), number(9)),
    );
    // f(n) = test OTHER, called twice
    let twice = letrec(
        FIRST_FUNCTION,
        sign(ABLE, asks(OTHER)),
        sum(
            call(variable(0), number(0)),
            enable(OTHER, call(variable(0), number(0))),
        ),
    );
    vec![
        case(
            "from left to right",
            sum(asks(OTHER), check(GRANTED, asks(GRANTED))),
            &[(2, 31, false), (6, 3, true), (5, 3, true)],
            &[(2, 31, false), (5, 3, true)],
        ),
        case(
            "a check before its inner term",
            check(GRANTED, check(GRANTED, number(7))),
            &[(2, 3, true), (1, 3, true)],
            &[],
        ),
        case(
            "a guard behind the number",
            post_to(PAGE, check(GRANTED, number(7))),
            &[(1, 3, true), (2, 3, true)],
            &[],
        ),
        case(
            "the branch that is not chosen decides nothing",
            test(GRANTED, asks(OTHER), check(OTHER, number(7))),
            &[(5, 3, true), (2, 31, false)],
            &[(5, 3, true), (2, 31, false)],
        ),
        case(
            "a term that decides otherwise the second time",
            twice,
            &[(2, 31, false), (2, 31, true)],
            &[(2, 31, false), (2, 31, true)],
        ),
        case("511 entries", doubles, &[(15, 3, true); 511], &[]),
        case(
            "a term as often as it is met",
            loops,
            &[(10, 3, true); 3],
            &[],
        ),
    ]
}

fn with_stops() -> Vec<Recorded> {
    let unbound = || variable(77);
    let no_posts = |case: Recorded| {
        let request = Request {
            posts: 0,
            ..case.request.clone()
        };
        Recorded { request, ..case }
    };
    let endless_checked = {
        let body = sign(ABLE, call(variable(1), check(GRANTED, variable(0))));
        let rest = call(variable(0), number(0));
        let functions = [TypeRecord::function(NUMBER, NUMBER, 0)];
        with_functions(
            &PRINCIPALS,
            &functions,
            sign(ABLE, letrec(FIRST_FUNCTION, body, rest)),
        )
    };
    vec![
        case(
            "nothing behind a refused check",
            sum(check(OTHER, number(7)), check(GRANTED, number(7))),
            &[(1, 31, false)],
            &[],
        ),
        case(
            "a check whose inner term is stuck",
            check(GRANTED, unbound()),
            &[(1, 3, true)],
            &[],
        ),
        case(
            "a guard is not asked of what is no number",
            post_to(OTHER_PAGE, boolean(true)),
            &[],
            &[],
        ),
        no_posts(case(
            "a guard before a list that is full",
            post_to(PAGE, number(7)),
            &[(1, 3, true)],
            &[],
        )),
        Recorded {
            name: "a check in each of 100 open calls",
            sheet: endless_checked,
            request: Request::largest().with_start(&[ABLE.into(), 1 << GRANTED]),
            enforced: vec![(2, 3, true); 100],
            skipped: vec![],
        },
        Recorded {
            name: "a run that decides nothing",
            sheet: endless(),
            request: Request::largest(),
            enforced: vec![],
            skipped: vec![],
        },
    ]
}
