//! The cases of request W14: sheets, ranges for their numbers, and requests.

use crate::cases::{computing, plain, with_functions, with_guards, FIRST_FUNCTION};
use crate::records::{Format, Records, TermRecord, TypeRecord, BOOL, CHANNELS, NUMBER, UNGUARDED};
use crate::request::{Request, MAX_CALLS, MAX_POSTS};
use crate::tree::*;

#[derive(Clone, Debug)]
pub struct Ranged {
    pub name: &'static str,
    pub sheet: Vec<u8>,
    /// For each number term, in term order, lowest and highest.
    pub pairs: Vec<u16>,
    pub request: Request,
}

/// From booleans to booleans, and to numbers; the first takes and gives numbers.
const BOOL_TO_BOOL: u16 = FIRST_FUNCTION + 1;
const BOOL_TO_NUMBER: u16 = FIRST_FUNCTION + 2;

/// What principal 0 may use. Nothing grants it.
const PRIVILEGE: u8 = 1;

/// All numbers.
const ALL: [u16; 2] = [0, 65_535];

pub fn all() -> Vec<Ranged> {
    let mut all = arithmetic();
    all.extend(comparisons());
    all.extend(undecided());
    all.extend(posts());
    all.extend(calls());
    all.extend(stops());
    all.extend(in_term_order());
    all.extend(refused());
    all
}

fn case(name: &'static str, tree: Tree, pairs: &[[u16; 2]]) -> Ranged {
    let functions = [
        TypeRecord::function(NUMBER, NUMBER, 0),
        TypeRecord::function(BOOL, BOOL, 0),
        TypeRecord::function(BOOL, NUMBER, 0),
    ];
    Ranged {
        name,
        sheet: with_functions(&[1 << PRIVILEGE], &functions, sign(0, tree)),
        pairs: pairs.concat(),
        request: Request::largest(),
    }
}

/// Any number: what is written is of no account.
fn member() -> Tree {
    number(7)
}

fn arithmetic() -> Vec<Ranged> {
    let added = |name, pairs: [[u16; 2]; 2]| case(name, sum(member(), member()), &pairs);
    let taken = |name, pairs: [[u16; 2]; 2]| case(name, difference(member(), member()), &pairs);
    vec![
        case("a number", member(), &[[3, 9]]),
        case("a number as it is written", member(), &[[7, 7]]),
        case("any number", member(), &[ALL]),
        case("a boolean", boolean(true), &[]),
        added("a sum", [[3, 9], [10, 20]]),
        added("a sum up to the limit", [[1, 65_534], [0, 1]]),
        added("a sum past the limit by one", [[1, 65_534], [0, 2]]),
        added(
            "a sum that is held throughout",
            [[40_000, 50_000], [30_000, 30_001]],
        ),
        added("the widest sum", [ALL, ALL]),
        taken("a difference", [[10, 20], [3, 5]]),
        taken("a difference down to the limit", [[10, 20], [3, 10]]),
        taken("a difference past the limit by one", [[10, 20], [3, 11]]),
        taken("a difference that is held throughout", [[1, 2], [3, 4]]),
        taken("the widest difference", [ALL, ALL]),
        case(
            "a held sum is the operand",
            difference(sum(member(), member()), member()),
            &[[65_000, 65_535], [100, 1_000], [1, 2]],
        ),
    ]
}

fn comparisons() -> Vec<Ranged> {
    let compared = |name, pairs: [[u16; 2]; 2]| case(name, less(member(), member()), &pairs);
    vec![
        compared("less, all below", [[1, 2], [3, 4]]),
        compared("less, touching from below", [[1, 3], [3, 4]]),
        compared("less, overlapping", [[1, 4], [3, 9]]),
        compared("less, one inside the other", [[1, 9], [4, 5]]),
        compared("less, the other way round", [[4, 5], [1, 9]]),
        compared("less, touching from above", [[3, 4], [1, 3]]),
        compared("less, above by one", [[4, 5], [1, 3]]),
        compared("less, the same number", [[5, 5], [5, 5]]),
        compared("less, the same range", [[5, 6], [5, 6]]),
        compared("less, numbers next to each other", [[5, 5], [6, 6]]),
        compared("less, at the limits", [[0, 0], [65_535, 65_535]]),
        compared("less, anything", [ALL, ALL]),
        compared("less, anything than 0", [ALL, [0, 0]]),
    ]
}

/// Undecided is a value like another; only an if has to know.
fn undecided() -> Vec<Ranged> {
    let unclear = || less(member(), member());
    let pairs = [[1, 4], [3, 9]];
    let with = |more: &[[u16; 2]]| [&pairs, more].concat();
    let identity = || function(BOOL_TO_BOOL, sign(0, variable(0)));
    let choosing = || {
        let chosen = when(variable(0), number(1), number(2));
        function(BOOL_TO_NUMBER, sign(0, chosen))
    };
    let ignoring = function(BOOL_TO_NUMBER, sign(0, number(8)));
    vec![
        case(
            "undecided, passed and returned",
            call(identity(), unclear()),
            &pairs,
        ),
        case(
            "undecided, and never asked",
            call(ignoring, unclear()),
            &[[8, 9], [1, 4], [3, 9]],
        ),
        case(
            "an if that is undecided",
            when(unclear(), member(), member()),
            &with(&[[5, 5], [6, 6]]),
        ),
        case(
            "an if that is undecided between equal branches",
            when(unclear(), member(), member()),
            &with(&[[5, 5], [5, 5]]),
        ),
        case(
            "an if that is undecided in a body",
            call(choosing(), unclear()),
            &[[1, 1], [2, 2], [1, 4], [3, 9]],
        ),
        case(
            "an if that is undecided in a condition",
            when(
                when(unclear(), boolean(true), boolean(true)),
                member(),
                member(),
            ),
            &with(&[ALL, ALL]),
        ),
        case(
            "an if that is decided",
            when(unclear(), member(), member()),
            &[[1, 2], [3, 9], [5, 6], ALL],
        ),
        case(
            "an if that is decided the other way",
            when(unclear(), member(), member()),
            &[[3, 9], [1, 3], ALL, [5, 6]],
        ),
        case(
            "a branch that is undecided",
            when(boolean(false), boolean(true), unclear()),
            &pairs,
        ),
        case(
            "an if of a number",
            when(member(), member(), member()),
            &[ALL; 3],
        ),
        case(
            "an if of a function",
            when(identity(), member(), member()),
            &[ALL; 2],
        ),
        case(
            "a sum of what is undecided",
            sum(unclear(), member()),
            &[ALL; 3],
        ),
        case("a post of what is undecided", post(unclear()), &[ALL; 2]),
        case(
            "a call of what is undecided",
            call(unclear(), member()),
            &[ALL; 3],
        ),
        case(
            "less of what is undecided",
            less(member(), unclear()),
            &[ALL; 3],
        ),
    ]
}

fn posts() -> Vec<Ranged> {
    let stopped = sum(
        post(member()),
        when(less(member(), member()), member(), member()),
    );
    vec![
        case("a post", post(member()), &[[3, 9]]),
        case("a post of one number", post(member()), &[[65_535, 65_535]]),
        case(
            "two posts",
            difference(post(member()), post(sum(member(), member()))),
            &[[100, 200], [1, 2], [10, 65_535]],
        ),
        case(
            "a post before 36",
            stopped,
            &[[3, 9], ALL, ALL, [1, 1], [1, 1]],
        ),
    ]
}

fn calls() -> Vec<Ranged> {
    let of_itself = |body| function(FIRST_FUNCTION, sign(0, body));
    let twice = || of_itself(sum(variable(0), variable(0)));
    // f(n) = if n less 1 then 0 else 2 + f(n - 1)
    let again = call(variable(1), difference(variable(0), number(1)));
    let more = sum(number(2), again);
    let body = when(less(variable(0), number(1)), number(0), more);
    let counted = |name, count: [u16; 2]| {
        let tree = letrec(
            FIRST_FUNCTION,
            sign(0, body.clone()),
            call(variable(0), member()),
        );
        case(name, tree, &[[1, 1], [0, 0], [2, 3], [1, 1], count])
    };
    vec![
        case("a member twice", call(twice(), member()), &[[3, 9]]),
        case(
            "a member minus itself",
            call(of_itself(difference(variable(0), variable(0))), member()),
            &[[3, 9]],
        ),
        case(
            "a member against itself",
            call(
                function(FIRST_FUNCTION, sign(0, less(variable(0), variable(0)))),
                member(),
            ),
            &[[3, 9]],
        ),
        counted("a count that is known", [3, 3]),
        counted("a count that is not", [2, 3]),
        counted("a count too high", [101, 101]),
    ]
}

fn stops() -> Vec<Ranged> {
    let identity = || function(FIRST_FUNCTION, sign(0, variable(0)));
    let within = |case: Ranged, request: Request| Ranged { request, ..case };
    let largest = Request::largest;
    let called = |name| case(name, call(identity(), member()), &[[3, 9]]);
    vec![
        case(
            "a refused check",
            check(PRIVILEGE, post(member())),
            &[[3, 9]],
        ),
        within(
            case(
                "a check that passes",
                check(PRIVILEGE, post(member())),
                &[[3, 9]],
            ),
            largest().with_start(&[0, 1 << PRIVILEGE]),
        ),
        case(
            "an enabled check",
            enable(PRIVILEGE, check(PRIVILEGE, member())),
            &[[3, 9]],
        ),
        case(
            "a test",
            test(PRIVILEGE, member(), member()),
            &[[1, 2], [3, 9]],
        ),
        case("stuck at a variable", sum(member(), variable(3)), &[[3, 9]]),
        case("a function at the root", identity(), &[]),
        case(
            "a call of a number",
            call(member(), member()),
            &[[3, 9], [3, 9]],
        ),
        within(
            called("no open call"),
            Request {
                open_calls: 0,
                ..largest()
            },
        ),
        within(
            called("calls spent"),
            Request {
                calls: 0,
                ..largest()
            },
        ),
        within(
            called("no cell"),
            Request {
                cell_bytes: 7,
                ..largest()
            },
        ),
        within(
            called("one cell"),
            Request {
                cell_bytes: 8,
                ..largest()
            },
        ),
        within(
            case("no place for a post", post(member()), &[[3, 9]]),
            Request {
                posts: 0,
                ..largest()
            },
        ),
    ]
}

/// Terms may be numbered otherwise than they are evaluated.
fn in_term_order() -> Vec<Ranged> {
    let term = |kind, parts| TermRecord {
        kind: kind as u8,
        small: 0,
        parts,
    };
    let records = Records {
        format: Format::version_1(),
        principals: vec![0],
        types: vec![TypeRecord::bool(), TypeRecord::number()],
        terms: vec![
            term(Kind::Number, [7, 0, 0]),
            term(Kind::Number, [7, 0, 0]),
            term(Kind::Difference, [1, 0, 0]),
            term(Kind::Sign, [2, 0, 0]),
        ],
    };
    vec![
        Ranged {
            name: "the right operand has the lower number",
            sheet: records.to_bytes(),
            pairs: vec![1, 2, 10, 20],
            request: Request::largest(),
        },
        case(
            "three members by their places",
            difference(difference(member(), member()), member()),
            &[[100, 110], [1, 2], [10, 30]],
        ),
    ]
}

fn refused() -> Vec<Ranged> {
    let query = |name, pairs: &[u16]| Ranged {
        name,
        sheet: computing(sum(member(), member())),
        pairs: pairs.to_vec(),
        request: Request::largest(),
    };
    let with = |case: Ranged, request| Ranged { request, ..case };
    let largest = Request::largest;
    let version_2 = |name, guard, pairs: &[u16]| {
        let guards = [guard; CHANNELS];
        Ranged {
            sheet: with_guards(&guards, &[0], &[], sign(0, member())),
            ..query(name, pairs)
        }
    };
    vec![
        query("no pairs", &[]),
        query("a pair too few", &[1, 2]),
        query("half a pair too few", &[1, 2, 3]),
        query("half a pair too many", &[1, 2, 3, 4, 5]),
        query("a pair too many", &[1, 2, 3, 4, 5, 6]),
        query("the first lowest above its highest", &[2, 1, 3, 4]),
        query("the last lowest above its highest", &[1, 2, 65_535, 0]),
        Ranged {
            sheet: computing(when(boolean(true), member(), member())),
            ..query(
                "a lowest above its highest where no run comes",
                &[1, 2, 4, 3],
            )
        },
        Ranged {
            sheet: computing(boolean(true)),
            ..query("pairs for no numbers", &[1, 2])
        },
        version_2("version 2", UNGUARDED, &[1, 2]),
        version_2("version 2, without pairs", UNGUARDED, &[]),
        version_2("31 before 35", 32, &[1, 2]),
        Ranged {
            sheet: plain(&[0], member()),
            ..query("7 before 35", &[])
        },
        with(query("14 before 35", &[]), largest().with_start(&[0])),
        with(
            query("15 before 35", &[]),
            Request {
                posts: MAX_POSTS + 1,
                ..largest()
            },
        ),
        with(
            query("16 before 35", &[]),
            Request {
                calls: MAX_CALLS + 1,
                ..largest()
            },
        ),
    ]
}
