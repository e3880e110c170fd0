//! The cases of request W8: guarded channels, and how a sheet of version 2 is
//! read.

use crate::cases::{with_guards, Case};
use crate::records::{Format, Guards, Records, TypeRecord, CHANNELS, NUMBER, UNGUARDED};
use crate::request::Request;
use crate::tree::*;

/// The privilege that the start stack grants.
pub const GRANTED: u8 = 1;
/// Another one.
pub const OTHER: u8 = 2;

/// A channel that nothing guards, two that [`GRANTED`] guards, one that
/// [`OTHER`] does, and the highest, which nothing guards.
pub const OPEN: u8 = 0;
pub const PAGE: u8 = 1;
pub const SECOND_PAGE: u8 = 2;
pub const OTHER_PAGE: u8 = 7;
pub const HIGHEST: u8 = 15;

/// A principal that may use both privileges, and one that may use neither.
const ABLE: u8 = 0;
const UNABLE: u8 = 1;

/// Numbers to numbers, with an empty latent set and with [`GRANTED`] in it.
const QUIET: u16 = 2;
const NEEDY: u16 = 3;

const UNBOUND: u16 = 77;

/// A stack that grants [`GRANTED`] and no other.
fn granting() -> Request {
    Request::largest().with_start(&[ABLE.into(), 1 << GRANTED])
}

fn guards() -> Guards {
    let mut guards = [UNGUARDED; CHANNELS];
    guards[usize::from(PAGE)] = GRANTED;
    guards[usize::from(SECOND_PAGE)] = GRANTED;
    guards[usize::from(OTHER_PAGE)] = OTHER;
    guards
}

fn functions() -> [TypeRecord; 2] {
    [0, 1 << GRANTED].map(|latent| TypeRecord::function(NUMBER, NUMBER, latent))
}

/// A sheet of version 2 with these guards.
fn sheet(tree: Tree) -> Vec<u8> {
    let principals = [1 << GRANTED | 1 << OTHER, 0];
    with_guards(&guards(), &principals, &functions(), sign(ABLE, tree))
}

/// What is posted, judged and run, and then what is read.
pub fn all() -> Vec<Case> {
    let mut cases = posting();
    cases.extend(without_a_place());
    cases.extend(reading());
    cases
}

/// Each is asked for on a stack that grants [`GRANTED`] and no other.
pub fn posting() -> Vec<Case> {
    let case = |(name, tree)| Case {
        name,
        sheet: sheet(tree),
        request: granting(),
    };
    trees().into_iter().map(case).collect()
}

fn trees() -> Vec<(&'static str, Tree)> {
    let mut trees = channels();
    trees.extend(turns());
    trees.extend(around());
    trees
}

fn channels() -> Vec<(&'static str, Tree)> {
    vec![
        ("an open channel", post_to(OPEN, number(7))),
        ("the highest channel", post_to(HIGHEST, number(65_535))),
        ("a guarded channel", post_to(PAGE, number(7))),
        ("a guard that refuses", post_to(OTHER_PAGE, number(7))),
        (
            "channels by turns",
            sum(
                post_to(PAGE, number(1)),
                sum(post_to(OPEN, number(2)), post_to(HIGHEST, number(3))),
            ),
        ),
        (
            "one guard of two channels",
            sum(post_to(PAGE, number(1)), post_to(SECOND_PAGE, number(2))),
        ),
        (
            "a post of what a post yields",
            post_to(HIGHEST, post_to(PAGE, number(7))),
        ),
    ]
}

fn turns() -> Vec<(&'static str, Tree)> {
    vec![
        (
            "the number before the guard",
            post_to(OTHER_PAGE, post_to(OPEN, number(7))),
        ),
        ("stuck before the guard", post_to(OTHER_PAGE, boolean(true))),
        ("stuck where the guard passes", post_to(PAGE, boolean(true))),
        (
            "the number's own fault",
            post_to(OTHER_PAGE, sum(number(1), variable(UNBOUND))),
        ),
        (
            "a check in the number before the guard",
            post_to(PAGE, check(OTHER, number(7))),
        ),
        (
            "a check around a guarded post",
            check(GRANTED, post_to(OTHER_PAGE, number(7))),
        ),
    ]
}

fn around() -> Vec<(&'static str, Tree)> {
    let posting = || post_to(OTHER_PAGE, number(7));
    vec![
        ("an enable", enable(OTHER, posting())),
        ("an enable of another", enable(GRANTED, posting())),
        // The guard is asked when the number's enable is over.
        (
            "an enable in the number",
            post_to(OTHER_PAGE, enable(OTHER, number(7))),
        ),
        (
            "an enable by the unable",
            sign(UNABLE, enable(GRANTED, post_to(PAGE, number(7)))),
        ),
        (
            "signed by the unable",
            sign(UNABLE, post_to(PAGE, number(7))),
        ),
        (
            "signed by the unable, an open channel",
            sign(UNABLE, post_to(OPEN, number(7))),
        ),
        ("a yes-branch", test(OTHER, posting(), number(0))),
        (
            "a yes-branch that is taken",
            test(GRANTED, post_to(PAGE, number(7)), number(0)),
        ),
        (
            "a yes-branch of another",
            test(GRANTED, posting(), number(0)),
        ),
        (
            "a no-branch",
            test(OTHER, number(0), post_to(OTHER_PAGE, number(7))),
        ),
        (
            "a function that names the guard",
            call(
                function(NEEDY, sign(ABLE, post_to(PAGE, variable(0)))),
                number(7),
            ),
        ),
        (
            "a function that doesn't",
            call(
                function(QUIET, sign(ABLE, post_to(PAGE, variable(0)))),
                number(7),
            ),
        ),
        (
            "a function with an enable of its own",
            sign(
                UNABLE,
                call(
                    function(
                        QUIET,
                        sign(ABLE, enable(GRANTED, post_to(PAGE, variable(0)))),
                    ),
                    number(7),
                ),
            ),
        ),
    ]
}

/// With a list that the posts fill.
pub fn without_a_place() -> Vec<Case> {
    let case = |name, tree, posts| Case {
        name,
        sheet: sheet(tree),
        request: Request {
            posts,
            ..granting()
        },
    };
    vec![
        case(
            "the guard before a place",
            post_to(OTHER_PAGE, number(7)),
            0,
        ),
        case("no place for a guarded post", post_to(PAGE, number(7)), 0),
        case("stuck before a place", post_to(PAGE, boolean(true)), 0),
        case(
            "the guard before a second place",
            sum(post_to(PAGE, number(1)), post_to(OTHER_PAGE, number(2))),
            1,
        ),
    ]
}

/// What the reader says of the version, of tag 5, of channels and of guards.
pub fn reading() -> Vec<Case> {
    let mut cases = fields();
    cases.extend(records());
    cases
}

/// A small sheet of any format.
fn small(format: Format, root: Tree) -> Vec<u8> {
    Records {
        format,
        principals: vec![0],
        types: vec![TypeRecord::bool(), TypeRecord::number()],
        terms: root.assemble(),
    }
    .to_bytes()
}

fn innocent() -> Tree {
    sign(0, number(7))
}

fn fields() -> Vec<Case> {
    let of = |version, guards: Option<usize>| {
        let guards = guards.map(|length| vec![UNGUARDED; length]);
        small(Format { version, guards }, innocent())
    };
    let whole = || of(2, Some(CHANNELS));
    let without = |bytes: usize| {
        let mut sheet = whole();
        sheet.truncate(sheet.len() - bytes);
        sheet
    };
    let with_tag = |tag| {
        let mut sheet = whole();
        let place = sheet.len() - CHANNELS - 3;
        sheet[place] = tag;
        sheet
    };
    let sheets = vec![
        ("version 1", of(1, None)),
        ("version 2", whole()),
        ("version 1 with a tag 5", of(1, Some(CHANNELS))),
        ("version 2 without a tag 5", of(2, None)),
        ("version 0", of(0, None)),
        ("version 3 without a tag 5", of(3, None)),
        ("version 3 with a tag 5", of(3, Some(CHANNELS))),
        ("version 258", of(258, Some(CHANNELS))),
        ("tag 5 without its length", without(CHANNELS + 2)),
        ("another tag than 5", with_tag(4)),
        ("length 0", of(2, Some(0))),
        ("length 15", of(2, Some(15))),
        ("length 17", of(2, Some(17))),
        ("length 32", of(2, Some(32))),
        ("guards cut short", without(1)),
        ("a byte after the guards", [whole(), vec![0]].concat()),
        (
            "a second tag 5",
            [whole(), whole()[whole().len() - 19..].to_vec()].concat(),
        ),
    ];
    let case = |(name, sheet)| Case {
        name,
        sheet,
        request: Request::largest(),
    };
    sheets.into_iter().map(case).collect()
}

fn records() -> Vec<Case> {
    let guarded = |bytes: &[(u8, u8)], root| {
        let mut guards = [UNGUARDED; CHANNELS];
        for (channel, byte) in bytes {
            guards[usize::from(*channel)] = *byte;
        }
        small(Format::version_2(&guards), root)
    };
    let posting_to = |channel| sign(0, post_to(channel, number(7)));
    let nested = |levels| (1..levels).fold(number(0), |inner, _| sign(0, inner));
    let half_a_frame = Request::largest().with_start(&[0]);
    let cases = vec![
        ("channel 15", guarded(&[], posting_to(15)), None),
        ("channel 16", guarded(&[], posting_to(16)), None),
        ("channel 255", guarded(&[], posting_to(255)), None),
        (
            "channel 1 in version 1",
            small(Format::version_1(), posting_to(1)),
            None,
        ),
        ("guard 31", guarded(&[(15, 31)], innocent()), None),
        ("guard 32", guarded(&[(15, 32)], innocent()), None),
        ("guard 254", guarded(&[(0, 254)], innocent()), None),
        (
            "two bad guards",
            guarded(&[(9, 40), (4, 200)], innocent()),
            None,
        ),
        (
            "31 before 9",
            guarded(&[(3, 99)], sign(0, variable(UNBOUND))),
            None,
        ),
        (
            "31 before 10",
            guarded(&[(3, 99)], sign(0, post_to(3, boolean(true)))),
            None,
        ),
        (
            "31 before 14",
            guarded(&[(3, 99)], innocent()),
            Some(half_a_frame),
        ),
        ("8 before 31", guarded(&[(3, 99)], nested(33)), None),
        ("7 before 31", guarded(&[(3, 99)], number(7)), None),
        ("6 before 31", guarded(&[(3, 99)], posting_to(16)), None),
    ];
    let case = |(name, sheet, request): (_, _, Option<Request>)| Case {
        name,
        sheet,
        request: request.unwrap_or_else(Request::largest),
    };
    cases.into_iter().map(case).collect()
}
