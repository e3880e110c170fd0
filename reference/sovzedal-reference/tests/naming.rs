//! Request W11, sentence by sentence: which term names a privilege, what is
//! refused, and that a privilege which none names plays no part in a run.

use sheets::cases::posting;
use sheets::named::{self, ABLE, OTHER, PRIVILEGE, UNABLE};
use sheets::quiet::quiet;
use sheets::rng::Rng;
use sheets::{hex, smallest};
use sovzedal_reference::{decode, names, run_eager, run_lazy, typecheck};
use sovzedal_reference::{Cause, Naming, Refusal, Request, Run};
use sovzedal_reference::{FRAME_NUMBERS, MAX_CELL_BYTES, MAX_POSTS};
use std::collections::BTreeSet;

const SHEETS: u64 = 2_000;
const SEED: u64 = 11;

const NO_PRIVILEGE: Refusal = Refusal {
    cause: Cause::NoPrivilege,
    place: 0,
};

/// The lowest term that names the privilege of each case, if one does. Terms
/// are numbered from the leaves up and from left to right.
const EXPECTED: [(&str, Option<u16>); 31] = [
    ("a check", Some(1)),
    ("a test", Some(2)),
    ("a check below an enable", Some(1)),
    ("two checks", Some(1)),
    ("a test before a check", Some(2)),
    ("a check in a test", Some(1)),
    ("a check after others", Some(3)),
    ("a check in a body that nothing calls", Some(1)),
    ("a test in a branch that isn't chosen", Some(4)),
    ("a check of another", None),
    ("a test of another", None),
    ("an enable", None),
    ("an enable in vain", None),
    ("a need of it", None),
    ("a post", None),
    ("a boolean of its number", None),
    ("a number and a variable of its number", None),
    ("a sign of its number", None),
    ("a check, no number", Some(1)),
    ("an enable, no number", None),
    ("a check by the unable", Some(1)),
    ("a guarded post", Some(1)),
    ("a guarded post to the last channel", Some(1)),
    (
        "a post that another guards, to the channel of its number",
        None,
    ),
    ("a post to an open channel", None),
    ("no post", None),
    ("an enable of no post", None),
    ("a guarded post below an enable", Some(1)),
    ("a guarded post before a check", Some(1)),
    ("a check before a guarded post", Some(1)),
    ("a guarded post in a body that nothing calls", Some(1)),
];

#[test]
fn each_case_has_its_lowest_term() {
    let results: Vec<(&str, Option<u16>)> = named::all()
        .iter()
        .map(|case| {
            let naming = names(&case.sheet, PRIVILEGE.into()).expect(case.name);
            (case.name, term(naming))
        })
        .collect();
    assert_eq!(results, EXPECTED);
}

/// "For a readable sheet, accepted or not".
#[test]
fn sheets_that_the_rules_refuse_are_queried_too() {
    let cases = named::all();
    let refused = cases.iter().filter(|case| typecheck(&case.sheet).is_err());
    let refused: Vec<&str> = refused.map(|case| case.name).collect();
    let expected = [
        "a check, no number",
        "an enable, no number",
        "a check by the unable",
    ];
    assert_eq!(refused, expected);
}

/// "refusals 1 to 8 and 31 of the sheet, 30 for a privilege above 31".
#[test]
fn refusals_come_in_their_order() {
    let mut causes = BTreeSet::new();
    for case in smallest::all() {
        let read = decode(&case.sheet).map(|_| ());
        for privilege in [0, 31, 32, 255, 256, 1 << 31, u32::MAX] {
            let result = names(&case.sheet, privilege).map(|_| ());
            let expected = match read {
                Err(refusal) => Err(refusal),
                Ok(()) if privilege > 31 => Err(NO_PRIVILEGE),
                Ok(()) => Ok(()),
            };
            assert_eq!(result, expected, "{}, privilege {privilege}", case.cause);
            causes.extend(result.err().map(|refusal| refusal.cause.number()));
        }
    }
    assert_eq!(causes, (1..=8).chain([30, 31]).collect());
}

/// All 32 bits of a privilege count.
#[test]
fn a_privilege_above_31_is_not_taken_for_another() {
    let sheet = posting(2);
    assert_eq!(names(&sheet, 1), Ok(Naming::By(2)));
    for privilege in [33, 1 + (1 << 8), 1 + (1 << 16), 1 + (1 << 31)] {
        assert_eq!(names(&sheet, privilege), Err(NO_PRIVILEGE));
    }
}

/// Starts that differ in the privilege alone, by pairs: what is granted beside
/// it is the same. Frames are innermost first.
fn pairs() -> Vec<[Vec<u32>; 2]> {
    let (able, unable) = (u32::from(ABLE), u32::from(UNABLE));
    let (query, other) = (1 << PRIVILEGE, 1 << OTHER);
    vec![
        [vec![], vec![able, query]],
        [vec![able, other], vec![able, query | other]],
        [vec![able, other], vec![able, 0, able, u32::MAX]],
        [vec![unable, query | other], vec![able, query]],
        [
            vec![able, query, able, other],
            vec![able, other, unable, query],
        ],
    ]
}

/// "two starts whose granted sets differ at most in p, neither of them turned
/// back, give the same end or stop, posts and counts". Of a privilege that is
/// named they need not: by a check, a test or a guard that a run comes to.
#[test]
fn a_privilege_that_none_names_plays_no_part() {
    let mut differing = Vec::new();
    for case in named::all() {
        let naming = names(&case.sheet, PRIVILEGE.into()).expect(case.name);
        let plays_a_part = pairs().iter().any(|starts| {
            let [one, other] = starts.each_ref().map(|start| runs(&case.sheet, start));
            one != other
        });
        assert!(
            !plays_a_part || naming != Naming::Unnamed,
            "{} plays a part",
            case.name
        );
        if plays_a_part {
            differing.push(case.name);
        }
    }
    let expected = [
        "a check",
        "a test",
        "two checks",
        "a test before a check",
        "a check in a test",
        "a check after others",
        "a check, no number",
        "a guarded post",
        "a guarded post to the last channel",
        "a guarded post before a check",
        "a check before a guarded post",
    ];
    assert_eq!(differing, expected);
}

/// The same of random sheets, with the frames of one start and without the
/// privilege in them.
#[test]
fn a_privilege_taken_out_of_all_frames_plays_no_part() {
    let (mut unnamed, mut differing) = (0, 0);
    for index in 0..SHEETS {
        let rng = &mut Rng::for_item(SEED, index);
        let (sample, privilege) = quiet(rng);
        let Ok(naming) = names(&sample.bytes, privilege.into()) else {
            continue;
        };
        let principal = u32::from(sample.world.random_principal(rng));
        let bit = 1 << privilege;
        let enabled = rng.bits() | bit;
        let [with, without] = [enabled, enabled & !bit]
            .map(|enabled| runs(&sample.bytes, &[principal, enabled, principal, 0]));
        match naming {
            Naming::Unnamed => {
                assert_eq!(with, without, "{privilege} in {}", hex(&sample.bytes));
                unnamed += 1;
            }
            Naming::By(_) => differing += usize::from(with != without),
        }
    }
    assert!(unnamed >= 1_000 && differing >= 50, "{unnamed} {differing}");
}

/// Runs of both runners, with checks in force, and their posts.
fn runs(sheet: &[u8], start: &[u32]) -> [(Run, Vec<u32>); 2] {
    let request = Request {
        start,
        ..Request::LARGEST
    };
    let mut cells = vec![0; MAX_CELL_BYTES];
    let mut frames = vec![0; FRAME_NUMBERS];
    let [mut posts, mut lazy_posts] = [(); 2].map(|()| vec![0; MAX_POSTS]);
    let eager = run_eager(sheet, &request, &mut cells, &mut posts);
    let lazy = run_lazy(sheet, &request, &mut cells, &mut lazy_posts, &mut frames);
    [(eager, posts), (lazy, lazy_posts)].map(|(run, mut posts)| {
        let run = run.expect("it isn't turned back");
        posts.truncate(run.posts as usize);
        (run, posts)
    })
}

fn term(naming: Naming) -> Option<u16> {
    match naming {
        Naming::Unnamed => None,
        Naming::By(term) => Some(term),
    }
}
