//! Request W13, sentence by sentence: which piece of a refused sheet is told,
//! and of which sheets there is none.

use sheets::extremes::{costly_fault, late_fault};
use sheets::faulty::faulty;
use sheets::rng::Rng;
use sheets::{hex, pieces, smallest};
use sovzedal_reference::{decode, piece, typecheck, Reply, Sheet, TermId};
use std::collections::BTreeSet;

const SHEETS: u64 = 3_000;
const SEED: u64 = 13;

const HEADER: usize = 3;
const RECORD: usize = 8;

/// Of each case what the judge tells, cause and place, and of the piece the
/// term, the count of terms and the fault. Terms are numbered from the leaves up
/// and from left to right.
type CaseResult = (
    &'static str,
    Option<(u32, u32)>,
    Option<(TermId, usize, u32)>,
);

#[rustfmt::skip]
const EXPECTED: [CaseResult; 47] = [
    ("9", Some((9, 1)), Some((1, 1, 9))),
    ("10 of an operand", Some((10, 3)), Some((3, 3, 10))),
    ("10 of a condition", Some((10, 3)), Some((3, 4, 10))),
    ("10 of a body", Some((10, 2)), Some((2, 3, 10))),
    ("11", Some((11, 3)), Some((3, 3, 11))),
    ("11 of the root", Some((11, 2)), Some((2, 3, 11))),
    ("12", Some((12, 3)), Some((3, 4, 12))),
    ("24", Some((24, 2)), Some((2, 3, 24))),
    ("25", Some((25, 4)), Some((4, 5, 25))),
    ("26 of an if", Some((26, 3)), Some((3, 4, 26))),
    ("26 of a test", Some((26, 2)), Some((2, 3, 26))),
    ("the larger first", Some((10, 3)), Some((4, 1, 9))),
    ("the smaller first", Some((9, 0)), Some((0, 1, 9))),
    ("the smallest in the third child", Some((10, 3)), Some((7, 1, 9))),
    ("the smallest in the argument of a call of no function", Some((24, 2)), Some((3, 1, 9))),
    ("the smallest in the rest of a binder", Some((10, 3)), Some((6, 1, 9))),
    ("the smallest in the body of a function that is refused, too", Some((10, 3)), Some((5, 2, 10))),
    ("the smallest in a branch behind a faulty condition", Some((10, 3)), Some((11, 3, 24))),
    ("a fault of many terms, alone", Some((11, 8)), Some((8, 9, 11))),
    ("two of one term", Some((9, 0)), Some((0, 1, 9))),
    ("three of three terms, of three faults", Some((10, 2)), Some((2, 3, 10))),
    ("the deeper first", Some((24, 2)), Some((2, 3, 24))),
    ("the deeper second", Some((24, 2)), Some((2, 3, 24))),
    ("an enable under the unable", Some((11, 3)), Some((3, 4, 11))),
    ("the inner of two signs", Some((11, 2)), Some((2, 3, 11))),
    ("under four signs", Some((11, 2)), Some((2, 3, 11))),
    ("a body is under its own sign", Some((11, 3)), Some((3, 4, 11))),
    ("behind another fault, under its own sign", Some((10, 5)), Some((9, 4, 11))),
    ("an argument is no function", Some((24, 2)), Some((2, 3, 24))),
    ("a function's body, a binding too few", Some((9, 0)), Some((0, 1, 9))),
    ("a binder's body, a binding too few", Some((9, 0)), Some((0, 1, 9))),
    ("a binder's rest, a binding too few", Some((9, 2)), Some((2, 1, 9))),
    ("the rest has the declared type, and the body another", Some((10, 5)), Some((5, 6, 10))),
    ("the rest gives the wrong argument, and the body is of another type", Some((25, 4)), Some((4, 3, 25))),
    ("an argument has the declared type, and the call is refused", Some((25, 6)), Some((6, 7, 25))),
    ("a function for a function that needs less", Some((25, 9)), Some((9, 10, 25))),
    ("a variable of a binder around a function", Some((25, 4)), Some((4, 3, 25))),
    ("accepted", None, None),
    ("accepted, an enable under the able", None, None),
    ("accepted, the nearest sign counts", None, None),
    ("13", Some((13, 3)), None),
    ("13 would follow", Some((12, 3)), Some((3, 4, 12))),
    ("a guarded post by the unable", Some((11, 3)), Some((3, 3, 11))),
    ("a guarded post of no number", Some((10, 1)), Some((1, 2, 10))),
    ("accepted, a guarded post", None, None),
    ("accepted, an open post by the unable", None, None),
    ("a tie, the second operand has the lower number", Some((9, 1)), Some((0, 1, 9))),
];

#[test]
fn each_case_has_its_piece() {
    let results: Vec<CaseResult> = pieces::all()
        .iter()
        .map(|case| {
            let judged = typecheck(&case.sheet).err();
            let judged = judged.map(|refusal| (refusal.cause.number(), refusal.place));
            let found = piece(&case.sheet).expect(case.name);
            let found = found.map(|it| (it.term, it.count, it.fault.number()));
            (case.name, judged, found)
        })
        .collect();
    assert_eq!(results, EXPECTED);
}

/// "An unreadable sheet gets the reader's refusal; any other has 'no piece'",
/// unless it is "refused by the rules 9 to 12 or 24 to 26".
#[test]
fn refusals_are_the_readers_alone() {
    let mut refused = BTreeSet::new();
    let mut with_piece = BTreeSet::new();
    for case in smallest::all() {
        let read = decode(&case.sheet).map(|_| ());
        let found = piece(&case.sheet);
        assert_eq!(found.clone().map(|_| ()), read, "{}", case.cause);
        match found {
            Err(refusal) => {
                refused.insert(refusal.cause.number());
            }
            Ok(Some(piece)) => {
                with_piece.insert(piece.fault.number());
            }
            Ok(None) => assert!(!is_by_rules(&case.sheet), "{}", case.cause),
        }
    }
    assert_eq!(refused, (1..=8).chain([31]).collect());
    assert_eq!(with_piece, (9..=12).chain(24..=26).collect());
}

/// "those eight bytes of the caller's own sheet that are its record", which the
/// fourth field has behind those of lower terms.
#[test]
fn the_record_is_in_the_sheet() {
    let made = [costly_fault(), late_fault()];
    let cases = pieces::all().into_iter().map(|case| case.sheet);
    let mut found = 0;
    for sheet in cases.chain(made) {
        let Some(piece) = piece(&sheet).expect("a readable sheet") else {
            continue;
        };
        let mut rest = &sheet[..];
        for _ in 1..4 {
            rest = &rest[HEADER + usize::from(u16::from_be_bytes([rest[1], rest[2]]))..];
        }
        let records: Vec<&[u8]> = rest[HEADER..].chunks(RECORD).collect();
        assert_eq!(piece.record_in(&sheet), records[usize::from(piece.term)]);
        let begin = sheet.len() - rest.len() + HEADER + RECORD * usize::from(piece.term);
        assert_eq!(piece.record, begin..begin + RECORD);
        found += 1;
    }
    assert_eq!(found, 43);
}

/// The largest numbers that are told.
#[test]
fn a_late_fault_is_reported_by_its_offset() {
    let sheet = late_fault();
    let found = piece(&sheet).expect("a readable sheet").expect("a piece");
    assert_eq!((found.term, found.count), (1_022, 1_023));
    let reply = Reply::from(Some(found));
    assert_eq!(reply.answer, [0, 0, 10, 1_022, 1_023, 10_878, 8, 0]);
}

/// The judge stops at the first fault, and behind it is a smaller one.
#[test]
fn nothing_is_judged_but_where_it_stands() {
    let mut counts = [0; 4];
    for index in 0..SHEETS {
        let rng = &mut Rng::for_item(SEED, index);
        let bytes = faulty(rng).bytes;
        let Ok(sheet) = decode(&bytes) else {
            continue;
        };
        let found = piece(&bytes).expect("a readable sheet");
        assert_eq!(found.is_some(), is_by_rules(&bytes), "{}", hex(&bytes));
        let (Some(found), Err(first)) = (found, typecheck(&bytes)) else {
            continue;
        };
        let first_is = (count(&sheet, first.place as TermId), first.place as TermId);
        let found_is = (found.count, found.term);
        assert_eq!(found.count, count(&sheet, found.term));
        assert!(found_is <= first_is, "{}", hex(&bytes));
        counts[0] += 1;
        counts[1] += usize::from(found_is.0 < first_is.0);
        counts[2] += usize::from(found_is.0 == first_is.0 && found_is.1 < first_is.1);
        counts[3] += usize::from(found_is == first_is);
        // The first fault is its term's own, too.
        assert!(found_is != first_is || found.fault == first.cause);
    }
    let [refused, smaller, lower, first] = counts;
    assert!(
        refused >= 1_500 && smaller >= 300 && lower >= 20 && first >= 500,
        "{counts:?}"
    );
}

fn is_by_rules(sheet: &[u8]) -> bool {
    let judged = typecheck(sheet).err().map(|it| it.cause.number());
    matches!(judged, Some(9..=12 | 24..=26))
}

fn count(sheet: &Sheet, id: TermId) -> usize {
    let children = sheet.term(id).children();
    1 + children.map(|child| count(sheet, child)).sum::<usize>()
}
