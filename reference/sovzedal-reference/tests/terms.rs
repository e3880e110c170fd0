//! Single terms of a sheet: what is told of each where it stands.

use sheets::pieces;
use sovzedal_reference::{decode, infer_term, piece, typecheck};
use sovzedal_reference::{Accepted, Cause, Refusal, Term};

/// Every term of an accepted sheet has what the judge says of it there, and the
/// root what it says of the sheet.
#[test]
fn terms_of_an_accepted_sheet_are_typed() {
    let mut accepted_sheets = 0;
    for case in pieces::all() {
        let Ok(accepted) = Accepted::new(&case.sheet) else {
            continue;
        };
        accepted_sheets += 1;
        for id in 0..=accepted.sheet.root() {
            let inferred = infer_term(&case.sheet, id.into()).expect("a type");
            let judged = accepted.judgement(id);
            assert_eq!((inferred.ty, inferred.needs), (judged.ty, judged.needs));
            assert_eq!(inferred.principal.is_none(), id == accepted.sheet.root());
        }
        let root = infer_term(&case.sheet, accepted.sheet.root().into()).expect("a type");
        let verdict = typecheck(&case.sheet).expect("accepted");
        assert_eq!((root.ty, root.needs), (verdict.ty, verdict.needs));
    }
    assert!(accepted_sheets > 3);
}

/// The smallest faulty piece has its own fault, and each of its children a type;
/// 13 is told of no term.
#[test]
fn a_piece_is_refused_where_it_stands() {
    let mut pieces_found = 0;
    for case in pieces::all() {
        let sheet = decode(&case.sheet).expect("readable");
        let Some(found) = piece(&case.sheet).expect("readable") else {
            let root = infer_term(&case.sheet, sheet.root().into());
            assert!(root.is_ok(), "{root:?}");
            continue;
        };
        pieces_found += 1;
        let fault = Refusal {
            cause: found.fault,
            place: found.term.into(),
        };
        assert_eq!(infer_term(&case.sheet, found.term.into()), Err(fault));
        for child in sheet.term(found.term).children() {
            assert!(infer_term(&case.sheet, child.into()).is_ok());
        }
    }
    assert!(pieces_found > 3);
}

/// A term is under the principal of the nearest sign around it.
#[test]
fn the_nearest_sign_tells_the_principal() {
    let mut signs = 0;
    for case in pieces::all() {
        let sheet = decode(&case.sheet).expect("readable");
        for id in 0..=sheet.root() {
            let Term::Sign { principal, inner } = sheet.term(id) else {
                continue;
            };
            if let Ok(inferred) = infer_term(&case.sheet, inner.into()) {
                assert_eq!(inferred.principal, Some(principal));
                signs += 1;
            }
        }
    }
    assert!(signs > 10);
}

#[test]
fn a_number_past_the_last_term_is_37() {
    assert_eq!(Cause::NoTerm.number(), 37);
    let no_term = Refusal {
        cause: Cause::NoTerm,
        place: 0,
    };
    for case in pieces::all() {
        let terms = decode(&case.sheet).expect("readable").terms.len() as u32;
        for number in [terms, terms + 1, 1 << 16, u32::MAX] {
            assert_eq!(infer_term(&case.sheet, number), Err(no_term));
        }
    }
    // The reader's refusals come first.
    let unreadable = infer_term(&[], 0).expect_err("a refusal");
    assert_eq!(unreadable.cause, Cause::CutShort);
}
