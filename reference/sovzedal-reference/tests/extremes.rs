//! The sheets at the limits are where they should be.

use sheets::extremes::{
    costly_branches, costly_need, deep_calls, deep_need, deepest, endless_through, longest,
    many_checks, most_decisions, most_types, widest, MAX_CHAIN, NEEDED,
};
use sheets::load::{frame_sheet, guarded_frame_sheet};
use sheets::tree::Kind;
use sovzedal_reference::{decode, erase, explain, report, typecheck, typecheck_by};
use sovzedal_reference::{record_eager, run_eager};
use sovzedal_reference::{Cause, Outcome, Request, Rules, Stop, Term};

#[test]
fn the_deepest_has_100_open_calls() {
    assert!(report(&deepest()).ends_with("end num 0 calls 100 cells 101 posts 0 held 0\n"));
}

#[test]
fn the_widest_has_everything_there_is_room_for() {
    assert_eq!(widest().len(), 10_894);
    let sheet = decode(&widest()).unwrap();
    assert_eq!(
        (sheet.principals.len(), sheet.types.len(), sheet.terms.len()),
        (32, 256, 1_024)
    );
    assert!(typecheck(&widest()).is_ok());
}

/// "The program reads up to 10,913 bytes."
#[test]
fn the_longest_has_guards_beside_it() {
    assert_eq!(longest().len(), 10_913);
    assert_eq!(typecheck(&longest()), typecheck(&widest()));
    assert!(typecheck(&longest()).is_ok());
    let one_more = [longest(), vec![0]].concat();
    assert_eq!(decode(&one_more).unwrap_err().cause, Cause::WrongTag);
}

#[test]
fn costly_branches_are_as_many_as_there_is_room_for() {
    let sheet = decode(&costly_branches()).unwrap();
    assert_eq!(sheet.terms.len(), 1_024);
    // The other tests join two trees of tests of the same type.
    let compares = |term: &&Term| match term {
        Term::Test { no, .. } => matches!(sheet.term(*no), Term::Variable(_)),
        _ => false,
    };
    let costly = sheet.terms.iter().filter(compares).count();
    assert!(costly >= 460, "{costly} tests compare types");
    assert!(typecheck(&costly_branches()).is_ok());
    let before = typecheck_by(Rules::BeforeW4, &costly_branches());
    assert_eq!(before.unwrap_err().cause, Cause::TypeMismatch);
}

#[test]
fn deep_needs_are_as_deep_as_there_is_room_for() {
    let sheets = [
        (deep_need(), 1_024, MAX_CHAIN),
        (deep_calls(), 1_024, MAX_CHAIN),
        (costly_need(), 1_023, 18),
    ];
    for (sheet, terms, length) in sheets {
        let read = decode(&sheet).unwrap();
        assert_eq!(read.terms.len(), terms);
        let explanation = explain(&sheet, NEEDED.into()).unwrap();
        let chain = explanation.terms();
        assert_eq!(chain.len(), length);
        let cause = read.term(chain[length - 1]);
        assert!(matches!(cause, Term::Check { .. }), "{cause:?}");
    }
}

/// How long a sheet and its lean form are, and how many types and terms they
/// have.
#[test]
fn lean_forms_leave_out_as_much_as_can_be_and_nothing() {
    let sheets = [
        // All towers become one.
        (widest(), (10_894, 256, 1_024), (8_474, 14, 1_024)),
        (most_types(), (10_894, 256, 1_024), (10_894, 256, 1_024)),
        (many_checks(), (8_230, 2, 1_024), (1_062, 2, 128)),
    ];
    for (sheet, old, new) in sheets {
        let lean = erase(&sheet).unwrap().bytes;
        for (bytes, expected) in [(sheet, old), (lean, new)] {
            let read = decode(&bytes).unwrap();
            assert_eq!((bytes.len(), read.types.len(), read.terms.len()), expected);
        }
    }
}

#[test]
fn frames_of_the_load_end() {
    for index in 0..300 {
        let text = report(&frame_sheet(index));
        assert!(text.contains("needs 00000000"), "frame {index}: {text}");
        assert!(text.contains("end num"), "frame {index}: {text}");
        let fewer_terms = text.split_once('\n').unwrap().1;
        let guarded = report(&guarded_frame_sheet(index));
        assert!(guarded.ends_with(fewer_terms), "frame {index}: {guarded}");
    }
}

#[test]
fn endless_calls_go_through_any_kind() {
    for kind in Kind::ALL {
        let request = Request {
            start: &[0, 2],
            ..Request::LARGEST
        };
        let run = run_eager(&endless_through(kind), &request, &mut [0; 65_536], &mut []).unwrap();
        let Outcome::Stop(Stop { cause, .. }) = run.outcome else {
            panic!("{kind:?} ended");
        };
        assert_eq!(
            (cause, run.calls),
            (Cause::TooManyOpenCalls, 100),
            "{kind:?}"
        );
    }
}

/// An ample record tells how many there are.
#[test]
fn the_most_decisions_are_some_four_million() {
    let sheet = most_decisions();
    assert_eq!(decode(&sheet).unwrap().terms.len(), 1_024);
    let mut record = vec![0; 1 << 24];
    let (mut cells, mut posts) = (vec![0; 1 << 16], []);
    let recorded = record_eager(
        &sheet,
        &Request::LARGEST,
        &mut cells,
        &mut posts,
        &mut record,
    );
    let recorded = recorded.unwrap();
    assert_eq!(recorded.run.calls, 4_095);
    assert_eq!(recorded.entries, 909 * 4_095);
}
