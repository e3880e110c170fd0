//! What request W5 tells apart: a call of what is no function, an argument
//! that doesn't fit, branches of which neither fits; all other type faults are
//! still 10. Nothing else is told otherwise than before.

use sheets::generate::sample;
use sheets::rng::Rng;
use sheets::type_faults;
use sovzedal_reference::{decode, typecheck, typecheck_by, Cause, Refusal, Rules, Term};
use std::collections::BTreeMap;

const SHEETS: u64 = 20_000;
const SEED: u64 = 5;

#[test]
fn each_fault_has_its_number() {
    let expected = [
        ("a number is called", Cause::NotAFunction, 2),
        ("function and argument exchanged", Cause::NotAFunction, 4),
        ("a call too many", Cause::NotAFunction, 6),
        ("a body calls its argument", Cause::NotAFunction, 2),
        ("a boolean for a number", Cause::Argument, 4),
        ("a function for a number", Cause::Argument, 6),
        ("a number for a function", Cause::Argument, 6),
        ("a function that needs too much", Cause::Argument, 9),
        ("if, number and boolean", Cause::Branches, 3),
        ("if, functions of other arguments", Cause::Branches, 9),
        ("test, boolean and number", Cause::Branches, 2),
        ("test, function and number", Cause::Branches, 4),
        ("a number for a condition", Cause::TypeMismatch, 3),
        ("a function for a condition", Cause::TypeMismatch, 5),
        ("sum of a boolean", Cause::TypeMismatch, 2),
        ("difference of a function", Cause::TypeMismatch, 4),
        ("less of a boolean", Cause::TypeMismatch, 2),
        ("post of a boolean", Cause::TypeMismatch, 1),
        ("a body of another type", Cause::TypeMismatch, 2),
        ("a binder's body of another type", Cause::TypeMismatch, 7),
        ("a function at the root", Cause::RootType, 3),
        ("24 before 25", Cause::NotAFunction, 2),
        ("10 before 26", Cause::TypeMismatch, 3),
        ("a child before 24", Cause::UnboundVariable, 1),
        ("a child before 25", Cause::TypeMismatch, 4),
        ("a child before 26", Cause::NotAFunction, 4),
        ("24 before the needs of its body", Cause::NotAFunction, 2),
        ("25 in the rest before a binder's body", Cause::Argument, 4),
        ("25 before the needs of a sign", Cause::Argument, 10),
        ("26 before the root", Cause::Branches, 8),
    ];
    let results: Vec<_> = type_faults::all()
        .iter()
        .map(|case| {
            let Refusal { cause, place } = typecheck(&case.sheet).expect_err(case.name);
            (case.name, cause, place)
        })
        .collect();
    assert_eq!(results, expected);
}

#[test]
fn only_the_number_is_new() {
    let mut counts: BTreeMap<u32, usize> = BTreeMap::new();
    let named = type_faults::all().into_iter().map(|case| case.sheet);
    let drawn = (0..SHEETS).map(|index| sample(&mut Rng::for_item(SEED, index)).bytes);
    for (index, sheet) in named.chain(drawn).enumerate() {
        let before = typecheck_by(Rules::BeforeW5, &sheet);
        let today = typecheck(&sheet);
        let Err(refusal) = today else {
            assert_eq!(today, before, "sheet {index}");
            continue;
        };
        *counts.entry(refusal.cause.number()).or_default() += 1;
        if !is_new(refusal.cause) {
            assert_eq!(today, before, "sheet {index}");
            continue;
        }
        let bare = Refusal {
            cause: Cause::TypeMismatch,
            ..refusal
        };
        assert_eq!(before, Err(bare), "sheet {index}");
        let read = decode(&sheet).expect("a readable sheet");
        let term = read.term(refusal.place as u16);
        assert!(can_have(term, refusal.cause), "sheet {index}: {refusal:?}");
    }
    // Else the sheets that are drawn say little about the numbers.
    for cause in [10, 24, 25, 26] {
        let times = counts.get(&cause).copied().unwrap_or(0);
        assert!(times >= 200, "{cause} is told {times} times: {counts:?}");
    }
}

fn is_new(cause: Cause) -> bool {
    matches!(
        cause,
        Cause::NotAFunction | Cause::Argument | Cause::Branches
    )
}

/// Whether a new number can be told at this term.
fn can_have(term: Term, cause: Cause) -> bool {
    match term {
        Term::Call { .. } => cause != Cause::Branches,
        Term::If { .. } | Term::Test { .. } => cause == Cause::Branches,
        _ => false,
    }
}
