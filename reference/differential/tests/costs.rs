//! The library on the costliest sheets known: the same answers as the
//! reference's, and within bounds that leave room for a busy machine.

use differential::{EraseCall, ExplainCall, Implementation, Library, Reference, ANSWER_NUMBERS};
use sheets::extremes::{costly_branches, costly_fault, costly_need, deep_calls, deep_need};
use sheets::extremes::{late_fault, many_checks, most_types, widest, NEEDED};
use sheets::rng::Rng;
use std::time::{Duration, Instant};

const MAX: Duration = Duration::from_millis(100);
const ROUNDS: usize = 5;

/// How much longer an explanation may take than a judgement of the sheet: once
/// for each of 32 levels.
const MAX_JUDGEMENTS: u32 = 32;

/// How much longer the search for the smallest faulty piece may take than a
/// judgement of a whole sheet: each term is judged once, and there is more to
/// hand on.
const MAX_FOR_A_PIECE: u32 = 10;

#[test]
fn branches_of_deep_types_are_judged_soon() {
    let sheet = costly_branches();
    let (library, reference) = (
        typecheck_with::<Library>(&sheet),
        typecheck_with::<Reference>(&sheet),
    );
    assert_eq!(library, reference);
    assert_eq!(library.0, 0, "the sheet is accepted");
    let fastest = fastest(|| {
        typecheck_with::<Library>(&sheet);
    });
    println!("costly branches judged in {fastest:?}");
    assert!(fastest <= MAX, "{fastest:?}, {MAX:?} are allowed");
}

#[test]
fn deep_needs_are_explained_in_terms_times_nesting() {
    let sheets = [
        ("deep need", deep_need()),
        ("deep calls", deep_calls()),
        ("costly need", costly_need()),
    ];
    for (name, sheet) in sheets {
        let library = explain::<Library>(&sheet);
        assert_eq!(library, explain::<Reference>(&sheet), "{name}");
        assert_eq!(library.0, 0, "{name} is accepted");
        let judged = fastest(|| {
            typecheck_with::<Library>(&sheet);
        });
        let explained = fastest(|| {
            explain::<Library>(&sheet);
        });
        let times = explained.as_secs_f64() / judged.as_secs_f64();
        println!("{name}: judged in {judged:?}, explained in {explained:?}, {times:.1} times that");
        assert!(explained <= judged * MAX_JUDGEMENTS, "{name}");
    }
}

/// Each sheet beside one that is judged whole and has as much to judge.
#[test]
fn pieces_are_found_by_judging_each_term_once() {
    let sheets = [
        ("costly branches", costly_branches(), costly_branches()),
        ("costly fault", costly_fault(), costly_branches()),
        ("late fault", late_fault(), late_fault()),
        ("widest", widest(), widest()),
    ];
    for (name, sheet, whole) in sheets {
        let library = find::<Library>(&sheet);
        assert_eq!(library, find::<Reference>(&sheet), "{name}");
        assert_eq!(library.0, 0, "{name} can be read");
        let judged = fastest(|| {
            typecheck_with::<Library>(&whole);
        });
        let found = fastest(|| {
            find::<Library>(&sheet);
        });
        let times = found.as_secs_f64() / judged.as_secs_f64();
        println!("{name}: judged in {judged:?}, searched in {found:?}, {times:.1} times that");
        assert!(found <= judged * MAX_FOR_A_PIECE, "{name}");
    }
}

#[test]
fn full_sheets_are_made_lean_soon() {
    let sheets = [
        ("widest", widest()),
        ("most types", most_types()),
        ("many checks", many_checks()),
    ];
    for (name, sheet) in sheets {
        let library = erase::<Library>(&sheet);
        assert_eq!(library, erase::<Reference>(&sheet), "{name}");
        assert_eq!(library.0, 0, "{name} has a lean form");
        let fastest = fastest(|| {
            erase::<Library>(&sheet);
        });
        println!("{name} made lean in {fastest:?}");
        assert!(fastest <= MAX, "{name}: {fastest:?}, {MAX:?} are allowed");
    }
}

fn typecheck_with<I: Implementation>(sheet: &[u8]) -> (u32, [u32; ANSWER_NUMBERS]) {
    let mut answer = [0; ANSWER_NUMBERS];
    (I::typecheck(sheet, &mut answer), answer)
}

fn find<I: Implementation>(sheet: &[u8]) -> (u32, [u32; ANSWER_NUMBERS]) {
    let mut answer = [0; ANSWER_NUMBERS];
    (I::piece(sheet, &mut answer), answer)
}

fn explain<I: Implementation>(sheet: &[u8]) -> (u32, ExplainCall) {
    let mut call = ExplainCall::fitting(&mut Rng::new(0));
    (call.ask::<I>(sheet, NEEDED.into()), call)
}

fn erase<I: Implementation>(sheet: &[u8]) -> (u32, EraseCall) {
    let mut call = EraseCall::fitting(&mut Rng::new(0), sheet);
    (call.ask::<I>(sheet), call)
}

/// The shortest time of several.
fn fastest(work: impl Fn()) -> Duration {
    let rounds = (0..ROUNDS).map(|_| {
        let begun = Instant::now();
        work();
        begun.elapsed()
    });
    rounds.min().expect("a round")
}
