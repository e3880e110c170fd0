//! Request W9, sentence by sentence: which lean sheet is written, how it is
//! judged and run, and what is refused.

use sheets::erasable::erasable;
use sheets::erased::{self, without_lean_form};
use sheets::generate::sample;
use sheets::records::{TypeRecord, NUMBER};
use sheets::rng::Rng;
use sheets::tree::*;
use sheets::{cases, hex, smallest};
use sovzedal_reference::{decode, encode, erase, run_eager, typecheck, Cause, Outcome, Refusal};
use sovzedal_reference::{Request, Run, Set, Stop, MAX_CELL_BYTES, MAX_POSTS};

const SHEETS: u64 = 2_000;
const SEED: u64 = 9;

const NO_LEAN_FORM: Refusal = Refusal {
    cause: Cause::NoLeanForm,
    place: 0,
};
const NO_ROOM: Refusal = Refusal {
    cause: Cause::NoRoom,
    place: 0,
};

#[test]
fn each_case_has_its_lean_sheet() {
    for case in erased::all() {
        let lean = erase(&case.sheet).expect(case.name);
        assert_eq!(hex(&lean.bytes), hex(&case.lean), "{}", case.name);
    }
}

/// "The new sheet is accepted with type unchanged and no needs."
#[test]
fn lean_sheets_are_accepted_and_need_nothing() {
    let mut with_needs = 0;
    for sheet in made_by_hand().chain(drawn(erasable)) {
        let (Ok(lean), Ok(old)) = (erase(&sheet), typecheck(&sheet)) else {
            continue;
        };
        let new = typecheck(&lean.bytes).expect("an accepted sheet");
        assert_eq!((new.ty, new.needs), (old.ty, Set::EMPTY), "{}", hex(&sheet));
        with_needs += usize::from(old.needs != Set::EMPTY);
    }
    assert!(with_needs >= 100, "{with_needs}");
}

/// There is nothing left to leave out.
#[test]
fn a_lean_sheet_is_its_own_lean_form() {
    let mut shorter = 0;
    for sheet in made_by_hand().chain(drawn(erasable)) {
        let Ok(lean) = erase(&sheet) else {
            continue;
        };
        let again = erase(&lean.bytes).expect("it has a lean form, too");
        assert_eq!(again.bytes, lean.bytes, "{}", hex(&sheet));
        assert!(again.numbers.iter().all(Option::is_some));
        assert!(lean.bytes.len() <= sheet.len());
        shorter += usize::from(lean.bytes.len() < sheet.len());
    }
    assert!(shorter >= 1_000, "{shorter}");
}

/// "then a test or version 2 is 32", whatever is lent; and before it "The
/// judge's refusals come first".
#[test]
fn refusals_come_in_their_order() {
    for (name, sheet) in without_lean_form() {
        typecheck(&sheet).expect("the rules accept it");
        assert_eq!(erase(&sheet), Err(NO_LEAN_FORM), "{name}");
    }
    for case in smallest::all() {
        let result = erase(&case.sheet).map(|_| ());
        let judged = typecheck(&case.sheet).map(|_| ());
        assert_eq!(result, judged, "{}", case.cause);
    }
    let refused_with_test = sign(0, test(1, check(1, number(7)), check(1, number(8))));
    let sheet = cases::plain(&[0], refused_with_test);
    let refusal = typecheck(&sheet).expect_err("a refusal");
    assert_eq!(refusal.cause, Cause::SignNeeds);
    assert_eq!(erase(&sheet), Err(refusal));
}

/// "a buffer shorter than the new sheet 33, and the buffer is untouched"; "bytes
/// of the lent buffer after it are untouched".
#[test]
fn the_buffer_takes_all_or_nothing() {
    const FILL: u8 = 0xA5;
    let sheet = cases::posting(2);
    let lean = erase(&sheet).expect("it has a lean form");
    let length = lean.bytes.len();
    assert_eq!(length, 62);
    for room in 0..sheet.len() + 3 {
        let mut buffer = vec![FILL; room];
        let written = lean.write_to(&mut buffer);
        if room < length {
            assert_eq!(written, Err(NO_ROOM), "{room}");
            assert_eq!(buffer, vec![FILL; room]);
        } else {
            assert_eq!(written, Ok(()), "{room}");
            assert_eq!(buffer[..length], lean.bytes);
            assert_eq!(buffer[length..], vec![FILL; room - length]);
        }
    }
}

/// "it ends or stops as the old one does ...; a stop tells the old term's new
/// number".
#[test]
fn a_stop_tells_the_new_number() {
    let body = sign(0, check(1, call(variable(1), check(1, variable(0)))));
    let rest = check(1, call(variable(0), number(0)));
    let types = [TypeRecord::function(NUMBER, NUMBER, 2)];
    let root = sign(0, enable(1, letrec(2, body, rest)));
    let sheet = cases::with_functions(&[2], &types, root);
    let lean = erase(&sheet).expect("it has a lean form");
    let stop = |term| {
        Outcome::Stop(Stop {
            cause: Cause::TooManyOpenCalls,
            term,
        })
    };
    let (old, new) = (run(&sheet), run(&lean.bytes));
    assert_eq!(old.outcome, stop(3));
    assert_eq!(new.outcome, stop(2));
    assert_eq!(lean.numbers[3], Some(2));
    assert_eq!(
        Run {
            outcome: new.outcome,
            ..old
        },
        new
    );
}

fn run(sheet: &[u8]) -> Run {
    let (mut cells, mut posts) = (vec![0; MAX_CELL_BYTES], vec![0; MAX_POSTS]);
    run_eager(sheet, &Request::LARGEST, &mut cells, &mut posts).expect("a run")
}

/// What is encoded is what was decoded: every readable sheet has one form.
#[test]
fn readable_sheets_are_encoded_as_they_were() {
    let mut versions = [0; 2];
    for sheet in made_by_hand().chain(drawn(sample)) {
        if let Ok(read) = decode(&sheet) {
            assert_eq!(encode(&read), sheet, "{}", hex(&sheet));
            versions[usize::from(read.guards.is_some())] += 1;
        }
    }
    assert!(versions.iter().all(|&times| times >= 200), "{versions:?}");
}

fn made_by_hand() -> impl Iterator<Item = Vec<u8>> {
    let with_lean_form = erased::all().into_iter().map(|case| case.sheet);
    let others = without_lean_form().into_iter().map(|(_, sheet)| sheet);
    with_lean_form.chain(others)
}

fn drawn(draw: fn(&mut Rng) -> sheets::generate::Sample) -> impl Iterator<Item = Vec<u8>> {
    (0..SHEETS).map(move |index| draw(&mut Rng::for_item(SEED, index)).bytes)
}
