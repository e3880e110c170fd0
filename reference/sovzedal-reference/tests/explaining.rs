//! Request W7, sentence by sentence: which chain explains a need, where there
//! is none, and what is refused first.

use sheets::cases::{posting, posting_without_enable};
use sheets::explained::{self, PRIVILEGE};
use sheets::generate::sample;
use sheets::needy::needing;
use sheets::records::{Format, Records, TypeRecord};
use sheets::rng::Rng;
use sheets::smallest;
use sheets::tree::*;
use sovzedal_reference::{explain, typecheck, Cause, Explanation, Refusal};

const SHEETS: u64 = 2_000;
const SEED: u64 = 7;

const NO_PRIVILEGE: Refusal = Refusal {
    cause: Cause::NoPrivilege,
    place: 0,
};

/// The chain of each case, empty if the privilege isn't needed. Terms are
/// numbered from the leaves up and from left to right.
#[test]
fn each_case_has_its_chain() {
    let expected: [(&str, &[u16]); 51] = [
        ("a check", &[2, 1]),
        ("a call", &[6, 5]),
        ("a binder", &[5, 4]),
        ("a binder whose body needs nothing", &[4, 3]),
        ("a call of the wider of two", &[11, 10]),
        ("a call of what a call gives", &[10, 9]),
        ("a call of what a bound function gives", &[14, 13, 12, 11]),
        ("sum, both", &[5, 4, 1]),
        ("sum, the second", &[4, 3, 2]),
        ("if, all three", &[7, 6, 1]),
        ("if, both branches", &[6, 5, 2]),
        ("if, the no-branch", &[5, 4, 3]),
        ("call, both parts", &[7, 6, 3]),
        ("call, the argument", &[6, 5, 4]),
        ("binder, the rest", &[5, 4, 3]),
        ("test of it, both branches", &[5, 4, 3]),
        ("test of it, twice", &[7, 6, 5, 4]),
        ("test of another, both branches", &[5, 4, 1]),
        ("test of another, the no-branch", &[4, 3, 2]),
        ("another principal", &[5, 4, 3, 2]),
        ("one kind below the other", &[10, 9, 8, 7, 4, 3]),
        ("a check of a check", &[3, 2]),
        ("a check of another around", &[3, 2, 1]),
        ("a call on a check", &[7, 6]),
        ("a call of a check", &[7, 6]),
        ("a binder and a call of what it binds", &[7, 6]),
        ("a call on a call", &[10, 9, 8]),
        ("a call that is given what needs it", &[9, 8, 7]),
        ("a number", &[]),
        ("a check of another", &[]),
        ("an enable", &[]),
        ("an enable of another", &[3, 2, 1]),
        ("an enable beside a check", &[6, 5, 4]),
        ("the yes-branch", &[]),
        ("the yes-branch of another", &[4, 3, 1]),
        ("an enable in vain in the yes-branch", &[]),
        ("a function that is given and not called", &[]),
        ("a function that is called in another's body", &[]),
        ("a guarded post", &[2, 1]),
        ("a post that another guards", &[3, 2, 1]),
        ("a post to an open channel", &[3, 2, 1]),
        ("a guarded post of a check", &[3, 2]),
        ("a check of a guarded post", &[3, 2]),
        ("a guarded post of a guarded post", &[3, 2]),
        ("sum, both guarded", &[5, 4, 1]),
        ("a guarded post beside a check", &[5, 4, 1]),
        ("an enable of a guarded post", &[]),
        ("an enable of another of a guarded post", &[3, 2, 1]),
        ("a guarded post in the yes-branch", &[]),
        ("a guarded post in the no-branch", &[5, 4, 3]),
        ("only another guards", &[]),
    ];
    let results: Vec<(&str, Vec<u16>)> = explained::all()
        .iter()
        .map(|case| {
            let explanation = explain(&case.sheet, PRIVILEGE.into()).expect(case.name);
            (case.name, explanation.terms().to_vec())
        })
        .collect();
    assert_eq!(
        results,
        expected.map(|(name, chain)| (name, chain.to_vec()))
    );
}

/// "Where several children qualify the lowest position is followed": the
/// position counts, and not the number.
#[test]
fn the_first_child_may_have_the_higher_number() {
    let tree = sign(0, sum(check(1, number(7)), check(1, number(8))));
    let rng = &mut Rng::new(SEED);
    let mut higher = 0;
    for _ in 0..20 {
        let records = Records {
            format: Format::version_1(),
            principals: vec![1 << 1],
            types: vec![TypeRecord::bool(), TypeRecord::number()],
            terms: tree.assemble_shuffled(rng),
        };
        let [first, second, _] = records.terms[4].parts;
        let chain = Explanation::Chain(vec![5, 4, first]);
        assert_eq!(explain(&records.to_bytes(), 1), Ok(chain));
        higher += usize::from(first > second);
    }
    assert!(higher > 0);
}

/// "If the privilege isn't needed the answer says so, and only then."
#[test]
fn not_needed_is_reported_exactly_if_it_is_not_among_the_needs() {
    let mut counts = [0; 2];
    for index in 0..SHEETS {
        let rng = &mut Rng::for_item(SEED, index);
        let sheet = if rng.percent(50) {
            sample(rng)
        } else {
            needing(rng)
        }
        .bytes;
        let Ok(verdict) = typecheck(&sheet) else {
            continue;
        };
        for privilege in 0..32 {
            let needed = verdict.needs.bits() >> privilege & 1 == 1;
            let explanation = explain(&sheet, privilege).expect("the sheet is accepted");
            assert_eq!(
                explanation != Explanation::NotNeeded,
                needed,
                "item {index}"
            );
            counts[usize::from(needed)] += 1;
        }
    }
    assert!(counts.iter().all(|&times| times >= 500), "{counts:?}");
}

/// "The judge's own refusals come first, and a privilege above 31 is 30."
#[test]
fn refusals_come_in_their_order() {
    for case in smallest::all() {
        let judged = typecheck(&case.sheet);
        for privilege in [0, 31, 32, 255, 256, 1 << 31, u32::MAX] {
            let result = explain(&case.sheet, privilege).map(|_| ());
            let expected = match judged {
                Err(refusal) => Err(refusal),
                Ok(_) if privilege > 31 => Err(NO_PRIVILEGE),
                Ok(_) => Ok(()),
            };
            assert_eq!(result, expected, "{}, privilege {privilege}", case.cause);
        }
    }
    assert_eq!(
        explain(&posting(0), 32).unwrap_err().cause,
        Cause::SignNeeds
    );
}

/// All 32 bits of a privilege count.
#[test]
fn a_privilege_above_31_is_not_taken_for_another() {
    let sheet = posting_without_enable();
    assert_eq!(explain(&sheet, 1), Ok(Explanation::Chain(vec![3, 2])));
    for privilege in [33, 1 + (1 << 8), 1 + (1 << 16), 1 + (1 << 31)] {
        assert_eq!(explain(&sheet, privilege), Err(NO_PRIVILEGE));
    }
}
