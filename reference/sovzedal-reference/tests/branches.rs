//! What request W4 gained: the branches of an if or a test may have two types
//! if one fits the other, and what was accepted before is judged as before.

use sheets::branches;
use sheets::grow::accepted;
use sheets::records::Records;
use sheets::rng::Rng;
use sheets::spoil::spoil_one;
use sheets::world::World;
use sovzedal_reference::{typecheck, typecheck_by, Cause, Rules};

const ONE: u32 = 1 << branches::GRANTED;
const BOTH: u32 = ONE | 1 << branches::OTHER;

const SHEETS: u64 = 10_000;
const SEED: u64 = 4;

#[test]
fn branches_have_the_wider_type() {
    let unfit_branches = |place| Err((Cause::Branches, place));
    let unfit_argument = |place| Err((Cause::Argument, place));
    let type_fault = |place| Err((Cause::TypeMismatch, place));
    let expected = [
        ("if, the same type", Ok(ONE)),
        ("if, yes fits no", Ok(ONE)),
        ("if, no fits yes", Ok(ONE)),
        ("if, neither fits", unfit_branches(9)),
        ("test, the same type", Ok(ONE)),
        ("test, yes fits no", Ok(ONE)),
        // A test takes nothing out of a latent set.
        ("test, no fits yes", Ok(ONE)),
        ("test, neither fits", unfit_branches(8)),
        ("if, number and boolean", unfit_branches(3)),
        ("test, boolean and number", unfit_branches(2)),
        ("if, function and number", unfit_branches(5)),
        (
            "a number for a condition, and fitting branches",
            type_fault(8),
        ),
        ("needs of the narrower branch", Ok(BOTH)),
        ("nested, wider and wider", Ok(BOTH)),
        ("nested, the middle one last", Ok(BOTH)),
        ("nested, each with the widest", Ok(BOTH)),
        (
            "nested, neither fits but both fit the third",
            unfit_branches(10),
        ),
        ("given where the wider is asked", Ok(0)),
        ("given where the narrower is asked", unfit_argument(12)),
        ("takers, called with the narrower", Ok(0)),
        ("takers, called with the wider", unfit_argument(12)),
        (
            "takers of takers, called with the one that takes more",
            Ok(0),
        ),
        (
            "takers of takers, called with the one that takes less",
            unfit_argument(10),
        ),
        ("givers", Ok(ONE)),
        ("a body that gives the wider, as it should", Ok(ONE)),
        (
            "a body that gives the wider, and should the narrower",
            type_fault(10),
        ),
        (
            "a body that gives the narrower, and should the wider",
            type_fault(9),
        ),
        ("the body of a binder", Ok(ONE)),
        (
            "more than the body's type names",
            Err((Cause::BodyNeeds, 12)),
        ),
        ("more than who signs may use", Err((Cause::SignNeeds, 10))),
        ("at the root", Err((Cause::RootType, 9))),
    ];
    let verdicts: Vec<_> = branches::all()
        .iter()
        .map(|case| {
            let verdict = typecheck(&case.sheet)
                .map(|verdict| verdict.needs.bits())
                .map_err(|refusal| (refusal.cause, refusal.place));
            (case.name, verdict)
        })
        .collect();
    assert_eq!(verdicts, expected);
}

/// How the verdicts of before and after W4 compare.
#[derive(Default, Debug)]
struct Counts {
    accepted_before: usize,
    newly_accepted: usize,
    refused_for_another: usize,
}

#[test]
fn a_sheet_accepted_before_has_the_same_type_and_needs() {
    let mut counts = Counts::default();
    let named = branches::all().into_iter().map(|case| case.sheet);
    let drawn = (0..SHEETS).map(|index| random_sheet(&mut Rng::for_item(SEED, index)));
    for (index, sheet) in named.chain(drawn).enumerate() {
        let before = typecheck_by(Rules::BeforeW4, &sheet);
        // As it was after W4: what W5 changed is no matter here.
        let after = typecheck_by(Rules::BeforeW5, &sheet);
        if before == after {
            counts.accepted_before += usize::from(after.is_ok());
            continue;
        }
        // Only a type fault can have gone, and what is told then comes later.
        let fault = before.expect_err(&format!("sheet {index} is judged otherwise"));
        assert_eq!(fault.cause, Cause::TypeMismatch, "sheet {index}");
        match after {
            Ok(_) => counts.newly_accepted += 1,
            Err(_) => counts.refused_for_another += 1,
        }
    }
    // Else the sheets that are drawn say little about the rule.
    assert!(counts.accepted_before >= 3_000, "{counts:?}");
    assert!(counts.newly_accepted >= 500, "{counts:?}");
    assert!(counts.refused_for_another >= 50, "{counts:?}");
}

fn random_sheet(rng: &mut Rng) -> Vec<u8> {
    let world = World::random(rng);
    let size = rng.between(2, 60);
    let mut tree = accepted(rng, &world, size);
    if rng.percent(50) {
        spoil_one(rng, &world, &mut tree);
    }
    Records {
        format: world.format(),
        principals: world.principals.clone(),
        types: world.types.clone(),
        terms: tree.assemble(),
    }
    .to_bytes()
}
