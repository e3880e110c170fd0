//! What request W1 gained. An if needs all that its branches need, which was
//! the rule of tests before W1; so a sheet whose tests are made ifs is judged
//! by the rules of before.

use sheets::grow::accepted;
use sheets::records::Records;
use sheets::rng::Rng;
use sheets::spoil::spoil_one;
use sheets::tree::*;
use sheets::world::World;
use sovzedal_reference::{typecheck, Verdict};

const SHEETS: u64 = 10_000;
const SEED: u64 = 3;

/// How the verdicts of today and of before compare.
#[derive(Default, Debug)]
struct Counts {
    accepted_before: usize,
    needing_less: usize,
    newly_accepted: usize,
}

#[test]
fn what_was_accepted_still_is_and_needs_no_more() {
    let mut counts = Counts::default();
    for index in 0..SHEETS {
        let rng = &mut Rng::for_item(SEED, index);
        let world = World::random(rng);
        let size = rng.between(2, 60);
        let mut tree = accepted(rng, &world, size);
        if rng.percent(50) {
            spoil_one(rng, &world, &mut tree);
        }
        let today = judged(&world, &tree);
        let before = judged(&world, &tests_as_ifs(&tree));
        match (before, today) {
            (Some(before), Some(today)) => {
                assert_eq!(before.ty, today.ty, "item {index}");
                assert!(today.needs.is_within(before.needs), "item {index}");
                counts.accepted_before += 1;
                counts.needing_less += usize::from(today.needs != before.needs);
            }
            (Some(_), None) => panic!("item {index} was accepted"),
            (None, Some(_)) => counts.newly_accepted += 1,
            (None, None) => {}
        }
    }
    // Else the sheets that are drawn say little about the rule.
    assert!(counts.needing_less >= 250, "{counts:?}");
    assert!(counts.newly_accepted >= 1_000, "{counts:?}");
}

fn judged(world: &World, tree: &Tree) -> Option<Verdict> {
    let records = Records {
        format: world.format(),
        principals: world.principals.clone(),
        types: world.types.clone(),
        terms: tree.assemble(),
    };
    typecheck(&records.to_bytes()).ok()
}

/// The tree with an if in place of each test. The condition is no deeper than
/// the branches, so that nesting is as before.
fn tests_as_ifs(tree: &Tree) -> Tree {
    let mut copy = tree.clone();
    copy.children = tree.children.iter().map(tests_as_ifs).collect();
    if copy.kind == Kind::Test {
        let no = copy.children.pop().expect("a no-branch");
        let yes = copy.children.pop().expect("a yes-branch");
        copy = when(boolean(true), yes, no);
    }
    copy
}
