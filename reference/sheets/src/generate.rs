//! Random sheets of every sort.

use crate::damage::{cut_guards, damage_bytes, damage_guards};
use crate::damage::{damage_shape, damage_terms, damage_types};
use crate::grow::{accepted, of_type};
use crate::records::Records;
use crate::rng::Rng;
use crate::spoil::{spoil_family, spoil_one};
use crate::tree::*;
use crate::wild::wild;
use crate::world::World;

/// A sheet, and what a request for a run of it may want to know.
#[derive(Clone, Debug)]
pub struct Sample {
    pub bytes: Vec<u8>,
    pub world: World,
}

/// What is wrong with a sheet, if anything.
#[derive(Clone, Copy, PartialEq, Eq)]
enum Sort {
    Accepted,
    FunctionAtRoot,
    SpoiledOnce,
    SpoiledFamily,
    DamagedTypes,
    DamagedTerms,
    DamagedShape,
    DamagedGuards,
    DamagedBytes,
    Wild,
    Nested,
}

/// How many of a hundred sheets are of which sort.
const SORTS: [(usize, Sort); 11] = [
    (38, Sort::Accepted),
    (1, Sort::FunctionAtRoot),
    (20, Sort::SpoiledOnce),
    (8, Sort::SpoiledFamily),
    (2, Sort::DamagedTypes),
    (4, Sort::DamagedTerms),
    (3, Sort::DamagedShape),
    (4, Sort::DamagedGuards),
    (3, Sort::DamagedBytes),
    (13, Sort::Wild),
    (4, Sort::Nested),
];

/// Any sheet.
pub fn sample(rng: &mut Rng) -> Sample {
    let sort = random_sort(rng);
    sample_of(rng, sort)
}

/// A sheet that the rules accept, unless it is too large or too deep.
pub fn accepted_sample(rng: &mut Rng) -> Sample {
    sample_of(rng, Sort::Accepted)
}

/// An accepted sheet, or one changed a little, which the rules may accept
/// nevertheless.
pub fn nearly_accepted(rng: &mut Rng) -> Sample {
    let sort = rng.pick(&[Sort::Accepted, Sort::SpoiledOnce]);
    sample_of(rng, sort)
}

fn random_sort(rng: &mut Rng) -> Sort {
    let mut drawn = rng.below(100);
    for (share, sort) in SORTS {
        if drawn < share {
            return sort;
        }
        drawn -= share;
    }
    unreachable!("the shares make a hundred")
}

fn sample_of(rng: &mut Rng, sort: Sort) -> Sample {
    let world = World::random(rng);
    let tree = tree_of(rng, &world, sort);
    let mut records = assemble(rng, &world, &tree);
    match sort {
        Sort::DamagedTypes => damage_types(rng, &mut records),
        Sort::DamagedTerms => damage_terms(rng, &mut records),
        Sort::DamagedShape => damage_shape(rng, &mut records),
        Sort::DamagedGuards => damage_guards_and_more(rng, &mut records),
        _ => {}
    }
    let mut bytes = records.to_bytes();
    match sort {
        Sort::DamagedBytes => damage_bytes(rng, &mut bytes),
        Sort::DamagedGuards if rng.percent(10) => cut_guards(rng, &mut bytes),
        _ => {}
    }
    Sample { bytes, world }
}

/// Beside the guards now and then another table, whose fault is told first.
fn damage_guards_and_more(rng: &mut Rng, records: &mut Records) {
    damage_guards(rng, records);
    match rng.below(10) {
        0 => damage_types(rng, records),
        1 => damage_terms(rng, records),
        2 => damage_shape(rng, records),
        _ => {}
    }
}

fn tree_of(rng: &mut Rng, world: &World, sort: Sort) -> Tree {
    let size = random_size(rng);
    match sort {
        // What is told of the tree is told after the guards, but for nesting.
        Sort::DamagedGuards => {
            let sort = rng.pick(&[Sort::Accepted, Sort::SpoiledOnce, Sort::Wild, Sort::Nested]);
            tree_of(rng, world, sort)
        }
        Sort::Wild => wild(rng, world, size),
        Sort::Nested => nested(rng, world),
        Sort::FunctionAtRoot => {
            let last = world.types.len() as u16 - 1;
            of_type(rng, world, size, last)
        }
        Sort::SpoiledOnce => {
            let mut tree = accepted(rng, world, size);
            spoil_one(rng, world, &mut tree);
            tree
        }
        Sort::SpoiledFamily => {
            let mut tree = accepted(rng, world, size);
            spoil_family(rng, world, &mut tree);
            tree
        }
        _ => accepted(rng, world, size),
    }
}

fn random_size(rng: &mut Rng) -> usize {
    match rng.below(200) {
        0 => rng.between(200, 700),
        1..=9 => rng.between(40, 200),
        _ => rng.between(2, 40),
    }
}

/// The records of a tree, half of the time with its terms in a random order.
pub(crate) fn assemble(rng: &mut Rng, world: &World, tree: &Tree) -> Records {
    let terms = if rng.percent(50) {
        tree.assemble()
    } else {
        tree.assemble_shuffled(rng)
    };
    Records {
        format: world.format(),
        principals: world.principals.clone(),
        types: world.types.clone(),
        terms,
    }
}

/// A tree about as high as nesting allows, with short twigs on the way.
fn nested(rng: &mut Rng, world: &World) -> Tree {
    let levels = rng.between(28, 34);
    let mut tree = number(rng.below(10) as u16);
    while tree.height() + 1 < levels {
        let privilege = world.random_privilege(rng);
        let twig = number(rng.below(10) as u16);
        tree = match rng.below(8) {
            0 => post_to(world.random_channel(rng), tree),
            1 => enable(privilege, tree),
            2 => check(privilege, tree),
            3 => sign(world.random_principal(rng), tree),
            4 => sum(twig, tree),
            5 => difference(tree, twig),
            6 => test(privilege, tree, twig),
            _ => test(privilege, twig, tree),
        };
    }
    sign(world.random_principal(rng), tree)
}
