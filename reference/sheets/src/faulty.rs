//! Sheets with several faults, of different sizes and under several signs.

use crate::generate::{assemble, Sample};
use crate::grow::{accepted, of_type};
use crate::rng::Rng;
use crate::spoil::{spoil_family, spoil_one};
use crate::tree::*;
use crate::wild::fault;
use crate::world::World;

/// A readable sheet, as a rule, that the rules refuse for up to a few faults.
pub fn faulty(rng: &mut Rng) -> Sample {
    let world = World::random(rng);
    let size = rng.pick(&[4, 8, 15, 15, 30, 60]);
    let mut tree = match rng.below(20) {
        0 => of_type(rng, &world, size, world.types.len() as u16 - 1),
        _ => accepted(rng, &world, size),
    };
    for _ in 0..rng.pick(&[0, 0, 1, 3]) {
        put_sign(rng, &world, &mut tree);
    }
    for _ in 0..rng.pick(&[1, 2, 2, 3, 4, 6]) {
        match rng.below(10) {
            0..=3 => put_fault(rng, &world, &mut tree),
            4 => spoil_family(rng, &world, &mut tree),
            _ => spoil_one(rng, &world, &mut tree),
        }
    }
    let bytes = assemble(rng, &world, &tree).to_bytes();
    Sample { bytes, world }
}

/// A term that isn't the root or a body gets a sign around it, often with an
/// enable below that is of use only if the principal may use the privilege.
fn put_sign(rng: &mut Rng, world: &World, root: &mut Tree) {
    let Some(place) = free_place(rng, root) else {
        return;
    };
    let old = std::mem::replace(place, number(0));
    let privilege = world.random_privilege(rng);
    let inner = match rng.below(3) {
        0 => old,
        1 => enable(privilege, old),
        _ => enable(privilege, check(privilege, old)),
    };
    *place = sign(world.random_principal(rng), inner);
}

/// A term that isn't the root or a body becomes a small faulty one.
fn put_fault(rng: &mut Rng, world: &World, root: &mut Tree) {
    if let Some(place) = free_place(rng, root) {
        *place = fault(rng, world);
    }
}

/// A term that may become any other. The root and bodies have to stay signs.
fn free_place<'a>(rng: &mut Rng, root: &'a mut Tree) -> Option<&'a mut Tree> {
    const TRIES: usize = 4;
    let size = root.size();
    for _ in 0..TRIES {
        let index = rng.between(0, size - 1);
        if root.nth_mut(index).kind != Kind::Sign {
            return Some(root.nth_mut(index));
        }
    }
    None
}
