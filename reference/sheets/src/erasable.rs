//! Sheets that have a lean form: of version 1 and without tests, most of them
//! with much in them that is left out there.

use crate::generate::{assemble, Sample};
use crate::grow::accepted_without_tests;
use crate::rng::Rng;
use crate::tree::*;
use crate::world::World;

const MAX_NESTING: usize = 32;

/// A sheet that the rules accept, unless it is too large.
pub fn erasable(rng: &mut Rng) -> Sample {
    let mut world = World::random(rng);
    world.guards = None;
    let size = rng.pick(&[10, 20, 20, 40, 40, 80, 200]);
    let tree = accepted_without_tests(rng, &world, size);
    let burden = rng.pick(&[0, 5, 20, 50]);
    let tree = burdened(rng, &world, tree, burden);
    let bytes = assemble(rng, &world, &tree).to_bytes();
    Sample { bytes, world }
}

/// The tree with checks and enables around so many of a hundred terms, as the
/// rules allow them anywhere. If that nests too deep, the tree as it was.
fn burdened(rng: &mut Rng, world: &World, tree: Tree, burden: usize) -> Tree {
    let mut porter = Porter { rng, world, burden };
    let laden = porter.lade(&tree, 0);
    if laden.height() > MAX_NESTING {
        return tree;
    }
    laden
}

struct Porter<'a> {
    rng: &'a mut Rng,
    world: &'a World,
    burden: usize,
}

impl Porter<'_> {
    /// All that is below a term; `signer` is what the signing principal may
    /// use.
    fn lade(&mut self, tree: &Tree, signer: u32) -> Tree {
        let signer = match tree.kind {
            Kind::Sign => self.world.authorised(tree.small),
            _ => signer,
        };
        let mut laden = tree.clone();
        for (place, child) in tree.children.iter().enumerate() {
            let child = self.lade(child, signer);
            // A body has to stay a sign.
            let is_body = tree.kind.has_body() && place == 0;
            laden.children[place] = match !is_body && self.rng.percent(self.burden) {
                true => self.around(child, signer),
                false => child,
            };
        }
        laden
    }

    /// A check needs something, so an enable takes that out.
    fn around(&mut self, tree: Tree, signer: u32) -> Tree {
        let layers = self.rng.pick(&[1, 1, 1, 2, 3]);
        (0..layers).fold(tree, |inner, _| {
            let privilege = self.world.random_privilege(self.rng);
            let may_use = signer >> privilege & 1 == 1;
            match may_use && self.rng.percent(60) {
                true => enable(privilege, check(privilege, inner)),
                false => enable(privilege, inner),
            }
        })
    }
}
