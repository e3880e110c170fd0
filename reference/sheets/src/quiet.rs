//! Sheets that have much to do with a privilege and don't name it in a check, a
//! test or the guard of a post, or do so in one of these ways alone.

use crate::generate::{assemble, Sample};
use crate::grow::accepted;
use crate::records::UNGUARDED;
use crate::rng::Rng;
use crate::spoil::spoil_one;
use crate::tree::{Kind, Tree};
use crate::wild::wild;
use crate::world::World;

/// A sheet, and the privilege. Most sheets enable it, and have it in latent
/// sets and in the guards of channels that nothing is posted to.
pub fn quiet(rng: &mut Rng) -> (Sample, u8) {
    let mut world = World::random(rng);
    let query = world.random_privilege(rng);
    let size = rng.pick(&[5, 10, 20, 20, 40, 80]);
    let mut tree = match rng.below(10) {
        0..=5 => accepted(rng, &world, size),
        6 | 7 => wild(rng, &world, size),
        _ => {
            let mut tree = accepted(rng, &world, size);
            spoil_one(rng, &world, &mut tree);
            tree
        }
    };
    open_a_channel(&mut world, query);
    let naming = rng.pick(&[
        None,
        None,
        None,
        None,
        Some(Kind::Check),
        Some(Kind::Test),
        Some(Kind::Post),
    ]);
    let mut silencer = Silencer {
        rng,
        world: &world,
        query,
        naming,
    };
    silencer.silence(&mut tree);
    let bytes = assemble(rng, &world, &tree).to_bytes();
    (Sample { bytes, world }, query)
}

/// Posts have to go somewhere.
fn open_a_channel(world: &mut World, query: u8) {
    if let Some(guards) = &mut world.guards {
        if guards.iter().all(|&guard| guard == query) {
            guards[0] = UNGUARDED;
        }
    }
}

struct Silencer<'a> {
    rng: &'a mut Rng,
    world: &'a World,
    query: u8,
    /// The one kind of terms that may name the privilege.
    naming: Option<Kind>,
}

impl Silencer<'_> {
    fn silence(&mut self, tree: &mut Tree) {
        if self.naming != Some(tree.kind) {
            match tree.kind {
                Kind::Check if tree.small == self.query => self.change_check(tree),
                Kind::Test if tree.small == self.query => tree.small = self.another(),
                Kind::Post if self.world.guard(tree.small) == Some(self.query) => {
                    tree.small = self.other_channel();
                }
                _ => {}
            }
        }
        for child in &mut tree.children {
            self.silence(child);
        }
    }

    fn change_check(&mut self, tree: &mut Tree) {
        match self.rng.percent(70) {
            true => tree.kind = Kind::Enable,
            false => tree.small = self.another(),
        }
    }

    /// Another privilege, of the world by preference.
    fn another(&mut self) -> u8 {
        let query = self.query;
        let others = self.world.privileges.iter().copied();
        let others: Vec<u8> = others.filter(|&it| it != query).collect();
        let any = (usize::from(query) + self.rng.between(1, 31)) % 32;
        self.rng.pick_any(&others).unwrap_or(any as u8)
    }

    fn other_channel(&mut self) -> u8 {
        let query = self.query;
        let channels = self.world.channels();
        let others: Vec<u8> = channels
            .filter(|&channel| self.world.guard(channel) != Some(query))
            .collect();
        self.rng.pick(&others)
    }
}
