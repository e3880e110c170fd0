//! Changes to a tree that leave it readable but break a rule, as a rule.

use crate::rng::Rng;
use crate::tree::*;
use crate::wild::{fault, wild_part};
use crate::world::World;

/// Makes one change somewhere.
pub fn spoil_one(rng: &mut Rng, world: &World, root: &mut Tree) {
    let index = rng.below(root.size());
    Spoiler { rng, world }.change(root.nth_mut(index));
}

/// Makes two or more changes to one term and its children, so that it matters
/// which fault is told.
pub fn spoil_family(rng: &mut Rng, world: &World, root: &mut Tree) {
    let index = rng.below(root.size());
    let parent = root.nth_mut(index);
    let kind = parent.kind;
    let mut spoiler = Spoiler { rng, world };
    for (place, child) in parent.children.iter_mut().enumerate() {
        if spoiler.rng.percent(60) {
            // A body has to stay a sign.
            let is_body = kind.has_body() && place == 0;
            let target = if is_body {
                &mut child.children[0]
            } else {
                child
            };
            *target = fault(spoiler.rng, world);
        }
    }
    spoiler.change(parent);
}

struct Spoiler<'a> {
    rng: &'a mut Rng,
    world: &'a World,
}

impl Spoiler<'_> {
    fn change(&mut self, tree: &mut Tree) {
        match tree.kind {
            // A sign may be the root or a body, so it stays one.
            Kind::Sign => tree.small = self.world.random_principal(self.rng),
            _ if self.rng.percent(25) => self.replace(tree),
            Kind::Bool => *tree = number(tree.small.into()),
            Kind::Number => *tree = boolean(tree.number % 2 == 1),
            Kind::Variable => tree.number = self.other_index(tree.number),
            Kind::Function | Kind::Letrec if self.rng.percent(60) => self.change_type(tree),
            Kind::Function | Kind::Letrec => self.burden(&mut tree.children[0]),
            Kind::Check | Kind::Enable => self.change_guard(tree),
            Kind::Test if self.rng.percent(50) => self.change_privilege(tree),
            Kind::If => tree.children.rotate_left(1),
            Kind::Call | Kind::Test => tree.children.swap(0, 1),
            Kind::Sum | Kind::Difference | Kind::Less => {
                tree.kind = self.rng.pick(&[Kind::Sum, Kind::Less, Kind::Call]);
            }
            Kind::Post if self.world.guards.is_some() && self.rng.percent(60) => {
                tree.small = self.world.random_channel(self.rng);
            }
            Kind::Post => *tree = tree.children.remove(0),
        }
    }

    fn replace(&mut self, tree: &mut Tree) {
        let old = std::mem::replace(tree, number(0));
        let privilege = self.world.random_privilege(self.rng);
        *tree = match self.rng.below(5) {
            0 => fault(self.rng, self.world),
            1 => check(privilege, old),
            2 => post_to(self.world.random_channel(self.rng), old),
            3 => sign(self.world.random_principal(self.rng), old),
            _ => wild_part(self.rng, self.world, 2, old.size().min(10)),
        };
    }

    fn other_index(&mut self, index: u16) -> u16 {
        match self.rng.below(4) {
            0 => index.wrapping_sub(1),
            1 => self.rng.below(5) as u16,
            _ => index.wrapping_add(1),
        }
    }

    /// Gives a function or binder another type, often one close to its own.
    fn change_type(&mut self, tree: &mut Tree) {
        let close = self.world.relative(self.rng, tree.number);
        let any = self.world.random_function_type(self.rng);
        tree.number = self.rng.pick(&[close, any.unwrap_or(close)]);
    }

    /// Makes a body need more.
    fn burden(&mut self, body: &mut Tree) {
        let inner = body.children.remove(0);
        let privilege = self.world.random_privilege(self.rng);
        body.children.push(check(privilege, inner));
    }

    fn change_privilege(&mut self, tree: &mut Tree) {
        tree.small = self.world.random_privilege(self.rng);
    }

    /// A check or an enable is dropped, exchanged or given other work.
    fn change_guard(&mut self, tree: &mut Tree) {
        match self.rng.below(3) {
            0 => *tree = tree.children.remove(0),
            1 => self.change_privilege(tree),
            _ if tree.kind == Kind::Check => tree.kind = Kind::Enable,
            _ => tree.kind = Kind::Check,
        }
    }
}
