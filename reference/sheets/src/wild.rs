//! Trees that heed no types. They can be read, and most get stuck somewhere.

use crate::rng::Rng;
use crate::tree::*;
use crate::world::World;

/// A signed tree of about `size` terms.
pub fn wild(rng: &mut Rng, world: &World, size: usize) -> Tree {
    Wild { rng, world }.signed(0, size)
}

/// A tree of about `size` terms for a place with `bindings` variables.
pub fn wild_part(rng: &mut Rng, world: &World, bindings: u16, size: usize) -> Tree {
    Wild { rng, world }.grow(bindings, size)
}

/// The smallest trees that break a rule, whatever their surroundings.
pub fn fault(rng: &mut Rng, world: &World) -> Tree {
    let privilege = world.random_privilege(rng);
    let principal = world.random_principal(rng);
    let channel = world.random_channel(rng);
    match rng.below(11) {
        0 => variable(rng.pick(&[33, 256, 65_535])),
        1 => sum(boolean(true), number(1)),
        2 => when(number(1), number(2), number(3)),
        // Of two faults at one if the condition's is told.
        3 => when(number(1), number(2), boolean(true)),
        4 => call(number(1), variable(400)),
        5 => call(number(1), boolean(true)),
        6 => test(privilege, number(0), boolean(false)),
        7 => post_to(channel, boolean(true)),
        8 => match world.random_function_type(rng) {
            // No function takes functions of its own type.
            Some(ty) => letrec(
                ty,
                sign(principal, call(variable(1), variable(1))),
                number(0),
            ),
            None => post_to(channel, boolean(false)),
        },
        9 => sign(principal, post_to(channel, number(4))),
        _ => sign(principal, check(rng.below(32) as u8, number(4))),
    }
}

struct Wild<'a> {
    rng: &'a mut Rng,
    world: &'a World,
}

impl Wild<'_> {
    fn grow(&mut self, bindings: u16, size: usize) -> Tree {
        if size <= 1 {
            return self.leaf(bindings);
        }
        let privilege = self.world.random_privilege(self.rng);
        let (left, right) = self.split(size);
        match self.rng.below(15) {
            0 => self.leaf(bindings),
            1 => self
                .function(bindings, size - 1)
                .unwrap_or_else(|| self.leaf(bindings)),
            2 | 3 => self
                .letrec(bindings, left, right)
                .unwrap_or_else(|| self.leaf(bindings)),
            4 | 5 => call(self.callee(bindings, left), self.grow(bindings, right)),
            6 => when(
                self.grow(bindings, left),
                self.grow(bindings, right / 2),
                self.grow(bindings, right / 2),
            ),
            7 => check(privilege, self.grow(bindings, size - 1)),
            8 => enable(privilege, self.grow(bindings, size - 1)),
            9 => self.signed(bindings, size),
            10 => test(
                privilege,
                self.grow(bindings, left),
                self.grow(bindings, right),
            ),
            11 => sum(self.grow(bindings, left), self.grow(bindings, right)),
            12 => difference(self.grow(bindings, left), self.grow(bindings, right)),
            13 => less(self.grow(bindings, left), self.grow(bindings, right)),
            _ => {
                let channel = self.world.random_channel(self.rng);
                post_to(channel, self.grow(bindings, size - 1))
            }
        }
    }

    fn signed(&mut self, bindings: u16, size: usize) -> Tree {
        let principal = self.world.random_principal(self.rng);
        sign(principal, self.grow(bindings, size.saturating_sub(1)))
    }

    fn function(&mut self, bindings: u16, size: usize) -> Option<Tree> {
        let ty = self.world.random_function_type(self.rng)?;
        Some(function(ty, self.signed(bindings + 1, size)))
    }

    fn letrec(&mut self, bindings: u16, body: usize, rest: usize) -> Option<Tree> {
        let ty = self.world.random_function_type(self.rng)?;
        let body = self.signed(bindings + 2, body);
        Some(letrec(ty, body, self.grow(bindings + 1, rest)))
    }

    /// Mostly something that can be called.
    fn callee(&mut self, bindings: u16, size: usize) -> Tree {
        if self.rng.percent(60) {
            if let Some(function) = self.function(bindings, size) {
                return function;
            }
        }
        self.grow(bindings, size)
    }

    fn leaf(&mut self, bindings: u16) -> Tree {
        match self.rng.below(8) {
            0 => boolean(self.rng.percent(50)),
            1 | 2 => number(self.rng.below(5) as u16),
            3 => number(self.rng.bits() as u16),
            _ if bindings > 0 && self.rng.percent(95) => {
                variable(self.rng.below(usize::from(bindings)) as u16)
            }
            4 => variable(self.rng.pick(&[bindings, bindings + 1, 255, 65_535])),
            _ => number(1),
        }
    }

    fn split(&mut self, size: usize) -> (usize, usize) {
        let left = self.rng.between(0, size - 1);
        (left, size - 1 - left)
    }
}
