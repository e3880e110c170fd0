//! Sheets of sums and differences whose exact results lie about the limits.
//! They are drawn from the bottom up by what they come to, so that it is known
//! without an implementation.

use crate::cases::{with_functions, FIRST_FUNCTION};
use crate::records::{TypeRecord, NUMBER};
use crate::rng::Rng;
use crate::tree::*;

const HIGHEST: i32 = 65_535;

/// How deep what is drawn is nested at most, below the root.
const LEVELS: usize = 8;

/// The exact result of a sum or a difference that is evaluated.
#[derive(Clone, Copy, Debug, PartialEq, Eq)]
pub enum Exact {
    Sum(i32),
    Difference(i32),
}

/// A sheet that ends in a number, and what its runs come to.
#[derive(Clone, Debug)]
pub struct Sums {
    pub sheet: Vec<u8>,
    pub value: u16,
    pub exact: Vec<Exact>,
    /// Each takes a cell.
    pub calls: u32,
    pub posts: Vec<u16>,
}

impl Exact {
    /// Whether it is outside 0 to 65,535.
    pub fn is_held(self) -> bool {
        let (Exact::Sum(exact) | Exact::Difference(exact)) = self;
        !(0..=HIGHEST).contains(&exact)
    }
}

pub fn random(rng: &mut Rng) -> Sums {
    let mut drawer = Drawer {
        rng,
        bound: Vec::new(),
        exact: Vec::new(),
        calls: 0,
        posts: Vec::new(),
    };
    let Drawn { tree, value } = drawer.draw(LEVELS);
    let functions = [TypeRecord::function(NUMBER, NUMBER, 0)];
    Sums {
        sheet: with_functions(&[0], &functions, sign(0, tree)),
        value: value as u16,
        exact: drawer.exact,
        calls: drawer.calls,
        posts: drawer.posts,
    }
}

/// A tree that is evaluated where it was drawn, and its number.
struct Drawn {
    tree: Tree,
    value: i32,
}

/// Draws in the order of evaluation, and notes what happens then.
struct Drawer<'a> {
    rng: &'a mut Rng,
    /// The numbers of the variables in scope, the nearest last.
    bound: Vec<i32>,
    exact: Vec<Exact>,
    calls: u32,
    posts: Vec<u16>,
}

impl Drawer<'_> {
    fn draw(&mut self, levels: usize) -> Drawn {
        if levels < 4 {
            return self.leaf();
        }
        let below = levels - 1;
        match self.rng.below(20) {
            0 => self.leaf(),
            1..=4 => self.sum_about_the_limit(below),
            5..=8 => self.difference_about_the_limit(below),
            9..=11 => {
                let [left, right] = [self.draw(below), self.draw(below)];
                self.sum(left, right)
            }
            12..=14 => {
                let [left, right] = [self.draw(below), self.draw(below)];
                self.difference(left, right)
            }
            15 => self.conditional(below),
            16 | 17 => self.call(below),
            18 => self.post(below),
            _ => {
                let inner = self.draw(below);
                Drawn {
                    tree: sign(0, inner.tree),
                    ..inner
                }
            }
        }
    }

    /// A variable or a number, low or high.
    fn leaf(&mut self) -> Drawn {
        if !self.bound.is_empty() && self.rng.percent(50) {
            let index = self.rng.below(self.bound.len());
            return Drawn {
                tree: variable(index as u16),
                value: self.bound[self.bound.len() - 1 - index],
            };
        }
        let value = match self.rng.below(4) {
            0 => self.rng.below(65_536) as i32,
            1 => self.rng.pick(&[0, 1, 32_767, 32_768, HIGHEST - 1, HIGHEST]),
            2 => self.rng.below(10) as i32,
            _ => HIGHEST - self.rng.below(10) as i32,
        };
        literal(value)
    }

    /// One operand is drawn, and the other is the number that brings the exact
    /// result to the limit or next to it.
    fn sum_about_the_limit(&mut self, levels: usize) -> Drawn {
        let drawn = self.draw(levels);
        let other = HIGHEST - drawn.value + self.next_to_it();
        let other = literal(other.clamp(0, HIGHEST));
        if self.rng.percent(50) {
            self.sum(drawn, other)
        } else {
            self.sum(other, drawn)
        }
    }

    fn difference_about_the_limit(&mut self, levels: usize) -> Drawn {
        let drawn = self.draw(levels);
        let other = literal((drawn.value + self.next_to_it()).clamp(0, HIGHEST));
        if self.rng.percent(50) {
            self.difference(drawn, other)
        } else {
            self.difference(other, drawn)
        }
    }

    fn next_to_it(&mut self) -> i32 {
        self.rng.pick(&[-1, 0, 0, 1, 1])
    }

    fn sum(&mut self, left: Drawn, right: Drawn) -> Drawn {
        let exact = left.value + right.value;
        self.exact.push(Exact::Sum(exact));
        Drawn {
            tree: sum(left.tree, right.tree),
            value: exact.min(HIGHEST),
        }
    }

    fn difference(&mut self, left: Drawn, right: Drawn) -> Drawn {
        let exact = left.value - right.value;
        self.exact.push(Exact::Difference(exact));
        Drawn {
            tree: difference(left.tree, right.tree),
            value: exact.max(0),
        }
    }

    /// Of the branch that isn't chosen nothing happens.
    fn conditional(&mut self, levels: usize) -> Drawn {
        let [left, right] = [self.draw(levels - 1), self.draw(levels - 1)];
        let is_less = left.value < right.value;
        let condition = less(left.tree, right.tree);
        let chosen = self.draw(levels);
        let before = (self.exact.len(), self.calls, self.posts.len());
        let other = self.draw(levels);
        self.exact.truncate(before.0);
        self.calls = before.1;
        self.posts.truncate(before.2);
        let tree = match is_less {
            true => when(condition, chosen.tree, other.tree),
            false => when(condition, other.tree, chosen.tree),
        };
        Drawn { tree, ..chosen }
    }

    /// Of a function whose body knows the argument.
    fn call(&mut self, levels: usize) -> Drawn {
        let argument = self.draw(levels);
        self.calls += 1;
        self.bound.push(argument.value);
        let body = self.draw(levels - 2);
        self.bound.pop();
        let function = function(FIRST_FUNCTION, sign(0, body.tree));
        Drawn {
            tree: call(function, argument.tree),
            value: body.value,
        }
    }

    fn post(&mut self, levels: usize) -> Drawn {
        let inner = self.draw(levels);
        self.posts.push(inner.value as u16);
        Drawn {
            tree: post(inner.tree),
            ..inner
        }
    }
}

fn literal(value: i32) -> Drawn {
    Drawn {
        tree: number(value as u16),
        value,
    }
}
