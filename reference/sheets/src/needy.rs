//! Sheets that need a privilege for something deep inside. Grown from there
//! up to the root, so that a need is often a long way from its cause, with
//! other causes and things that hide them on the way.

use crate::generate::{assemble, Sample};
use crate::records::{TypeRecord, BOOL, CHANNELS, NUMBER, UNGUARDED};
use crate::rng::Rng;
use crate::tree::*;
use crate::world::World;

const MAX_NESTING: usize = 32;

/// Function types from numbers to numbers, by their latent sets: none, the
/// asked privilege, the other one, both.
const LATENT: [u16; 4] = [2, 3, 4, 5];
/// From booleans to numbers, with an empty latent set.
const OF_BOOLEAN: u16 = 6;

/// The root's principal, who may use both privileges, and one who may use
/// the other one alone.
const ABLE: u8 = 0;
const HALF_ABLE: u8 = 1;

/// A channel that nothing guards; in version 2, one that the asked privilege
/// guards, and one that the other does.
const OPEN: u8 = 0;
const PAGE: u8 = 1;
const OTHER_PAGE: u8 = 2;

/// A sheet that needs the first privilege of its world, unless something on
/// the way has taken it out.
pub fn needing(rng: &mut Rng) -> Sample {
    let noise = rng.pick(&[0, 3, 10, 30, 60]);
    let levels = rng.between(2, MAX_NESTING);
    let (world, tree) = needing_tree(rng, noise, levels);
    let bytes = assemble(rng, &world, &tree).to_bytes();
    Sample { bytes, world }
}

/// Its tree alone. Of a hundred terms on the way `noise` have to do with the
/// privilege.
pub fn needing_tree(rng: &mut Rng, noise: usize, levels: usize) -> (World, Tree) {
    let [query, other] = two_privileges(rng);
    let world = world(rng, query, other);
    let mut nest = Nest {
        rng,
        query,
        other,
        has_pages: world.guards.is_some(),
        noise,
    };
    (world, nest.of_height(levels))
}

fn two_privileges(rng: &mut Rng) -> [u8; 2] {
    let query = rng.below(32);
    let other = (query + rng.between(1, 31)) % 32;
    [query as u8, other as u8]
}

fn world(rng: &mut Rng, query: u8, other: u8) -> World {
    let (p, q) = (1 << query, 1 << other);
    let others = [0, u32::MAX, rng.bits()];
    let rest = rng.pick(&others) & !(p | q);
    let mut types = vec![TypeRecord::bool(), TypeRecord::number()];
    types.extend([0, p, q, p | q].map(|latent| TypeRecord::function(NUMBER, NUMBER, latent)));
    types.push(TypeRecord::function(BOOL, NUMBER, 0));
    let mut guards = [UNGUARDED; CHANNELS];
    guards[usize::from(PAGE)] = query;
    guards[usize::from(OTHER_PAGE)] = other;
    World {
        privileges: vec![query, other],
        principals: vec![p | q | rest, q | rest],
        types,
        guards: rng.percent(50).then_some(guards),
    }
}

struct Nest<'a> {
    rng: &'a mut Rng,
    query: u8,
    other: u8,
    /// Whether the sheet is of version 2.
    has_pages: bool,
    noise: usize,
}

impl Nest<'_> {
    /// A signed tree of numbers and just so many levels, but for a cause that
    /// takes more.
    fn of_height(&mut self, levels: usize) -> Tree {
        let mut tree = self.cause();
        while tree.height() + 1 < levels {
            tree = self.around(tree, levels - 1);
        }
        sign(ABLE, tree)
    }

    fn cause(&mut self) -> Tree {
        match self.rng.below(4) {
            0 => self.needy_call(number(7)),
            1 => self.binder(LATENT[1], number(7)),
            2 => self.needing_post(number(7)),
            _ => check(self.query, number(7)),
        }
    }

    /// In version 1 a check.
    fn needing_post(&mut self, tree: Tree) -> Tree {
        if self.has_pages {
            post_to(PAGE, tree)
        } else {
            check(self.query, tree)
        }
    }

    /// A post that doesn't need the asked privilege.
    fn post(&mut self, tree: Tree) -> Tree {
        let channels: &[u8] = if self.has_pages {
            &[OPEN, OTHER_PAGE]
        } else {
            &[OPEN]
        };
        post_to(self.rng.pick(channels), tree)
    }

    /// Another term around, or a few where the way leads through a boolean,
    /// of no more than so many levels.
    fn around(&mut self, tree: Tree, most: usize) -> Tree {
        if self.rng.percent(self.noise) {
            return self.noisy(tree);
        }
        let twig = self.twig(&tree);
        let harmless = self.rng.pick(&[LATENT[0], LATENT[2]]);
        let has_room = tree.height() + 3 <= most;
        match self.rng.below(15) {
            1 => enable(self.other, tree),
            2 => check(self.other, tree),
            3 => sign(ABLE, tree),
            4 => sum(twig, tree),
            5 => difference(tree, twig),
            6 => when(boolean(true), tree, twig),
            7 => when(boolean(false), twig, tree),
            8 => test(self.other, tree, twig),
            9 => test(self.rng.pick(&[self.query, self.other]), twig, tree),
            10 => call(self.function(harmless), tree),
            11 => self.binder(harmless, tree),
            12 if has_room => when(less(twig, tree), number(1), number(2)),
            13 if has_room => call(self.function(OF_BOOLEAN), less(tree, twig)),
            14 if has_room => self.chosen_and_called(tree),
            _ => self.post(tree),
        }
    }

    /// A call whose function part has the need.
    fn chosen_and_called(&mut self, tree: Tree) -> Tree {
        let condition = less(tree, number(3));
        let [one, another] = [self.function(LATENT[0]), self.function(LATENT[0])];
        call(when(condition, one, another), number(4))
    }

    /// A term that is a cause itself or takes the need out, or that has
    /// another cause beside.
    fn noisy(&mut self, tree: Tree) -> Tree {
        let twig = self.needing_twig(&tree);
        match self.rng.below(13) {
            0 => check(self.query, tree),
            1 => self.needy_call(tree),
            2 => self.binder(LATENT[1], tree),
            3 => enable(self.query, tree),
            4 => test(self.query, tree, number(0)),
            5 => test(self.query, tree, twig),
            6 => test(self.query, twig, tree),
            7 => test(self.other, twig, tree),
            8 => when(boolean(false), twig, tree),
            9 => call(check(self.query, self.function(LATENT[0])), tree),
            10 => difference(tree, twig),
            11 => self.needing_post(tree),
            _ => sum(twig, tree),
        }
    }

    /// Something small, no higher than the tree, that mostly has nothing to
    /// do with the privilege.
    fn twig(&mut self, tree: &Tree) -> Tree {
        let query = self.query;
        let twig = match self.rng.below(12) {
            0 => enable(query, check(query, number(1))),
            1 => test(query, check(query, number(1)), number(2)),
            2 => check(self.other, number(1)),
            3 => call(self.function(LATENT[0]), number(1)),
            4 => sign(HALF_ABLE, check(self.other, number(2))),
            5 => enable(query, self.needy_call(number(2))),
            6 => enable(query, self.needing_post(number(2))),
            7 if self.rng.percent(self.noise) => self.needing_twig(tree),
            _ => number(1),
        };
        if twig.height() > tree.height() {
            return number(3);
        }
        twig
    }

    fn needing_twig(&mut self, tree: &Tree) -> Tree {
        let twig = self.cause();
        if twig.height() > tree.height() {
            return check(self.query, number(5));
        }
        twig
    }

    fn needy_call(&mut self, argument: Tree) -> Tree {
        let ty = self.rng.pick(&[LATENT[1], LATENT[3]]);
        call(self.function(ty), argument)
    }

    /// A function whose body needs nothing; its type may say more.
    fn function(&mut self, ty: u16) -> Tree {
        let value = self.rng.below(10) as u16;
        function(ty, sign(self.rng.pick(&[ABLE, HALF_ABLE]), number(value)))
    }

    fn binder(&mut self, ty: u16, rest: Tree) -> Tree {
        letrec(ty, sign(ABLE, variable(0)), rest)
    }
}
