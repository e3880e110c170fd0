//! Trees that the rules accept, grown from the type and the needs that they
//! may have.

use crate::records::{BOOL, NUMBER};
use crate::rng::Rng;
use crate::tree::*;
use crate::world::World;

const MAX_NESTING: usize = 32;

/// A signed tree of about `size` terms that gives a boolean or a number.
pub fn accepted(rng: &mut Rng, world: &World, size: usize) -> Tree {
    let ty = rng.pick(&[BOOL, NUMBER]);
    of_type(rng, world, size, ty)
}

/// The same without a test in it.
pub fn accepted_without_tests(rng: &mut Rng, world: &World, size: usize) -> Tree {
    let ty = rng.pick(&[BOOL, NUMBER]);
    let mut grower = Grower::new(rng, world);
    grower.has_tests = false;
    grower.root(ty, size)
}

/// A signed tree of about `size` terms without faults but, if `ty` is a
/// function's, that of the root.
pub fn of_type(rng: &mut Rng, world: &World, size: usize, ty: u16) -> Tree {
    Grower::new(rng, world).root(ty, size)
}

struct Grower<'a> {
    rng: &'a mut Rng,
    world: &'a World,
    /// The types of the variables in scope, the nearest last.
    bindings: Vec<u16>,
    /// Whether tests may grow.
    has_tests: bool,
}

/// Where a term is to grow.
#[derive(Clone, Copy)]
struct Site {
    /// What the signing principal may use.
    signer: u32,
    /// What the term may need.
    allowed: u32,
    /// How many levels of nesting are left, the term's own included.
    levels: usize,
    /// How many terms to spend, roughly.
    size: usize,
}

impl Site {
    /// A level further down, with `size` terms to spend.
    fn below(self, size: usize) -> Self {
        Self {
            levels: self.levels.saturating_sub(1),
            size,
            ..self
        }
    }

    fn allowing(self, allowed: u32) -> Self {
        Self { allowed, ..self }
    }
}

impl<'a> Grower<'a> {
    fn new(rng: &'a mut Rng, world: &'a World) -> Self {
        Self {
            rng,
            world,
            bindings: Vec::new(),
            has_tests: true,
        }
    }
}

impl Grower<'_> {
    fn root(&mut self, ty: u16, size: usize) -> Tree {
        let everywhere = Site {
            signer: 0,
            allowed: u32::MAX,
            levels: MAX_NESTING,
            size,
        };
        self.signed(ty, everywhere)
    }

    fn grow(&mut self, ty: u16, site: Site) -> Tree {
        let has_room = site.levels > self.world.least_height(ty);
        if site.size > 1 && has_room {
            for _ in 0..4 {
                if let Some(tree) = self.compound(ty, site) {
                    return tree;
                }
            }
        }
        self.leaf(ty, site)
    }

    fn compound(&mut self, ty: u16, site: Site) -> Option<Tree> {
        let is_function = self.world.ty(ty).is_function();
        match self.rng.below(16) {
            0 => Some(self.conditional(ty, site)),
            1 if self.has_tests => Some(self.test(ty, site)),
            2 | 3 => self.check(ty, site),
            4 | 5 => Some(self.enable(ty, site)),
            6 => Some(self.signed(ty, site)),
            7..=9 => self.call(ty, site),
            10 => self.letrec(ty, site),
            11 => self.countdown(ty, site),
            // More often than for others: only functions of two types fit.
            12 if is_function => Some(self.conditional(ty, site)),
            13 if is_function && self.has_tests => Some(self.test(ty, site)),
            _ => Some(self.of_own_kind(ty, site)),
        }
    }

    /// A variable if there is one, else the shortest term of this type.
    fn leaf(&mut self, ty: u16, site: Site) -> Tree {
        if self.rng.percent(70) {
            if let Some(variable) = self.variable(ty) {
                return variable;
            }
        }
        match ty {
            BOOL => boolean(self.rng.percent(50)),
            NUMBER => number(self.value()),
            _ => self.function(ty, site),
        }
    }

    fn value(&mut self) -> u16 {
        match self.rng.below(10) {
            0 => self.rng.bits() as u16,
            1 => self.rng.pick(&[65_535, 65_534, 32_768, 256, 255]),
            _ => self.rng.below(6) as u16,
        }
    }

    fn variable(&mut self, ty: u16) -> Option<Tree> {
        let indices: Vec<u16> = (0..)
            .zip(self.bindings.iter().rev())
            .filter(|&(_, &bound)| bound == ty)
            .map(|(index, _)| index)
            .collect();
        self.rng.pick_any(&indices).map(variable)
    }

    /// A term that only this type has.
    fn of_own_kind(&mut self, ty: u16, site: Site) -> Tree {
        match ty {
            BOOL => self.of_two_numbers(less, site),
            NUMBER => match self.rng.below(15) {
                0 => self.sum_at_the_limit(),
                1 => self.difference_at_the_limit(),
                2..=5 => self.of_two_numbers(sum, site),
                6..=9 => self.of_two_numbers(difference, site),
                _ => self.post(site),
            },
            _ => self.function(ty, site),
        }
    }

    /// A post to a channel whose guard may be needed, by preference to one that
    /// has a guard. If there is none, a sum.
    fn post(&mut self, site: Site) -> Tree {
        let world = self.world;
        let may_need = |channel: &u8| match world.guard(*channel) {
            Some(guard) => site.allowed >> guard & 1 == 1,
            None => true,
        };
        let open: Vec<u8> = world.channels().filter(may_need).collect();
        let has_guard = |channel: &u8| world.guard(*channel).is_some();
        let guarded: Vec<u8> = open.iter().copied().filter(has_guard).collect();
        let channel = match self.rng.pick_any(&guarded) {
            Some(channel) if self.rng.percent(60) => Some(channel),
            _ => self.rng.pick_any(&open),
        };
        match channel {
            Some(channel) => post_to(channel, self.grow(NUMBER, site.below(site.size - 1))),
            None => self.of_two_numbers(sum, site),
        }
    }

    fn of_two_numbers(&mut self, make: fn(Tree, Tree) -> Tree, site: Site) -> Tree {
        let [left, right] = self.split(site);
        make(self.grow(NUMBER, left), self.grow(NUMBER, right))
    }

    /// Its exact result is the highest number, or one more.
    fn sum_at_the_limit(&mut self) -> Tree {
        let left = self.rng.between(1, 65_535);
        let right = 65_535 - left + self.rng.below(2);
        sum(number(left as u16), number(right as u16))
    }

    /// Its exact result is 0, or one less.
    fn difference_at_the_limit(&mut self) -> Tree {
        let left = self.rng.below(65_535);
        let right = left + self.rng.below(2);
        difference(number(left as u16), number(right as u16))
    }

    fn conditional(&mut self, ty: u16, site: Site) -> Tree {
        let [yes, no] = self.branch_types(ty, site);
        let [condition, branches] = self.split(site);
        let branch = site.below(branches.size / 2);
        when(
            self.grow(BOOL, condition),
            self.grow(yes, branch),
            self.grow(no, branch),
        )
    }

    /// The yes-branch may need what is tested, and often needs it at once.
    fn test(&mut self, ty: u16, site: Site) -> Tree {
        let [yes_type, no_type] = self.branch_types(ty, site);
        let privilege = self.world.random_privilege(self.rng);
        let [yes, no] = self.split(site);
        let yes = yes.allowing(yes.allowed | 1 << privilege);
        let has_room = yes.levels > self.world.least_height(yes_type);
        let yes = if has_room && self.rng.percent(50) {
            self.needing(privilege, yes_type, yes)
        } else {
            self.grow(yes_type, yes)
        };
        test(privilege, yes, self.grow(no_type, no))
    }

    /// The types of two branches, of which `ty` is the wider: one has it, the
    /// other a type that fits it.
    fn branch_types(&mut self, ty: u16, site: Site) -> [u16; 2] {
        let other = self.fitting(ty, site).unwrap_or(ty);
        if self.rng.percent(50) {
            [ty, other]
        } else {
            [other, ty]
        }
    }

    fn check(&mut self, ty: u16, site: Site) -> Option<Tree> {
        let privilege = self.world.random_privilege(self.rng);
        let allowed = site.allowed >> privilege & 1 == 1;
        allowed.then(|| self.needing(privilege, ty, site))
    }

    /// A check, or a post to a channel that the privilege guards.
    fn needing(&mut self, privilege: u8, ty: u16, site: Site) -> Tree {
        let inner = site.below(site.size.saturating_sub(1));
        let channels = self.world.channels();
        let guarded: Vec<u8> = channels
            .filter(|&channel| self.world.guard(channel) == Some(privilege))
            .collect();
        match self.rng.pick_any(&guarded) {
            Some(channel) if ty == NUMBER && self.rng.percent(50) => {
                post_to(channel, self.grow(NUMBER, inner))
            }
            _ => check(privilege, self.grow(ty, inner)),
        }
    }

    fn enable(&mut self, ty: u16, site: Site) -> Tree {
        let privilege = self.world.random_privilege(self.rng);
        let enabled = 1 << privilege & site.signer;
        let inner = site.below(site.size - 1).allowing(site.allowed | enabled);
        enable(privilege, self.grow(ty, inner))
    }

    fn signed(&mut self, ty: u16, site: Site) -> Tree {
        let principal = self.world.random_principal(self.rng);
        let signer = self.world.authorised(principal);
        let inner = Site {
            signer,
            allowed: site.allowed & signer,
            ..site.below(site.size.saturating_sub(1))
        };
        sign(principal, self.grow(ty, inner))
    }

    fn function(&mut self, ty: u16, site: Site) -> Tree {
        let record = self.world.ty(ty);
        let body = site
            .below(site.size.saturating_sub(1))
            .allowing(record.latent);
        function(
            ty,
            self.under(&[record.argument], |grower| {
                grower.signed(record.result, body)
            }),
        )
    }

    /// Any function that gives `ty`, on any argument that fits.
    fn call(&mut self, ty: u16, site: Site) -> Option<Tree> {
        let callee = self.callee(ty, site)?;
        let given = self.fitting(self.world.ty(callee).argument, site)?;
        let [function, argument] = self.split(site);
        Some(call(
            self.grow(callee, function),
            self.grow(given, argument),
        ))
    }

    /// A type that fits the one asked, by preference another one.
    fn fitting(&mut self, query: u16, site: Site) -> Option<u16> {
        let fitting: Vec<u16> = (0..self.world.types.len() as u16)
            .filter(|&given| given != query && self.world.fits(given, query))
            .filter(|&given| self.has_height(given, site))
            .collect();
        if let (true, Some(given)) = (self.rng.percent(70), self.rng.pick_any(&fitting)) {
            return Some(given);
        }
        self.has_height(query, site).then_some(query)
    }

    /// A function type whose calls give `ty` and need no more than allowed,
    /// by preference one that a variable has.
    fn callee(&mut self, ty: u16, site: Site) -> Option<u16> {
        let world = self.world;
        let callable = |callee: &u16| {
            let record = world.ty(*callee);
            record.is_function() && record.result == ty && record.latent & !site.allowed == 0
        };
        let bound: Vec<u16> = self.bindings.iter().copied().filter(callable).collect();
        if let (true, Some(callee)) = (self.rng.percent(60), self.rng.pick_any(&bound)) {
            return Some(callee);
        }
        let known: Vec<u16> = world
            .function_types()
            .filter(|callee| callable(callee) && self.has_height(*callee, site))
            .collect();
        self.rng.pick_any(&known)
    }

    fn letrec(&mut self, ty: u16, site: Site) -> Option<Tree> {
        let bound = self.bindable(site, |_| true)?;
        let record = self.world.ty(bound);
        let [body, rest] = self.split(site);
        let body = self.under(&[bound, record.argument], |grower| {
            grower.signed(record.result, body.allowing(record.latent))
        });
        let rest = self.under(&[bound], |grower| grower.grow(ty, rest));
        Some(letrec(bound, body, rest))
    }

    /// A function that calls itself on ever lower numbers, and its call.
    fn countdown(&mut self, ty: u16, site: Site) -> Option<Tree> {
        const OWN_LEVELS: usize = 6;
        if site.levels < OWN_LEVELS + self.world.least_height(ty) {
            return None;
        }
        let world = self.world;
        let bound = self.bindable(site, |bound| {
            let record = world.ty(bound);
            record.argument == NUMBER && record.result == ty
        })?;
        let latent = world.ty(bound).latent;
        let signers: Vec<u8> = (0..world.principals.len() as u8)
            .filter(|&principal| latent & !world.authorised(principal) == 0)
            .collect();
        let signer = self.rng.pick_any(&signers)?;
        let inner = Site {
            signer: world.authorised(signer),
            allowed: latent,
            levels: site.levels - OWN_LEVELS,
            size: site.size / 2,
        };
        let body = self.under(&[bound, NUMBER], |grower| grower.countdown_body(ty, inner));
        let rounds = self.rng.pick(&[0, 1, 2, 3, 5, 9, 40, 99, 100]);
        Some(letrec(
            bound,
            sign(signer, body),
            call(variable(0), number(rounds)),
        ))
    }

    fn countdown_body(&mut self, ty: u16, site: Site) -> Tree {
        let again = || call(variable(1), difference(variable(0), number(1)));
        let base = self.grow(ty, site.below(1));
        let step = match ty {
            NUMBER if self.rng.percent(40) => sum(again(), again()),
            NUMBER => sum(self.grow(NUMBER, site), again()),
            _ => when(self.grow(BOOL, site), again(), self.grow(ty, site.below(1))),
        };
        when(less(variable(0), number(1)), base, step)
    }

    /// A function type that a binder may have here.
    fn bindable(&mut self, site: Site, wanted: impl Fn(u16) -> bool) -> Option<u16> {
        let known: Vec<u16> = self
            .world
            .function_types()
            .filter(|&bound| self.world.ty(bound).latent & !site.allowed == 0)
            .filter(|&bound| self.has_height(bound, site) && wanted(bound))
            .collect();
        self.rng.pick_any(&known)
    }

    /// Whether a child here may have this type without nesting too deep.
    fn has_height(&self, ty: u16, site: Site) -> bool {
        self.world.least_height(ty) < site.levels
    }

    fn under<T>(&mut self, bindings: &[u16], grow: impl FnOnce(&mut Self) -> T) -> T {
        let outside = self.bindings.len();
        self.bindings.extend_from_slice(bindings);
        let grown = grow(self);
        self.bindings.truncate(outside);
        grown
    }

    /// The sites of two children.
    fn split(&mut self, site: Site) -> [Site; 2] {
        let rest = site.size.saturating_sub(1);
        let left = self.rng.between(0, rest);
        [site.below(left), site.below(rest - left)]
    }
}
