//! What terms are drawn around: principals, types, guards, and the few
//! privileges that they share, few so that sets meet often.

use crate::records::{Format, Guards, TypeRecord, BOOL, CHANNELS, NUMBER, UNGUARDED};
use crate::rng::Rng;

/// How deep types may be nested.
const MAX_DEPTH: usize = 12;

#[derive(Clone, Debug)]
pub struct World {
    pub privileges: Vec<u8>,
    pub principals: Vec<u32>,
    pub types: Vec<TypeRecord>,
    /// Of a sheet of version 2.
    pub guards: Option<Guards>,
}

impl World {
    pub fn random(rng: &mut Rng) -> Self {
        let mut world = Self::without_functions(rng);
        if rng.percent(55) {
            world.guards = Some(world.random_guards(rng));
        }
        match rng.below(100) {
            0..=2 => world.add_tower(rng),
            3..=32 => world.add_twins(rng),
            _ => {}
        }
        let functions = match rng.below(100) {
            0 => 254,
            1..=5 => rng.between(20, 100),
            _ => rng.between(1, 12),
        };
        let deepest = if rng.percent(10) { MAX_DEPTH } else { 3 };
        for _ in world.types.len() - 2..functions {
            world.add_function(rng, deepest);
        }
        world
    }

    fn without_functions(rng: &mut Rng) -> Self {
        let privileges: Vec<u8> = (0..rng.between(1, 5))
            .map(|_| rng.below(32) as u8)
            .collect();
        let principals = match rng.below(100) {
            0 => 32,
            1..=5 => rng.between(5, 31),
            _ => rng.between(1, 4),
        };
        let mut world = Self {
            privileges,
            principals: Vec::new(),
            types: vec![TypeRecord::bool(), TypeRecord::number()],
            guards: None,
        };
        world.principals = (0..principals)
            .map(|_| world.random_authorised(rng))
            .collect();
        world
    }

    fn random_authorised(&self, rng: &mut Rng) -> u32 {
        match rng.below(10) {
            0 => 0,
            1 => u32::MAX,
            2 => rng.bits(),
            3..=5 => self.random_set(rng, 50),
            _ => self.random_set(rng, 85),
        }
    }

    /// A set of the world's privileges, each there with `percent`.
    pub fn random_set(&self, rng: &mut Rng, percent: usize) -> u32 {
        let mut set = 0;
        for privilege in &self.privileges {
            if rng.percent(percent) {
                set |= 1 << privilege;
            }
        }
        set
    }

    /// Guards of some channels, of all or of none.
    fn random_guards(&self, rng: &mut Rng) -> Guards {
        let percent = rng.pick(&[0, 40, 70, 70, 100]);
        std::array::from_fn(|_| match rng.below(10) {
            _ if !rng.percent(percent) => UNGUARDED,
            0 => rng.below(32) as u8,
            _ => self.random_privilege(rng),
        })
    }

    pub fn format(&self) -> Format {
        match &self.guards {
            Some(guards) => Format::version_2(guards),
            None => Format::version_1(),
        }
    }

    /// The channels that a post may name.
    pub fn channels(&self) -> impl Iterator<Item = u8> {
        let count = if self.guards.is_some() { CHANNELS } else { 1 };
        0..count as u8
    }

    pub fn random_channel(&self, rng: &mut Rng) -> u8 {
        rng.below(self.channels().count()) as u8
    }

    /// The privilege that guards a channel, if one does.
    pub fn guard(&self, channel: u8) -> Option<u8> {
        let guard = self.guards?[usize::from(channel)];
        (guard != UNGUARDED).then_some(guard)
    }

    pub fn random_privilege(&self, rng: &mut Rng) -> u8 {
        rng.pick(&self.privileges)
    }

    pub fn random_principal(&self, rng: &mut Rng) -> u8 {
        rng.below(self.principals.len()) as u8
    }

    pub fn random_function_type(&self, rng: &mut Rng) -> Option<u16> {
        let functions: Vec<u16> = self.function_types().collect();
        rng.pick_any(&functions)
    }

    pub fn function_types(&self) -> impl Iterator<Item = u16> + '_ {
        (2..self.types.len()).map(|ty| ty as u16)
    }

    pub fn authorised(&self, principal: u8) -> u32 {
        self.principals[usize::from(principal)]
    }

    pub fn ty(&self, ty: u16) -> TypeRecord {
        self.types[usize::from(ty)]
    }

    /// How deep a type is nested, booleans and numbers counting 0.
    pub fn depth(&self, ty: u16) -> usize {
        let record = self.ty(ty);
        if record.is_function() {
            1 + self.depth(record.argument).max(self.depth(record.result))
        } else {
            0
        }
    }

    /// The least nesting of a term without variables of this type.
    pub fn least_height(&self, ty: u16) -> usize {
        let record = self.ty(ty);
        if record.is_function() {
            2 + self.least_height(record.result)
        } else {
            1
        }
    }

    /// Whether type `a` fits type `b`.
    pub fn fits(&self, a: u16, b: u16) -> bool {
        if a == b {
            return true;
        }
        let (a, b) = (self.ty(a), self.ty(b));
        a.is_function()
            && b.is_function()
            && a.latent & !b.latent == 0
            && self.fits(b.argument, a.argument)
            && self.fits(a.result, b.result)
    }

    pub fn add_function(&mut self, rng: &mut Rng, deepest: usize) {
        for _ in 0..10 {
            let record = if rng.percent(60) {
                self.variant_of_function(rng)
            } else {
                self.fresh_function(rng)
            };
            let depth = 1 + self.depth(record.argument).max(self.depth(record.result));
            if depth <= deepest && !self.types.contains(&record) {
                self.types.push(record);
                return;
            }
        }
    }

    fn fresh_function(&self, rng: &mut Rng) -> TypeRecord {
        let percent = rng.pick(&[0, 30, 70]);
        TypeRecord::function(
            self.random_part(rng),
            self.random_part(rng),
            self.random_set(rng, percent),
        )
    }

    fn random_part(&self, rng: &mut Rng) -> u16 {
        match rng.below(3) {
            0 => BOOL,
            1 => NUMBER,
            _ => rng.below(self.types.len()) as u16,
        }
    }

    /// A function type that differs in one part from another, so that nearly
    /// equal types and subtypes in both directions are common.
    fn variant_of_function(&self, rng: &mut Rng) -> TypeRecord {
        let Some(model) = self.random_function_type(rng) else {
            return self.fresh_function(rng);
        };
        let mut record = self.ty(model);
        match rng.below(3) {
            0 => record.argument = self.relative(rng, record.argument),
            1 => record.result = self.relative(rng, record.result),
            _ => record.latent ^= 1 << self.random_privilege(rng),
        }
        record
    }

    /// Another type that fits `ty` or that `ty` fits, or `ty` if there is none.
    pub fn relative(&self, rng: &mut Rng, ty: u16) -> u16 {
        let relatives: Vec<u16> = self
            .function_types()
            .filter(|&other| other != ty && (self.fits(ty, other) || self.fits(other, ty)))
            .collect();
        rng.pick_any(&relatives).unwrap_or(ty)
    }

    /// Pairs of types of rising depth, each built on the pair below, so that
    /// on every floor one fits the other by way of all the floors below.
    fn add_twins(&mut self, rng: &mut Rng) {
        let other = rng.pick(&[BOOL, NUMBER]);
        let latent = self.random_set(rng, 30);
        let more = latent | 1 << self.random_privilege(rng);
        let mut twins =
            [latent, more].map(|latent| self.add(TypeRecord::function(other, NUMBER, latent)));
        for _ in 0..rng.between(1, 4) {
            let latent = self.random_set(rng, 20);
            let takes_twin = rng.percent(60);
            twins = twins.map(|twin| {
                let (argument, result) = if takes_twin {
                    (twin, other)
                } else {
                    (other, twin)
                };
                self.add(TypeRecord::function(argument, result, latent))
            });
        }
    }

    /// Adds a type, unless it is there, and gives its number.
    fn add(&mut self, record: TypeRecord) -> u16 {
        let known = self.types.iter().position(|&known| known == record);
        let place = known.unwrap_or_else(|| {
            self.types.push(record);
            self.types.len() - 1
        });
        place as u16
    }

    /// Types nested one in the other, up to the limit or just past it.
    fn add_tower(&mut self, rng: &mut Rng) {
        let floors = rng.between(MAX_DEPTH - 2, MAX_DEPTH + 1);
        let mut top = rng.pick(&[BOOL, NUMBER]);
        for _ in 0..floors {
            let other = rng.below(self.types.len()) as u16;
            let (argument, result) = rng.pick(&[(top, other), (other, top)]);
            let latent = self.random_set(rng, 20);
            top = self.types.len() as u16;
            self.types
                .push(TypeRecord::function(argument, result, latent));
        }
    }
}
