//! A sheet that has been read.

use crate::set::{Privilege, Set};

pub type PrincipalId = u8;
pub type TypeId = u16;
pub type TermId = u16;
pub type ChannelId = u8;

/// How many channels there are to post to.
pub const CHANNELS: usize = 16;

/// For each channel the privilege that guards it, if one does.
pub type Guards = [Option<Privilege>; CHANNELS];

/// The tables of a sheet. The last term is the root.
#[derive(Clone, Debug, PartialEq, Eq)]
pub struct Sheet {
    /// For each principal the privileges it may use.
    pub principals: Vec<Set>,
    pub types: Vec<Type>,
    pub terms: Vec<Term>,
    /// Version 2 has them, and version 1 has not.
    pub guards: Option<Guards>,
}

#[derive(Clone, Copy, Debug, PartialEq, Eq)]
pub enum Type {
    Bool,
    Number,
    Function(FunctionType),
}

#[derive(Clone, Copy, Debug, PartialEq, Eq)]
pub struct FunctionType {
    pub argument: TypeId,
    pub result: TypeId,
    /// What a call of such a function may need.
    pub latent: Set,
}

impl Type {
    /// Every sheet has the boolean as type 0 and the number as type 1.
    pub const BOOL: TypeId = 0;
    pub const NUMBER: TypeId = 1;
}

#[derive(Clone, Copy, Debug, PartialEq, Eq)]
pub enum Term {
    Bool(bool),
    Number(u16),
    /// Counts bindings outwards, 0 being the nearest.
    Variable(u16),
    Function {
        ty: TypeId,
        body: TermId,
    },
    /// Binds a function that may call itself, for `rest`.
    Letrec {
        ty: TypeId,
        body: TermId,
        rest: TermId,
    },
    Call {
        function: TermId,
        argument: TermId,
    },
    If {
        condition: TermId,
        yes: TermId,
        no: TermId,
    },
    Check {
        privilege: Privilege,
        inner: TermId,
    },
    Enable {
        privilege: Privilege,
        inner: TermId,
    },
    Sign {
        principal: PrincipalId,
        inner: TermId,
    },
    Test {
        privilege: Privilege,
        yes: TermId,
        no: TermId,
    },
    Sum(TermId, TermId),
    Difference(TermId, TermId),
    Less(TermId, TermId),
    Post {
        /// In version 1 it is 0.
        channel: ChannelId,
        inner: TermId,
    },
}

impl Sheet {
    pub fn term(&self, id: TermId) -> Term {
        self.terms[usize::from(id)]
    }

    pub fn root(&self) -> TermId {
        (self.terms.len() - 1) as TermId
    }

    /// What principal `id` may use.
    pub fn authorised(&self, id: PrincipalId) -> Set {
        self.principals[usize::from(id)]
    }

    /// The privilege that a post to this channel takes, if it takes one.
    pub fn guard(&self, channel: ChannelId) -> Option<Privilege> {
        self.guards?[usize::from(channel)]
    }

    pub fn function_type(&self, id: TypeId) -> Option<FunctionType> {
        match self.types[usize::from(id)] {
            Type::Function(function) => Some(function),
            Type::Bool | Type::Number => None,
        }
    }
}

impl Term {
    pub fn children(self) -> impl Iterator<Item = TermId> {
        let children = match self {
            Term::Bool(_) | Term::Number(_) | Term::Variable(_) => [None; 3],
            Term::Function { body: only, .. }
            | Term::Check { inner: only, .. }
            | Term::Enable { inner: only, .. }
            | Term::Sign { inner: only, .. }
            | Term::Post { inner: only, .. } => [Some(only), None, None],
            Term::Letrec { body, rest, .. } => [Some(body), Some(rest), None],
            Term::Call { function, argument } => [Some(function), Some(argument), None],
            Term::If { condition, yes, no } => [Some(condition), Some(yes), Some(no)],
            Term::Test { yes, no, .. } => [Some(yes), Some(no), None],
            Term::Sum(left, right) | Term::Difference(left, right) | Term::Less(left, right) => {
                [Some(left), Some(right), None]
            }
        };
        children.into_iter().flatten()
    }

    pub fn is_sign(self) -> bool {
        matches!(self, Term::Sign { .. })
    }
}
