//! The table of terms, record by record: cause 6.

use super::fields::TERM_BYTES;
use crate::refusal::{Cause, Refusal};
use crate::set::{Privilege, Set};
use crate::sheet::{ChannelId, PrincipalId, Term, TermId, Type, TypeId};

pub fn decode(
    content: &[u8],
    principals: &[Set],
    types: &[Type],
    channels: ChannelId,
) -> Result<Vec<Term>, Refusal> {
    content
        .chunks_exact(TERM_BYTES)
        .zip(0u16..)
        .map(|(record, place)| {
            let tables = Tables {
                principals,
                types,
                channels,
                place,
            };
            tables.term(record).ok_or(Cause::TermRecord.at(place))
        })
        .collect()
}

/// What the parts of the record at `place` may refer to.
struct Tables<'a> {
    principals: &'a [Set],
    types: &'a [Type],
    /// How many there are.
    channels: ChannelId,
    place: TermId,
}

impl Tables<'_> {
    /// The term of a record, or `None` if a part is out of its range. The
    /// patterns hold unused parts to zero.
    fn term(&self, record: &[u8]) -> Option<Term> {
        let &[kind, small, f1, f0, s1, s0, t1, t0] = record else {
            return None;
        };
        let first = u16::from_be_bytes([f1, f0]);
        let second = u16::from_be_bytes([s1, s0]);
        let third = u16::from_be_bytes([t1, t0]);

        Some(match (kind, small, first, second, third) {
            (0, 0 | 1, 0, 0, 0) => Term::Bool(small == 1),
            (1, 0, number, 0, 0) => Term::Number(number),
            (2, 0, index, 0, 0) => Term::Variable(index),
            (3, 0, ty, body, 0) => Term::Function {
                ty: self.function_type(ty)?,
                body: self.child(body)?,
            },
            (4, 0, ty, body, rest) => Term::Letrec {
                ty: self.function_type(ty)?,
                body: self.child(body)?,
                rest: self.child(rest)?,
            },
            (5, 0, function, argument, 0) => Term::Call {
                function: self.child(function)?,
                argument: self.child(argument)?,
            },
            (6, 0, condition, yes, no) => Term::If {
                condition: self.child(condition)?,
                yes: self.child(yes)?,
                no: self.child(no)?,
            },
            (7, privilege, inner, 0, 0) => Term::Check {
                privilege: Privilege::new(privilege)?,
                inner: self.child(inner)?,
            },
            (8, privilege, inner, 0, 0) => Term::Enable {
                privilege: Privilege::new(privilege)?,
                inner: self.child(inner)?,
            },
            (9, principal, inner, 0, 0) => Term::Sign {
                principal: self.principal(principal)?,
                inner: self.child(inner)?,
            },
            (10, privilege, yes, no, 0) => Term::Test {
                privilege: Privilege::new(privilege)?,
                yes: self.child(yes)?,
                no: self.child(no)?,
            },
            (11, 0, left, right, 0) => Term::Sum(self.child(left)?, self.child(right)?),
            (12, 0, left, right, 0) => Term::Difference(self.child(left)?, self.child(right)?),
            (13, 0, left, right, 0) => Term::Less(self.child(left)?, self.child(right)?),
            (14, channel, inner, 0, 0) => Term::Post {
                channel: self.channel(channel)?,
                inner: self.child(inner)?,
            },
            _ => return None,
        })
    }

    fn child(&self, id: TermId) -> Option<TermId> {
        (id < self.place).then_some(id)
    }

    fn principal(&self, id: PrincipalId) -> Option<PrincipalId> {
        (usize::from(id) < self.principals.len()).then_some(id)
    }

    fn channel(&self, id: ChannelId) -> Option<ChannelId> {
        (id < self.channels).then_some(id)
    }

    fn function_type(&self, id: TypeId) -> Option<TypeId> {
        match self.types.get(usize::from(id)) {
            Some(Type::Function(_)) => Some(id),
            _ => None,
        }
    }
}
