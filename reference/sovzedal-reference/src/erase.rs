//! The lean sheets of request W9: without what a sheet's acceptance makes idle.

use crate::checker::Accepted;
use crate::encode::encode;
use crate::refusal::{Cause, Refusal};
use crate::set::Set;
use crate::sheet::{FunctionType, Sheet, Term, TermId, Type, TypeId};

/// What is written of an accepted sheet.
#[derive(Clone, Debug, PartialEq, Eq)]
pub struct Lean {
    pub bytes: Vec<u8>,
    /// For each term of the old sheet its number in the new one, which checks
    /// and enables haven't.
    pub numbers: Vec<Option<TermId>>,
}

impl Lean {
    /// Into the beginning of a lent buffer, if all of it has room.
    pub fn write_to(&self, buffer: &mut [u8]) -> Result<(), Refusal> {
        let room = buffer.get_mut(..self.bytes.len());
        let room = room.ok_or(Cause::NoRoom.anywhere())?;
        room.copy_from_slice(&self.bytes);
        Ok(())
    }
}

/// The lean sheet of one that is accepted, of version 1 and without a test.
/// "The judge's refusals come first, then a test or version 2 is 32".
pub fn erase(bytes: &[u8]) -> Result<Lean, Refusal> {
    let Accepted { sheet: old, .. } = Accepted::new(bytes)?;
    let has_test = old
        .terms
        .iter()
        .any(|term| matches!(term, Term::Test { .. }));
    if has_test || old.guards.is_some() {
        return Err(Cause::NoLeanForm.anywhere());
    }
    let (types, type_numbers) = merged(&old.types);
    let numbers = numbers_of_kept(&old.terms);
    let renumbering = Renumbering {
        old: &old,
        types: &type_numbers,
        terms: &numbers,
    };
    let kept = old.terms.iter().filter(|term| is_kept(**term));
    let terms = kept.map(|term| renumbering.term(*term)).collect();
    let new = Sheet {
        types,
        terms,
        ..old.clone()
    };
    Ok(Lean {
        bytes: encode(&new),
        numbers,
    })
}

/// "Type records that become equal are merged into the first of them": the new
/// types, and for each old one which of them it has become. A type's parts have
/// lower numbers, so that what they have become is known when it is its turn.
fn merged(old: &[Type]) -> (Vec<Type>, Vec<TypeId>) {
    let mut new: Vec<Type> = Vec::new();
    let mut numbers: Vec<TypeId> = Vec::new();
    for ty in old {
        let lean = match *ty {
            Type::Function(function) => Type::Function(FunctionType {
                argument: numbers[usize::from(function.argument)],
                result: numbers[usize::from(function.result)],
                latent: Set::EMPTY,
            }),
            base => base,
        };
        let first = new.iter().position(|other| *other == lean);
        let first = first.unwrap_or_else(|| {
            new.push(lean);
            new.len() - 1
        });
        numbers.push(first as TypeId);
    }
    (new, numbers)
}

fn is_kept(term: Term) -> bool {
    !matches!(term, Term::Check { .. } | Term::Enable { .. })
}

/// "types and terms keep their old order": those kept are numbered anew.
fn numbers_of_kept(old: &[Term]) -> Vec<Option<TermId>> {
    let mut next = 0..;
    let numbers = old.iter().map(|term| match is_kept(*term) {
        true => next.next(),
        false => None,
    });
    numbers.collect()
}

/// Where everything has gone.
struct Renumbering<'a> {
    old: &'a Sheet,
    types: &'a [TypeId],
    terms: &'a [Option<TermId>],
}

impl Renumbering<'_> {
    /// A term that is kept, with the new numbers of its type and children.
    fn term(&self, term: Term) -> Term {
        match term {
            Term::Bool(_) | Term::Number(_) | Term::Variable(_) => term,
            Term::Function { ty, body } => Term::Function {
                ty: self.ty(ty),
                body: self.child(body),
            },
            Term::Letrec { ty, body, rest } => Term::Letrec {
                ty: self.ty(ty),
                body: self.child(body),
                rest: self.child(rest),
            },
            Term::Call { function, argument } => Term::Call {
                function: self.child(function),
                argument: self.child(argument),
            },
            Term::If { condition, yes, no } => Term::If {
                condition: self.child(condition),
                yes: self.child(yes),
                no: self.child(no),
            },
            Term::Sign { principal, inner } => Term::Sign {
                principal,
                inner: self.child(inner),
            },
            Term::Sum(left, right) => Term::Sum(self.child(left), self.child(right)),
            Term::Difference(left, right) => Term::Difference(self.child(left), self.child(right)),
            Term::Less(left, right) => Term::Less(self.child(left), self.child(right)),
            Term::Post { channel, inner } => Term::Post {
                channel,
                inner: self.child(inner),
            },
            Term::Check { .. } | Term::Enable { .. } | Term::Test { .. } => {
                unreachable!("checks and enables are gone, and there is no test")
            }
        }
    }

    fn ty(&self, old: TypeId) -> TypeId {
        self.types[usize::from(old)]
    }

    /// In the place of a check or an enable stands what is inside it.
    fn child(&self, old: TermId) -> TermId {
        match self.old.term(old) {
            Term::Check { inner, .. } | Term::Enable { inner, .. } => self.child(inner),
            _ => self.terms[usize::from(old)].expect("it is kept"),
        }
    }
}
