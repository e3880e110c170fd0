//! Request W9's sentences about the bytes of a lean sheet, one by one, each
//! asked of any two sheets.

use sovzedal_reference::{Set, Sheet, Term, TermId, Type, TypeId};

/// A sheet and what is said to be its lean form, both read.
pub struct Pair<'a> {
    pub old: &'a Sheet,
    pub new: &'a Sheet,
}

impl Pair<'_> {
    /// The first sentence that is broken.
    pub fn broken(&self) -> Option<&'static str> {
        let sentences = [
            (self.are_plain(), "of version 1, without tests"),
            (self.has_no_checks(), "with its checks and enables gone"),
            (self.has_no_latent_sets(), "every latent set empty"),
            (
                self.types_are_the_first_alike(),
                "types that become equal are merged into the first of them and keep their old order",
            ),
            (self.terms_are_those_kept(), "terms keep their old order"),
            (
                self.old.principals == self.new.principals,
                "nothing else is changed",
            ),
        ];
        let mut broken = sentences.iter().filter(|(holds, _)| !holds);
        broken.next().map(|&(_, sentence)| sentence)
    }

    fn are_plain(&self) -> bool {
        let is_test = |term: &Term| matches!(term, Term::Test { .. });
        let is_plain = |sheet: &Sheet| sheet.guards.is_none() && !sheet.terms.iter().any(is_test);
        is_plain(self.old) && is_plain(self.new)
    }

    fn has_no_checks(&self) -> bool {
        self.new.terms.iter().all(|&term| is_kept(term))
    }

    fn has_no_latent_sets(&self) -> bool {
        self.new.types.iter().all(|&ty| match ty {
            Type::Function(function) => function.latent == Set::EMPTY,
            Type::Bool | Type::Number => true,
        })
    }

    /// Of the old types those that no lower one is like are the new ones, in
    /// turn.
    fn types_are_the_first_alike(&self) -> bool {
        let first = first_alike(self.old);
        let alike = |(&old, new)| are_alike((self.old, old), (self.new, new));
        first.len() == self.new.types.len() && first.iter().zip(0..).all(alike)
    }

    /// The old terms but for checks and enables are the new ones, in turn.
    fn terms_are_those_kept(&self) -> bool {
        let kept = kept(self.old);
        let pairs = kept.iter().zip(&self.new.terms);
        let same = |(&old, &new)| self.is_same(self.old.term(old), new, &kept);
        kept.len() == self.new.terms.len() && pairs.into_iter().all(same)
    }

    /// Whether a new term is as an old one in all but numbers: its type is
    /// alike, and its children are those of the old one, of a check or an
    /// enable the first kept one inside.
    fn is_same(&self, old: Term, new: Term, kept: &[TermId]) -> bool {
        let children = |(old, new): (TermId, TermId)| {
            kept.get(usize::from(new)) == Some(&inside(self.old, old))
        };
        let types = match (type_of(old), type_of(new)) {
            (Some(old), Some(new)) => are_alike((self.old, old), (self.new, new)),
            (old, new) => old == new,
        };
        types
            && without_numbers(old) == without_numbers(new)
            && old.children().count() == new.children().count()
            && old.children().zip(new.children()).all(children)
    }
}

pub fn is_kept(term: Term) -> bool {
    !matches!(term, Term::Check { .. } | Term::Enable { .. })
}

/// The numbers of the old terms that are kept: the new term k is the k-th.
pub fn kept(old: &Sheet) -> Vec<TermId> {
    let mut all: Vec<TermId> = (0..=old.root()).collect();
    all.retain(|&id| is_kept(old.term(id)));
    all
}

/// The types that no lower one is like.
pub fn first_alike(sheet: &Sheet) -> Vec<TypeId> {
    let mut first: Vec<TypeId> = Vec::new();
    for id in (0..sheet.types.len()).map(|id| id as TypeId) {
        let is_known = |&lower: &TypeId| are_alike((sheet, lower), (sheet, id));
        if !first.iter().any(is_known) {
            first.push(id);
        }
    }
    first
}

/// Whether types are equal but for latent sets, down to what they are made of.
fn are_alike(one: (&Sheet, TypeId), other: (&Sheet, TypeId)) -> bool {
    let ty = |(sheet, id): (&Sheet, TypeId)| sheet.types.get(usize::from(id)).copied();
    match (ty(one), ty(other)) {
        (Some(Type::Function(a)), Some(Type::Function(b))) => {
            are_alike((one.0, a.argument), (other.0, b.argument))
                && are_alike((one.0, a.result), (other.0, b.result))
        }
        (a, b) => a == b,
    }
}

/// What stands in a term's place when checks and enables are gone.
fn inside(sheet: &Sheet, id: TermId) -> TermId {
    match sheet.term(id) {
        Term::Check { inner, .. } | Term::Enable { inner, .. } => inside(sheet, inner),
        _ => id,
    }
}

fn type_of(term: Term) -> Option<TypeId> {
    match term {
        Term::Function { ty, .. } | Term::Letrec { ty, .. } => Some(ty),
        _ => None,
    }
}

/// The kind of a term and its parts that are neither types nor children.
fn without_numbers(term: Term) -> Term {
    match term {
        Term::Bool(_) | Term::Number(_) | Term::Variable(_) => term,
        Term::Function { .. } => Term::Function { ty: 0, body: 0 },
        Term::Letrec { .. } => Term::Letrec {
            ty: 0,
            body: 0,
            rest: 0,
        },
        Term::Call { .. } => Term::Call {
            function: 0,
            argument: 0,
        },
        Term::If { .. } => Term::If {
            condition: 0,
            yes: 0,
            no: 0,
        },
        Term::Check { privilege, .. } => Term::Check {
            privilege,
            inner: 0,
        },
        Term::Enable { privilege, .. } => Term::Enable {
            privilege,
            inner: 0,
        },
        Term::Sign { principal, .. } => Term::Sign {
            principal,
            inner: 0,
        },
        Term::Test { privilege, .. } => Term::Test {
            privilege,
            yes: 0,
            no: 0,
        },
        Term::Sum(..) => Term::Sum(0, 0),
        Term::Difference(..) => Term::Difference(0, 0),
        Term::Less(..) => Term::Less(0, 0),
        Term::Post { channel, .. } => Term::Post { channel, inner: 0 },
    }
}
