//! Every term of a sheet where it stands: "in the bindings and under the
//! principal it has in the sheet".

use crate::checker::{infer_alone, Judgement};
use crate::refusal::Refusal;
use crate::set::Set;
use crate::sheet::{PrincipalId, Sheet, Term, TermId, TypeId};

pub(crate) struct Place {
    pub(crate) term: TermId,
    /// The types of the variables in scope, the nearest last.
    bindings: Vec<TypeId>,
    /// Who signs there: nobody at the root.
    pub(crate) principal: Option<PrincipalId>,
}

impl Place {
    /// What the rules say of the term there, with all that is in it.
    pub(crate) fn infer(&self, sheet: &Sheet) -> Result<Judgement, Refusal> {
        // The root is a sign, so the signer given of it is never asked.
        let signer = self.principal.map_or(Set::EMPTY, |it| sheet.authorised(it));
        infer_alone(sheet, self.term, &self.bindings, signer)
    }
}

/// All terms where they stand, each after the one that it is a child of.
pub(crate) fn places(sheet: &Sheet) -> Vec<Place> {
    let mut places = vec![Place {
        term: sheet.root(),
        bindings: Vec::new(),
        principal: None,
    }];
    let mut looked_at = 0;
    while let Some(place) = places.get(looked_at) {
        let children = children(sheet, place);
        places.extend(children);
        looked_at += 1;
    }
    places
}

/// A body has the declared argument before the bindings around it, and a
/// binder's the declared function behind the argument; so has the rest. Below a
/// sign its principal signs.
fn children(sheet: &Sheet, place: &Place) -> Vec<Place> {
    let child = |term, more: &[TypeId], principal| Place {
        term,
        bindings: [&place.bindings, more].concat(),
        principal,
    };
    let argument = |ty| match sheet.function_type(ty) {
        Some(function) => function.argument,
        None => unreachable!("a decoded function or binder has a function type"),
    };
    match sheet.term(place.term) {
        Term::Function { ty, body } => vec![child(body, &[argument(ty)], place.principal)],
        Term::Letrec { ty, body, rest } => vec![
            child(body, &[ty, argument(ty)], place.principal),
            child(rest, &[ty], place.principal),
        ],
        Term::Sign { principal, inner } => vec![child(inner, &[], Some(principal))],
        other => {
            let children = other.children();
            children
                .map(|term| child(term, &[], place.principal))
                .collect()
        }
    }
}
