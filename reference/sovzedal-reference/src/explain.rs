//! The explanations of request W7: which terms a need comes from.

use crate::checker::Accepted;
use crate::refusal::{Cause, Refusal};
use crate::set::Privilege;
use crate::sheet::{Term, TermId, TypeId};

/// How many terms a chain has at most: as many as nesting allows.
pub const CHAIN_TERMS: usize = 32;

#[derive(Clone, Debug, PartialEq, Eq)]
pub enum Explanation {
    NotNeeded,
    /// From the root to a cause, each term a child of the one before.
    Chain(Vec<TermId>),
}

impl Explanation {
    /// The terms of the chain, if there is one.
    pub fn terms(&self) -> &[TermId] {
        match self {
            Explanation::NotNeeded => &[],
            Explanation::Chain(terms) => terms,
        }
    }
}

/// Why a sheet needs a privilege. The judge's own refusals come first.
pub fn explain(bytes: &[u8], privilege: u32) -> Result<Explanation, Refusal> {
    let accepted = Accepted::new(bytes)?;
    let privilege = Privilege::of_number(privilege).ok_or(Cause::NoPrivilege.anywhere())?;
    let root = accepted.sheet.root();
    if !needs(&accepted, root, privilege) {
        return Ok(Explanation::NotNeeded);
    }
    let mut chain = vec![root];
    let mut last = root;
    while !is_cause(&accepted, last, privilege) {
        last = qualifying(&accepted, last, privilege)
            .next()
            .expect("what a term needs is caused by itself or needed by a child");
        chain.push(last);
    }
    Ok(Explanation::Chain(chain))
}

/// "A check that names it, or a call or recursive binder whose latent set
/// holds it." Of W8: a guarded post "counts as a cause where a need is traced".
fn is_cause(accepted: &Accepted, id: TermId, privilege: Privilege) -> bool {
    let has_latent = |ty: TypeId| {
        let function = accepted.sheet.function_type(ty);
        function.is_some_and(|function| function.latent.contains(privilege))
    };
    match accepted.sheet.term(id) {
        Term::Check {
            privilege: named, ..
        } => named == privilege,
        Term::Call { function, .. } => has_latent(accepted.judgement(function).ty),
        Term::Letrec { ty, .. } => has_latent(ty),
        Term::Post { channel, .. } => accepted.sheet.guard(channel) == Some(privilege),
        _ => false,
    }
}

/// The children that the chain can go on with, from the lowest position up.
/// "The yes-branch of a test of that privilege never qualifies."
fn qualifying(
    accepted: &Accepted,
    id: TermId,
    privilege: Privilege,
) -> impl Iterator<Item = TermId> + '_ {
    let term = accepted.sheet.term(id);
    let met = match term {
        Term::Test {
            privilege: tested,
            yes,
            ..
        } if tested == privilege => Some(yes),
        _ => None,
    };
    term.children()
        .filter(move |&child| Some(child) != met && needs(accepted, child, privilege))
}

/// Whether a term has the privilege among its own needs.
fn needs(accepted: &Accepted, id: TermId, privilege: Privilege) -> bool {
    accepted.judgement(id).needs.contains(privilege)
}
