//! What the rules say of one term where it stands.

use crate::checker::Judgement;
use crate::decode::decode;
use crate::places::places;
use crate::refusal::{Cause, Refusal};
use crate::set::Set;
use crate::sheet::{PrincipalId, TypeId};

#[derive(Clone, Copy, Debug, PartialEq, Eq)]
pub struct TermJudgement {
    pub ty: TypeId,
    pub needs: Set,
    /// Who signs where the term stands: the nearest sign around it. Nobody
    /// does at the root.
    pub principal: Option<PrincipalId>,
}

/// The judgement of the term with this number, whatever is faulty elsewhere. An
/// unreadable sheet gets the reader's refusal, and then a number past the last
/// term is 37.
pub fn infer_term(bytes: &[u8], number: u32) -> Result<TermJudgement, Refusal> {
    let sheet = decode(bytes)?;
    let mut places = places(&sheet).into_iter();
    let place = places
        .find(|place| u32::from(place.term) == number)
        .ok_or(Cause::NoTerm.anywhere())?;
    let Judgement { ty, needs } = place.infer(&sheet)?;
    Ok(TermJudgement {
        ty,
        needs,
        principal: place.principal,
    })
}
