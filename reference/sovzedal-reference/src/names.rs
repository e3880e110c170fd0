//! Whether a sheet names a privilege: of request W11, what a privilege has to
//! be without so that it plays no part.

use crate::decode::decode;
use crate::refusal::{Cause, Refusal};
use crate::set::Privilege;
use crate::sheet::{Sheet, Term, TermId};

#[derive(Clone, Copy, Debug, PartialEq, Eq)]
pub enum Naming {
    /// "no check, test or guard names p".
    Unnamed,
    /// The lowest term that does.
    By(TermId),
}

/// Whether a sheet, accepted or not, names a privilege. The reader's refusals
/// come first.
pub fn names(bytes: &[u8], privilege: u32) -> Result<Naming, Refusal> {
    let sheet = decode(bytes)?;
    let privilege = Privilege::of_number(privilege).ok_or(Cause::NoPrivilege.anywhere())?;
    let mut terms = 0..=sheet.root();
    let lowest = terms.find(|&id| named_by(&sheet, id) == Some(privilege));
    Ok(lowest.map_or(Naming::Unnamed, Naming::By))
}

/// What a check or a test names, or the guard of a post's channel. An enable
/// doesn't ask whether its privilege is granted.
fn named_by(sheet: &Sheet, id: TermId) -> Option<Privilege> {
    match sheet.term(id) {
        Term::Check { privilege, .. } | Term::Test { privilege, .. } => Some(privilege),
        Term::Post { channel, .. } => sheet.guard(channel),
        _ => None,
    }
}
