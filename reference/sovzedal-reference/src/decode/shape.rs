//! The terms as one tree: causes 7 and 8.

use crate::refusal::{Cause, Refusal};
use crate::sheet::{Sheet, Term, TermId};

const MAX_NESTING: u32 = 32;

/// Every term but the root stands once as a child; the root and all bodies
/// are signs.
pub fn check_parents_and_signs(sheet: &Sheet) -> Result<(), Refusal> {
    let parents = count_parents(sheet);
    for (place, &parents) in (0..).zip(&parents) {
        let is_root = place == sheet.root();
        let well_counted = is_root || parents == 1;
        let well_signed =
            has_signed_body(sheet, place) && (!is_root || sheet.term(place).is_sign());
        if !(well_counted && well_signed) {
            return Err(Cause::Shape.at(place));
        }
    }
    Ok(())
}

/// Nesting is at most 32, the root counting 1.
pub fn check_nesting(sheet: &Sheet) -> Result<(), Refusal> {
    let mut nesting = vec![1; sheet.terms.len()];
    // A parent has a higher number than its children, so its own nesting is
    // known before theirs.
    for place in (0..sheet.terms.len()).rev() {
        for child in sheet.terms[place].children() {
            nesting[usize::from(child)] = nesting[place] + 1;
        }
    }
    match nesting.iter().position(|&nesting| nesting > MAX_NESTING) {
        Some(place) => Err(Cause::Nesting.at(place as u32)),
        None => Ok(()),
    }
}

fn count_parents(sheet: &Sheet) -> Vec<u32> {
    let mut parents = vec![0; sheet.terms.len()];
    for child in sheet.terms.iter().flat_map(|term| term.children()) {
        parents[usize::from(child)] += 1;
    }
    parents
}

fn has_signed_body(sheet: &Sheet, place: TermId) -> bool {
    match sheet.term(place) {
        Term::Function { body, .. } | Term::Letrec { body, .. } => sheet.term(body).is_sign(),
        _ => true,
    }
}
