//! Runs of a sheet and of its lean form.

use crate::sentences::kept;
use differential::RunResult;
use sovzedal_reference::{Sheet, TermId};

/// "it ends or stops as the old one does, with the same posts and counts ...;
/// a stop tells the old term's new number": what the lean form of `old` has to
/// tell. `None` if the term of the stop is gone.
pub fn made_lean(result: &RunResult, old: &Sheet) -> Option<RunResult> {
    let mut lean = result.clone();
    if result.stopped() {
        let term = result.answer[1] as TermId;
        let number = kept(old).iter().position(|&id| id == term)?;
        lean.answer[1] = number as u32;
    }
    Some(lean)
}
