//! The comparison of request W12: the unit's record held against the office's.

use crate::record::{Entry, ENTRY_BYTES};
use crate::refusal::{Cause, Refusal};

#[derive(Clone, Copy, Debug, PartialEq, Eq)]
pub enum Comparison {
    /// So many of the office's entries are not among the unit's.
    Fits { missing: usize },
    /// The unit's entries up to this one do not occur.
    Diverges { entry: usize },
}

/// Holds the unit's record against the office's.
pub fn compare(unit: &[u8], office: &[u8]) -> Result<Comparison, Refusal> {
    let unit = entries(unit)?;
    let office = entries(office)?;
    Ok(match occurring(&unit, &office).iter().position(|&it| !it) {
        None => Comparison::Fits {
            missing: office.len() - unit.len(),
        },
        Some(entry) => Comparison::Diverges { entry },
    })
}

/// "Either record with a part of an entry or a yes-or-no byte above 1 is 34."
fn entries(record: &[u8]) -> Result<Vec<Entry>, Refusal> {
    let entries = record.chunks(ENTRY_BYTES).map(Entry::from_bytes);
    let entries: Option<Vec<Entry>> = entries.collect();
    entries.ok_or(Cause::Record.anywhere())
}

/// Of each of the unit's entries, whether those up to it occur in the office's
/// in their order. All ways to place them are tried, one more of the office's
/// entries at a time: the first `k` occur among these if they did before, or if
/// the `k`th is the last of these and the others occurred before it.
fn occurring(unit: &[Entry], office: &[Entry]) -> Vec<bool> {
    let mut occurs = vec![false; unit.len()];
    for met in office {
        for k in (0..unit.len()).rev() {
            let others = k == 0 || occurs[k - 1];
            occurs[k] |= others && unit[k] == *met;
        }
    }
    occurs
}
