//! The smallest faulty piece of request W13: of a sheet that the rules refuse,
//! the least to look at.

use crate::decode::{decode, record_place};
use crate::places::{places, Place};
use crate::refusal::{Cause, Refusal};
use crate::sheet::{Sheet, TermId};
use std::ops::Range;

#[derive(Clone, Debug, PartialEq, Eq)]
pub struct Piece {
    pub term: TermId,
    /// How many terms there are in it, "itself counted".
    pub count: usize,
    /// Why it is refused where it stands: 9 to 12 or 24 to 26.
    pub fault: Cause,
    /// Which bytes of the sheet are the term's record.
    pub record: Range<usize>,
}

impl Piece {
    /// "those eight bytes of the caller's own sheet that are its record".
    pub fn record_in<'a>(&self, bytes: &'a [u8]) -> &'a [u8] {
        &bytes[self.record.clone()]
    }
}

/// The smallest faulty piece of a sheet, or `None`: "no piece". "An unreadable
/// sheet gets the reader's refusal".
///
/// All terms are judged one by one, each with all that is in it, whatever is
/// faulty elsewhere.
pub fn piece(bytes: &[u8]) -> Result<Option<Piece>, Refusal> {
    let sheet = decode(bytes)?;
    let all = places(&sheet);
    let refused = all.iter().filter_map(|place| {
        let Place { term, .. } = *place;
        Some(Piece {
            term,
            count: count(&sheet, term),
            fault: place.infer(&sheet).err()?.cause,
            record: record_place(&sheet, term),
        })
    });
    // "the fewest terms in it", "ties to the lowest number"
    Ok(refused.min_by_key(|piece| (piece.count, piece.term)))
}

/// How many terms there are in a term, itself counted.
fn count(sheet: &Sheet, id: TermId) -> usize {
    let children = sheet.term(id).children();
    1 + children.map(|child| count(sheet, child)).sum::<usize>()
}
