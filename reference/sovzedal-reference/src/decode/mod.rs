//! From bytes to a [`Sheet`]: causes 1 to 8 and 31.
//!
//! Each step looks at the whole of its table before the next begins, so the
//! order of the calls below is the order in which faults are told.

mod fields;
mod guards;
mod shape;
mod terms;
mod types;

pub use guards::UNGUARDED;

use crate::refusal::Refusal;
use crate::set::Set;
use crate::sheet::{Sheet, TermId};
use std::ops::Range;

pub fn decode(bytes: &[u8]) -> Result<Sheet, Refusal> {
    let fields = fields::split(bytes)?;
    let principals = principals(fields.principals);
    let types = types::decode(fields.types)?;
    let channels = guards::channels(fields.guards);
    let terms = terms::decode(fields.terms, &principals, &types, channels)?;
    let mut sheet = Sheet {
        principals,
        types,
        terms,
        guards: None,
    };
    shape::check_parents_and_signs(&sheet)?;
    shape::check_nesting(&sheet)?;
    sheet.guards = fields.guards.map(guards::decode).transpose()?;
    Ok(sheet)
}

/// Which bytes of a sheet that can be read are a term's record: those of the
/// fourth field's content that come after the records before it.
pub fn record_place(sheet: &Sheet, id: TermId) -> Range<usize> {
    let contents = [
        fields::VERSION_BYTES,
        fields::PRINCIPAL_BYTES * sheet.principals.len(),
        fields::TYPE_BYTES * sheet.types.len(),
    ];
    let before: usize = contents.iter().map(|it| fields::HEADER_BYTES + it).sum();
    let begin = before + fields::HEADER_BYTES + fields::TERM_BYTES * usize::from(id);
    begin..begin + fields::TERM_BYTES
}

/// Any four bytes are a set, so principals cannot be at fault.
fn principals(content: &[u8]) -> Vec<Set> {
    content
        .chunks_exact(fields::PRINCIPAL_BYTES)
        .map(|record| {
            Set::from_bits(u32::from_be_bytes([
                record[0], record[1], record[2], record[3],
            ]))
        })
        .collect()
}
