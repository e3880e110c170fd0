//! The fields and their frames: causes 1 to 4.

use crate::refusal::{Cause, Refusal};
use crate::sheet::CHANNELS;
use std::ops::RangeInclusive;

/// A tag and a length.
pub const HEADER_BYTES: usize = 3;

pub const VERSION_BYTES: usize = 2;
pub const PRINCIPAL_BYTES: usize = 4;
pub const TYPE_BYTES: usize = 10;
pub const TERM_BYTES: usize = 8;

/// The contents of the tables, each a whole number of records.
pub struct Fields<'a> {
    pub principals: &'a [u8],
    pub types: &'a [u8],
    pub terms: &'a [u8],
    /// A byte for each channel; version 2 alone has them.
    pub guards: Option<&'a [u8]>,
}

pub fn split(bytes: &[u8]) -> Result<Fields<'_>, Refusal> {
    let mut reader = Reader { rest: bytes };
    let has_guards = match reader.field(1, VERSION_BYTES, 1..=1)? {
        [0, 1] => false,
        [0, 2] => true,
        _ => return Err(Cause::WrongVersion.anywhere()),
    };
    let principals = reader.field(2, PRINCIPAL_BYTES, 1..=32)?;
    let types = reader.field(3, TYPE_BYTES, 2..=256)?;
    let terms = reader.field(4, TERM_BYTES, 1..=1024)?;
    let guards = match has_guards {
        true => Some(reader.field(5, CHANNELS, 1..=1)?),
        false => None,
    };
    if !reader.rest.is_empty() {
        return Err(Cause::WrongTag.anywhere());
    }
    Ok(Fields {
        principals,
        types,
        terms,
        guards,
    })
}

struct Reader<'a> {
    rest: &'a [u8],
}

impl<'a> Reader<'a> {
    /// Takes the field `tag`, whose content is `records` records of
    /// `record_bytes` bytes each.
    fn field(
        &mut self,
        tag: u8,
        record_bytes: usize,
        records: RangeInclusive<usize>,
    ) -> Result<&'a [u8], Refusal> {
        let cut_short = Cause::CutShort.anywhere();
        let (&[found, high, low], rest) = self.rest.split_first_chunk().ok_or(cut_short)?;
        if found != tag {
            return Err(Cause::WrongTag.anywhere());
        }
        let length = usize::from(u16::from_be_bytes([high, low]));
        if !length.is_multiple_of(record_bytes) || !records.contains(&(length / record_bytes)) {
            return Err(Cause::WrongLength.anywhere());
        }
        let (content, rest) = rest.split_at_checked(length).ok_or(cut_short)?;
        self.rest = rest;
        Ok(content)
    }
}
