//! The bytes of a sheet taken apart, as far as that goes (docs/FORMAT.md). Nothing is judged here: where the fields cannot be
//! followed any further, [`Flaw`] says what was seen there, and the library says what it is.

use std::ops::{Range, RangeInclusive};

pub const CHANNELS: usize = 16;
/// The guard of a channel that has none.
pub const NO_GUARD: u8 = 255;
pub const HEADER: usize = 3;
pub const PRINCIPAL: usize = 4;
pub const TYPE: usize = 10;
pub const TERM: usize = 8;

#[derive(Clone, Copy, Debug, PartialEq, Eq)]
pub struct TypeRecord {
    pub kind: u8,
    pub zero: u8,
    pub argument: u16,
    pub result: u16,
    pub latent: u32,
}

#[derive(Clone, Copy, Debug, PartialEq, Eq)]
pub struct TermRecord {
    pub kind: u8,
    pub small: u8,
    pub parts: [u16; 3],
}

/// Why the fields could not be followed any further.
#[derive(Clone, Copy, Debug, PartialEq, Eq)]
pub enum Flaw {
    /// The bytes end inside the header of a field.
    Header {
        due: u8,
    },
    Tag {
        due: u8,
        found: u8,
    },
    Length {
        tag: u8,
        length: usize,
    },
    /// The bytes end inside the content.
    Content {
        tag: u8,
        length: usize,
        left: usize,
    },
    Version(u16),
    /// Bytes follow the last field.
    Behind,
}

/// A field, or as much of it as is there.
#[derive(Clone, Debug, PartialEq, Eq)]
pub struct Field {
    pub tag: u8,
    /// Where its header begins.
    pub header: usize,
    /// Its whole records.
    pub content: Range<usize>,
}

#[derive(Debug)]
pub struct Sheet<'a> {
    pub bytes: &'a [u8],
    pub version: Option<u16>,
    pub principals: Vec<u32>,
    pub types: Vec<TypeRecord>,
    pub terms: Vec<TermRecord>,
    pub guards: Vec<u8>,
    pub fields: Vec<Field>,
    /// How far the bytes are read, and why not further.
    pub end: usize,
    pub flaw: Option<Flaw>,
}

impl<'a> Sheet<'a> {
    pub fn read(bytes: &'a [u8]) -> Self {
        let mut sheet = Self {
            bytes,
            version: None,
            principals: Vec::new(),
            types: Vec::new(),
            terms: Vec::new(),
            guards: Vec::new(),
            fields: Vec::new(),
            end: 0,
            flaw: None,
        };
        sheet.flaw = sheet.read_fields().err();
        sheet
    }

    fn read_fields(&mut self) -> Result<(), Flaw> {
        self.read_field(1)?;
        match self.version {
            Some(1 | 2) | None => {}
            Some(version) => return Err(Flaw::Version(version)),
        }
        let last = if self.version == Some(2) { 5 } else { 4 };
        for tag in 2..=last {
            self.read_field(tag)?;
        }
        if self.end < self.bytes.len() {
            return Err(Flaw::Behind);
        }
        Ok(())
    }

    fn read_field(&mut self, tag: u8) -> Result<(), Flaw> {
        let bytes = self.bytes;
        let header = self.end;
        let &[found, high, low] = bytes
            .get(header..header + HEADER)
            .ok_or(Flaw::Header { due: tag })?
        else {
            return Err(Flaw::Header { due: tag });
        };
        if found != tag {
            return Err(Flaw::Tag { due: tag, found });
        }
        let length = usize::from(u16::from_be_bytes([high, low]));
        if !length_fits(tag, length) {
            return Err(Flaw::Length { tag, length });
        }
        let begin = header + HEADER;
        let left = bytes.len() - begin;
        let there = length.min(left);
        let whole = there - there % record_length(tag);
        let content = begin..begin + whole;
        self.take(tag, &bytes[content.clone()]);
        self.end = content.end;
        self.fields.push(Field {
            tag,
            header,
            content,
        });
        if left < length {
            Err(Flaw::Content { tag, length, left })
        } else {
            Ok(())
        }
    }

    fn take(&mut self, tag: u8, content: &[u8]) {
        match tag {
            1 => self.version = content.first_chunk().map(|&pair| u16::from_be_bytes(pair)),
            2 => self.principals = content.chunks_exact(PRINCIPAL).map(set).collect(),
            3 => self.types = content.chunks_exact(TYPE).map(type_record).collect(),
            4 => self.terms = content.chunks_exact(TERM).map(term_record).collect(),
            _ => self.guards = content.to_vec(),
        }
    }

    /// The bytes of a term's record, where they begin and what they are.
    pub fn term_bytes(&self, term: usize) -> Option<(usize, &'a [u8])> {
        self.record(4, term, TERM)
    }

    pub fn type_bytes(&self, number: usize) -> Option<(usize, &'a [u8])> {
        self.record(3, number, TYPE)
    }

    fn record(&self, tag: u8, number: usize, length: usize) -> Option<(usize, &'a [u8])> {
        let field = self.fields.iter().find(|field| field.tag == tag)?;
        let begin = number * length;
        let record = self.bytes[field.content.clone()].get(begin..begin + length)?;
        Some((field.content.start + begin, record))
    }

    /// The privilege that guards a channel.
    pub fn guard(&self, channel: u8) -> Option<u8> {
        let guard = self.guards.get(usize::from(channel)).copied();
        guard.filter(|&guard| guard != NO_GUARD)
    }

    /// What a principal may use; nothing if the sheet has no such principal.
    pub fn authority(&self, principal: u8) -> u32 {
        self.principals
            .get(usize::from(principal))
            .copied()
            .unwrap_or(0)
    }
}

/// Whether the table of fields has the length: whole records, within the bounds.
fn length_fits(tag: u8, length: usize) -> bool {
    let record = record_length(tag);
    length.is_multiple_of(record) && record_counts(tag).contains(&(length / record))
}

/// How many records a field may have.
pub fn record_counts(tag: u8) -> RangeInclusive<usize> {
    match tag {
        1 => 1..=1,
        2 => 1..=32,
        3 => 2..=256,
        4 => 1..=1_024,
        _ => CHANNELS..=CHANNELS,
    }
}

/// The bytes of one record; of tag 1 the version is the one record.
pub fn record_length(tag: u8) -> usize {
    match tag {
        1 => 2,
        2 => PRINCIPAL,
        3 => TYPE,
        4 => TERM,
        _ => 1,
    }
}

fn set(record: &[u8]) -> u32 {
    record
        .iter()
        .fold(0, |set, &byte| set << 8 | u32::from(byte))
}

fn pair(record: &[u8], offset: usize) -> u16 {
    u16::from_be_bytes([record[offset], record[offset + 1]])
}

fn type_record(record: &[u8]) -> TypeRecord {
    TypeRecord {
        kind: record[0],
        zero: record[1],
        argument: pair(record, 2),
        result: pair(record, 4),
        latent: set(&record[6..]),
    }
}

fn term_record(record: &[u8]) -> TermRecord {
    TermRecord {
        kind: record[0],
        small: record[1],
        parts: [pair(record, 2), pair(record, 4), pair(record, 6)],
    }
}

#[cfg(test)]
mod tests {
    use super::*;
    use crate::library;
    use crate::tree::Tree;
    use sheets::generate::sample;
    use sheets::rng::Rng;
    use sheets::seed;

    /// The fields are followed just as far as the library follows them, and what it reads as a tree is one here.
    #[test]
    fn the_library_reads_the_same() {
        let seed = seed::given_or_fresh();
        println!("SOVZEDAL_SEED={seed}");
        for index in 0..4_000 {
            let mut rng = Rng::for_item(seed, index);
            let mut bytes = sample(&mut rng).bytes;
            if rng.percent(40) {
                bytes.truncate(rng.below(bytes.len() + 1));
            }
            if rng.percent(20) {
                bytes.extend((0..rng.below(20)).map(|_| rng.bits() as u8));
            }
            let sheet = Sheet::read(&bytes);
            let cause = library::decode(&bytes).map_or_else(|refusal| refusal.cause, |()| 0);
            assert_eq!(
                sheet.flaw.map_or(0, flaw_cause),
                if cause <= 4 { cause } else { 0 }
            );
            assert!(sheet.end <= bytes.len());
            if cause == 0 || cause == 31 {
                assert!(Tree::of(&sheet).is_some(), "item {index}");
            }
        }
    }

    fn flaw_cause(flaw: Flaw) -> u32 {
        match flaw {
            Flaw::Header { .. } | Flaw::Content { .. } => 1,
            Flaw::Tag { .. } | Flaw::Behind => 2,
            Flaw::Version(_) => 3,
            Flaw::Length { .. } => 4,
        }
    }
}
