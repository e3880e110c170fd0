//! Damage that the reader has to find: in the records, then in the bytes.

use crate::records::{Records, TermRecord, TypeRecord, CHANNELS, UNGUARDED};
use crate::rng::Rng;
use crate::tree::Kind;

/// Breaks a type record, as a rule.
pub fn damage_types(rng: &mut Rng, records: &mut Records) {
    let index = rng.below(records.types.len());
    let count = records.types.len() as u16;
    let other = records.types[rng.below(records.types.len())];
    let record = &mut records.types[index];
    match rng.below(9) {
        0 => record.kind = rng.pick(&[0, 1, 2, 3, 255]),
        1 => record.zero = rng.pick(&[1, 2, 128]),
        2 => record.argument = rng.pick(&[index as u16, count, 256, 65_535]),
        3 => record.result = rng.pick(&[index as u16, count, 256, 65_535]),
        4 => record.latent ^= 1 << rng.below(32),
        5 => *record = other,
        6 => records.types.swap(0, 1),
        7 => records.types.push(other),
        _ => records
            .types
            .push(TypeRecord::function(count - 1, count, 0)),
    }
}

/// Breaks one term record, as a rule.
pub fn damage_terms(rng: &mut Rng, records: &mut Records) {
    let index = rng.below(records.terms.len());
    let number = rng.below(records.terms.len() + 2) as u16;
    let types = records.types.len() as u16;
    let record = &mut records.terms[index];
    match rng.below(8) {
        0 => record.kind = rng.pick(&[15, 16, 128, 255]),
        1 => record.kind = rng.below(16) as u8,
        2 => record.small = rng.pick(&[1, 2, 15, 16, 31, 32, 33, 64, 255]),
        3 => record.parts[rng.below(3)] = number,
        4 => record.parts[rng.below(3)] = rng.pick(&[index as u16, 256, 1023, 1024, 65_535]),
        5 => record.parts[0] = rng.pick(&[0, 1, 2, types - 1, types]),
        6 => record.parts[2] = rng.pick(&[1, number]),
        _ => push_small_past_its_range(rng, records),
    }
}

/// Makes a small byte that is in use the first that is out of range.
fn push_small_past_its_range(rng: &mut Rng, records: &mut Records) {
    let principals = records.principals.len() as u8;
    let channels = match records.format.version {
        1 => 1,
        _ => CHANNELS as u8,
    };
    let limit = |kind: u8| match Kind::ALL.get(usize::from(kind)) {
        Some(Kind::Bool) => Some(2),
        Some(Kind::Check | Kind::Enable | Kind::Test) => Some(32),
        Some(Kind::Sign) => Some(principals),
        Some(Kind::Post) => Some(channels),
        _ => None,
    };
    let limits: Vec<(usize, u8)> = (0..)
        .zip(&records.terms)
        .filter_map(|(place, record)| Some((place, limit(record.kind)?)))
        .collect();
    if let Some((place, limit)) = rng.pick_any(&limits) {
        records.terms[place].small = limit;
    }
}

/// Breaks the tree that the terms make: parent counts, signs of bodies and
/// of the root.
pub fn damage_shape(rng: &mut Rng, records: &mut Records) {
    match rng.below(5) {
        0 => {
            records.terms.pop();
        }
        1 => {
            let place = rng.below(records.terms.len());
            records.terms.push(records.terms[place]);
        }
        2 => replace_sign(rng, records),
        _ => redirect_child(rng, records),
    }
    if records.terms.is_empty() {
        records.terms.push(TermRecord::default());
    }
}

/// Turns a sign, often that of a body, into another term with one child.
fn replace_sign(rng: &mut Rng, records: &mut Records) {
    let signs: Vec<usize> = (0..records.terms.len())
        .filter(|&place| records.terms[place].kind == Kind::Sign as u8)
        .collect();
    if let Some(place) = rng.pick_any(&signs) {
        let record = &mut records.terms[place];
        record.kind = rng.pick(&[Kind::Enable, Kind::Check, Kind::Post]) as u8;
        record.small = 0;
    }
}

/// Makes a term stand twice as a child, and another not at all.
fn redirect_child(rng: &mut Rng, records: &mut Records) {
    let parents: Vec<usize> = (1..records.terms.len())
        .filter(|&place| records.terms[place].kind > Kind::Letrec as u8)
        .collect();
    if let Some(place) = rng.pick_any(&parents) {
        records.terms[place].parts[0] = rng.below(place) as u16;
    }
}

/// Breaks the guards, or the version's accord with them.
pub fn damage_guards(rng: &mut Rng, records: &mut Records) {
    let format = &mut records.format;
    match rng.below(10) {
        0 => format.version = rng.pick(&[0, 3, 4, 5, 256, 257, 258, 513, 65_535]),
        // Version 1 with a tag 5, or version 2 without one.
        1 => format.version = 3 - format.version,
        2 => {
            let length = rng.pick(&[0, 1, CHANNELS - 1, CHANNELS + 1, 2 * CHANNELS]);
            format.guards = Some(vec![UNGUARDED; length]);
        }
        _ => {
            let guards = format
                .guards
                .get_or_insert_with(|| vec![UNGUARDED; CHANNELS]);
            for _ in 0..rng.pick(&[1, 1, 2, 3]) {
                guards[rng.below(CHANNELS)] = bad_guard(rng);
            }
            format.version = 2;
        }
    }
}

/// A byte that is neither a privilege nor none.
fn bad_guard(rng: &mut Rng) -> u8 {
    match rng.below(3) {
        0 => rng.between(32, 254) as u8,
        _ => rng.pick(&[32, 33, 64, 127, 128, 254]),
    }
}

/// Cuts bytes off the end, as many as tag 5 takes with its header at most.
pub fn cut_guards(rng: &mut Rng, bytes: &mut Vec<u8>) {
    let cut = rng.between(1, CHANNELS + 3);
    bytes.truncate(bytes.len() - cut);
}

/// Changes the bytes without regard to what they mean.
pub fn damage_bytes(rng: &mut Rng, bytes: &mut Vec<u8>) {
    let place = rng.below(bytes.len());
    match rng.below(8) {
        0 | 1 => bytes[place] ^= 1 << rng.below(8),
        2 => bytes[place] = rng.bits() as u8,
        3 => bytes.truncate(place),
        4 => bytes.insert(place, rng.bits() as u8),
        5 => {
            bytes.remove(place);
        }
        6 => (0..rng.between(1, 9)).for_each(|_| bytes.push(rng.bits() as u8)),
        _ => damage_header(rng, bytes),
    }
}

/// Changes the tag, the length or the version.
fn damage_header(rng: &mut Rng, bytes: &mut [u8]) {
    let mut headers = vec![0];
    while let Some(&[_, high, low]) = bytes
        .get(headers[headers.len() - 1]..)
        .and_then(|rest| rest.first_chunk())
    {
        let length = usize::from(u16::from_be_bytes([high, low]));
        headers.push(headers[headers.len() - 1] + 3 + length);
    }
    let header = rng.pick(&headers);
    let place = rng.pick(&[header, header + 1, header + 2, 3, 4]);
    if let Some(byte) = bytes.get_mut(place) {
        *byte = rng.pick(&[
            0,
            1,
            2,
            3,
            4,
            5,
            byte.wrapping_add(1),
            byte.wrapping_sub(2),
            255,
        ]);
    }
}
