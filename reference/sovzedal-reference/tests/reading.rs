//! Causes 1 to 8, and which of several is told. `pages.rs` has what version 2
//! adds.

use sheets::cases::{computing, posting};
use sheets::records::{field, Format, Records, TermRecord, TypeRecord, NUMBER};
use sheets::tree::*;
use sovzedal_reference::{decode, Cause, Refusal};

fn refusal(bytes: &[u8]) -> (Cause, u32) {
    let Refusal { cause, place } = decode(bytes).expect_err("a fault");
    (cause, place)
}

fn tables(terms: Vec<TermRecord>) -> Records {
    Records {
        format: Format::version_1(),
        principals: vec![0],
        types: vec![
            TypeRecord::bool(),
            TypeRecord::number(),
            TypeRecord::function(NUMBER, NUMBER, 0),
        ],
        terms,
    }
}

fn readable() -> Records {
    tables(sign(0, number(1)).assemble())
}

/// What is told of a term record that stands before an innocent root.
fn refusal_of_term(kind: u8, small: u8, parts: [u16; 3]) -> Option<(Cause, u32)> {
    let leaf = number(1).assemble()[0];
    let record = TermRecord { kind, small, parts };
    let root = sign(0, number(0)).assemble()[1];
    let records = tables(vec![leaf, leaf, record, root]);
    decode(&records.to_bytes())
        .err()
        .map(|refusal| (refusal.cause, refusal.place))
}

#[test]
fn a_header_is_whole_before_its_tag_is_looked_at() {
    assert_eq!(refusal(&[9, 0]), (Cause::CutShort, 0));
    assert_eq!(refusal(&[9, 0, 0]), (Cause::WrongTag, 0));
}

#[test]
fn a_length_is_right_before_its_content_is_looked_for() {
    assert_eq!(refusal(&[1, 0, 3]), (Cause::WrongLength, 0));
    assert_eq!(refusal(&[1, 0, 2]), (Cause::CutShort, 0));
    assert_eq!(refusal(&[1, 0, 2, 0]), (Cause::CutShort, 0));
}

#[test]
fn the_version_is_right_before_the_next_header() {
    assert_eq!(refusal(&[1, 0, 2, 0, 3]), (Cause::WrongVersion, 0));
    assert_eq!(refusal(&[1, 0, 2, 0, 2]), (Cause::CutShort, 0));
    assert_eq!(refusal(&[1, 0, 2, 0, 1]), (Cause::CutShort, 0));
}

#[test]
fn lengths_of_tables() {
    let version = field(1, &[0, 1]);
    let refusal_of =
        |tag, length: usize| refusal(&[&version[..], &field(tag, &vec![0; length])].concat());
    for length in [0, 3, 5, 132] {
        assert_eq!(refusal_of(2, length), (Cause::WrongLength, 0), "{length}");
    }
    assert_eq!(refusal_of(2, 128), (Cause::CutShort, 0));
    assert_eq!(refusal_of(3, 20), (Cause::WrongTag, 0));
}

#[test]
fn counts_of_types_and_terms() {
    let mut records = readable();
    records.types.truncate(1);
    assert_eq!(refusal(&records.to_bytes()), (Cause::WrongLength, 0));

    let mut records = readable();
    records.types.resize(257, TypeRecord::number());
    assert_eq!(refusal(&records.to_bytes()), (Cause::WrongLength, 0));

    for terms in [0, 1025] {
        let records = tables(vec![TermRecord::default(); terms]);
        assert_eq!(
            refusal(&records.to_bytes()),
            (Cause::WrongLength, 0),
            "{terms}"
        );
    }
}

#[test]
fn bytes_after_the_end_come_before_records() {
    let mut records = readable();
    records.types[0].kind = 7;
    let mut bytes = records.to_bytes();
    assert_eq!(refusal(&bytes), (Cause::TypeRecord, 0));
    bytes.push(0);
    assert_eq!(refusal(&bytes), (Cause::WrongTag, 0));
}

#[test]
fn every_prefix_is_cut_short() {
    let bytes = posting(2);
    for length in 0..bytes.len() {
        assert_eq!(refusal(&bytes[..length]), (Cause::CutShort, 0), "{length}");
    }
}

#[test]
fn type_records() {
    let refusal_of = |record| {
        let mut records = readable();
        records.types.push(record);
        let result = decode(&records.to_bytes()).err();
        result.map(|refusal| (refusal.cause, refusal.place))
    };
    let fault = Some((Cause::TypeRecord, 3));
    let function = TypeRecord::function;
    assert_eq!(refusal_of(function(2, 2, u32::MAX)), None);
    assert_eq!(refusal_of(function(3, 1, 0)), fault);
    assert_eq!(refusal_of(function(1, 4, 0)), fault);
    assert_eq!(refusal_of(TypeRecord::bool()), fault);
    assert_eq!(
        refusal_of(TypeRecord {
            kind: 3,
            ..function(0, 0, 0)
        }),
        fault
    );
    assert_eq!(
        refusal_of(TypeRecord {
            zero: 1,
            ..function(0, 0, 0)
        }),
        fault
    );
    // Of two equal types the later is at fault.
    assert_eq!(refusal_of(function(NUMBER, NUMBER, 0)), fault);
    assert_eq!(refusal_of(function(NUMBER, NUMBER, 1)), None);
}

#[test]
fn the_first_two_types_are_fixed() {
    for (place, latent) in [(0, 1), (1, 1)] {
        let mut records = readable();
        records.types[place].latent = latent;
        assert_eq!(
            refusal(&records.to_bytes()),
            (Cause::TypeRecord, place as u32)
        );
    }
    let mut records = readable();
    records.types.swap(0, 1);
    assert_eq!(refusal(&records.to_bytes()), (Cause::TypeRecord, 0));
}

#[test]
fn parts_out_of_range() {
    let fault = Some((Cause::TermRecord, 2));
    for (kind, small, parts) in [
        (0, 2, [0, 0, 0]),
        (0, 1, [1, 0, 0]),
        (1, 1, [5, 0, 0]),
        (2, 0, [0, 0, 1]),
        (3, 0, [1, 0, 0]),
        (3, 0, [3, 0, 0]),
        (3, 0, [2, 2, 0]),
        (4, 0, [2, 0, 2]),
        (5, 0, [0, 2, 0]),
        (5, 0, [0, 1, 1]),
        (6, 0, [0, 0, 2]),
        (7, 32, [0, 0, 0]),
        (8, 32, [0, 0, 0]),
        (9, 1, [0, 0, 0]),
        (9, 0, [2, 0, 0]),
        (10, 32, [0, 1, 0]),
        (11, 1, [0, 1, 0]),
        (14, 0, [0, 1, 0]),
        (15, 0, [0, 0, 0]),
    ] {
        assert_eq!(
            refusal_of_term(kind, small, parts),
            fault,
            "kind {kind}, {small}, {parts:?}"
        );
    }
}

#[test]
fn parts_in_range_leave_only_the_shape_at_fault() {
    let shape = Some(Cause::Shape);
    for (kind, small, parts) in [
        (1, 0, [65_535, 0, 0]),
        (2, 0, [65_535, 0, 0]),
        (7, 31, [0, 0, 0]),
        (6, 0, [0, 0, 0]),
        (4, 0, [2, 0, 1]),
    ] {
        let cause = refusal_of_term(kind, small, parts).map(|(cause, _)| cause);
        assert_eq!(cause, shape, "kind {kind}, {small}, {parts:?}");
    }
}

#[test]
fn the_lowest_fault_of_the_shape_is_reported() {
    // An unsigned body below a term without a parent, and the other way.
    let leaf = number(1).assemble()[0];
    let unsigned = TermRecord {
        kind: Kind::Function as u8,
        small: 0,
        parts: [2, 0, 0],
    };
    let root = |child| TermRecord {
        kind: Kind::Sign as u8,
        small: 0,
        parts: [child, 0, 0],
    };
    let body_first = tables(vec![leaf, unsigned, leaf, root(1)]);
    assert_eq!(refusal(&body_first.to_bytes()), (Cause::Shape, 1));
    let orphan_first = tables(vec![leaf, leaf, unsigned, root(2)]);
    assert_eq!(refusal(&orphan_first.to_bytes()), (Cause::Shape, 1));
}

#[test]
fn an_unsigned_root() {
    let records = tables(post(number(1)).assemble());
    assert_eq!(refusal(&records.to_bytes()), (Cause::Shape, 1));
}

#[test]
fn nesting_tells_the_lowest_number_too_deep() {
    let deep = (0..32).fold(number(0), |inner, _| post(inner));
    // The right branch is too deep; its lowest term has number 1.
    let bytes = computing(sum(number(3), deep));
    assert_eq!(refusal(&bytes), (Cause::Nesting, 1));
}
