//! The comparison of request W12, sentence by sentence.

use sovzedal_reference::{compare, Cause, Comparison, Entry, Refusal};

const DIVERGES_AT_FIRST: Result<Comparison, Refusal> = Ok(Comparison::Diverges { entry: 0 });

const NO_RECORD: Result<Comparison, Refusal> = Err(Refusal {
    cause: Cause::Record,
    place: 0,
});

/// The entries of these terms, each a yes for privilege 3.
fn record(terms: &[u16]) -> Vec<u8> {
    let entry = |&term| Entry {
        term,
        privilege: 3,
        yes: true,
    };
    terms.iter().map(entry).flat_map(Entry::to_bytes).collect()
}

fn fits(missing: usize) -> Result<Comparison, Refusal> {
    Ok(Comparison::Fits { missing })
}

fn diverges(entry: usize) -> Result<Comparison, Refusal> {
    Ok(Comparison::Diverges { entry })
}

#[test]
fn an_entry_has_four_bytes() {
    let entry = Entry {
        term: 0x0102,
        privilege: 31,
        yes: false,
    };
    assert_eq!(entry.to_bytes(), [1, 2, 31, 0]);
    assert_eq!(record(&[1023]), [3, 255, 3, 1]);
}

#[test]
fn what_is_left_of_a_record_fits() {
    let cases: [(&[u16], &[u16], usize); 7] = [
        (&[], &[], 0),
        (&[], &[7, 8], 2),
        (&[7, 8, 7], &[7, 8, 7], 0),
        (&[7], &[7, 8, 9], 2),
        (&[9], &[7, 8, 9], 2),
        (&[7, 9], &[6, 7, 8, 7, 9, 6], 4),
        (&[7, 7, 8], &[7, 8, 7, 8], 1),
    ];
    for (unit, office, missing) in cases {
        let result = compare(&record(unit), &record(office));
        assert_eq!(result, fits(missing), "{unit:?} in {office:?}");
    }
}

#[test]
fn the_first_entry_up_to_which_they_do_not_occur_is_reported() {
    let cases: [(&[u16], &[u16], usize); 6] = [
        (&[7], &[], 0),
        (&[6, 7, 8], &[7, 8], 0),
        (&[8, 7], &[7, 8], 1),
        (&[7, 8, 8, 9], &[7, 8, 9], 2),
        (&[7, 8, 9, 9], &[7, 8, 9], 3),
        (&[7, 9, 8], &[7, 8, 9, 7], 2),
    ];
    for (unit, office, entry) in cases {
        let result = compare(&record(unit), &record(office));
        assert_eq!(result, diverges(entry), "{unit:?} in {office:?}");
    }
}

#[test]
fn entries_are_equal_in_all_four_bytes() {
    let office = [1, 7, 3, 1];
    assert_eq!(compare(&office, &office), fits(0));
    for unit in [[2, 7, 3, 1], [1, 8, 3, 1], [1, 7, 4, 1], [1, 7, 3, 0]] {
        assert_eq!(compare(&unit, &office), DIVERGES_AT_FIRST, "{unit:?}");
    }
}

#[test]
fn a_part_of_an_entry_or_a_byte_above_1_is_34() {
    assert_eq!(Cause::Record.number(), 34);
    let good = record(&[7]);
    for length in 1..4 {
        let part = &good[..length];
        assert_eq!(compare(part, &good), NO_RECORD);
        assert_eq!(compare(&good, part), NO_RECORD);
        let longer = [&good, part].concat();
        assert_eq!(compare(&longer, &good), NO_RECORD);
        assert_eq!(compare(&good, &longer), NO_RECORD);
    }
    for byte in [2, 3, 128, 255] {
        let marked = [0, 7, 3, byte];
        assert_eq!(compare(&marked, &good), NO_RECORD);
        assert_eq!(compare(&good, &marked), NO_RECORD);
    }
    // Also where the entries before diverge.
    let behind = [&record(&[8])[..], &[0, 7, 3, 2]].concat();
    assert_eq!(compare(&behind, &good), NO_RECORD);
    assert_eq!(
        compare(&record(&[8]), &[&good[..], &[0]].concat()),
        NO_RECORD
    );
}
