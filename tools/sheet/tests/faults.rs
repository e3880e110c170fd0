//! What is said of bytes and pairs beyond the library's cause: which part is at fault, and what it may be.

mod common;

use std::fs;

use common::{ask, directory};
use sheets::generate::sample;
use sheets::records::{Format, Records, TermRecord, TypeRecord, CHANNELS, UNGUARDED};
use sheets::rng::Rng;
use sheets::seed;

/// Two principals, a function type, and a term of each kind that a fault can be in.
fn records() -> Records {
    let term = |kind, small, parts| TermRecord { kind, small, parts };
    Records {
        format: Format::version_1(),
        principals: vec![1 << 31, 1],
        types: vec![
            TypeRecord::bool(),
            TypeRecord::number(),
            TypeRecord::function(1, 1, 0),
        ],
        terms: vec![
            term(1, 0, [7, 0, 0]),
            term(9, 1, [0, 0, 0]),
            term(3, 0, [2, 1, 0]),
            term(1, 0, [2, 0, 0]),
            term(14, 0, [3, 0, 0]),
            term(7, 31, [4, 0, 0]),
            term(5, 0, [2, 5, 0]),
            term(9, 0, [6, 0, 0]),
        ],
    }
}

/// The cause and place, and what is said beyond the sentence for the cause.
fn refusal(sheet: &[u8]) -> (String, String) {
    let text = ask(&["check", "-"], sheet).text();
    let lines: Vec<&str> = text.lines().collect();
    let heading = lines[0].strip_prefix("refused: ").expect("a refusal");
    let detail = lines.get(2).expect("a detail");
    (heading.into(), detail.trim_start().into())
}

fn assert_refusal(change: impl FnOnce(&mut Records), heading: &str, detail: &str) {
    let mut records = records();
    change(&mut records);
    let (cause, said) = refusal(&records.to_bytes());
    assert_eq!(cause, heading);
    let (said, record) = said.split_once("; its record, at byte ").expect("a record");
    assert_eq!(said, detail);
    assert!(record.contains(": "), "{record}");
}

#[test]
fn the_sheet_itself_is_accepted() {
    let said = ask(&["check", "-"], &records().to_bytes());
    assert_eq!(said.status, 0, "{}", said.text());
}

#[test]
fn the_part_of_a_term_is_named() {
    let at = |term: usize, change: fn(&mut TermRecord), detail: &str| {
        let heading = format!("6, term record, at term {term}");
        assert_refusal(|records| change(&mut records.terms[term]), &heading, detail);
    };
    at(
        0,
        |term| term.kind = 15,
        "its kind is 15, and kinds are 0 to 14",
    );
    let unused = "must be 0, since its kind does not use it";
    at(
        0,
        |term| term.small = 1,
        &format!("its part 'small' is 1, and {unused}"),
    );
    at(
        0,
        |term| term.parts[1] = 9,
        &format!("its part 'second' is 9, and {unused}"),
    );
    at(
        6,
        |term| term.parts[2] = 1,
        &format!("its part 'third' is 1, and {unused}"),
    );
    at(
        0,
        |term| (term.kind, term.small) = (0, 2),
        "its part 'small' is 2, and a boolean is 0 or 1",
    );
    at(
        1,
        |term| term.small = 2,
        "its part 'small' is 2, and the sheet has 2 principals, 0 to 1",
    );
    at(
        5,
        |term| term.small = 32,
        "its part 'small' is 32, and a privilege is 0 to 31",
    );
    at(
        4,
        |term| term.small = 1,
        "its part 'small' is 1, and must be 0, since version 1 has no channels",
    );
    at(
        2,
        |term| term.parts[0] = 1,
        "its part 'first' is type 1, and the sheet has 1 function type, 2",
    );
    at(
        2,
        |term| term.parts[1] = 2,
        "its part 'second', the body, is term 2, and must be a lower term than 2, its own",
    );
    at(
        7,
        |term| term.parts[0] = 65_535,
        "its part 'first', the child, is term 65535, and must be a lower term than 7, its own",
    );
    assert_refusal(
        |records| {
            records.format = Format::version_2(&[UNGUARDED; CHANNELS]);
            records.terms[4].small = 16;
        },
        "6, term record, at term 4",
        "its part 'small' is 16, and a channel is 0 to 15",
    );
    assert_refusal(
        |records| {
            records.types.truncate(2);
        },
        "6, term record, at term 2",
        "its part 'first' is type 2, and the sheet has no function type",
    );
}

#[test]
fn the_part_of_a_type_is_named() {
    let at = |ty: usize, change: fn(&mut TypeRecord), detail: &str| {
        let heading = format!("5, type record, at type {ty}");
        assert_refusal(|records| change(&mut records.types[ty]), &heading, detail);
    };
    at(
        0,
        |ty| ty.kind = 1,
        "its kind is 1, and type 0 is the boolean, of kind 0",
    );
    at(
        1,
        |ty| ty.kind = 0,
        "its kind is 0, and type 1 is the number, of kind 1",
    );
    at(
        2,
        |ty| ty.kind = 3,
        "its kind is 3, and every type from 2 on is a function, of kind 2",
    );
    at(2, |ty| ty.zero = 4, "its second byte is 4, and must be 0");
    at(
        1,
        |ty| ty.latent = 1,
        "its latent set is 1, and must be 0, since it is no function",
    );
    at(
        2,
        |ty| ty.argument = 2,
        "its argument is type 2, and must be a lower type than 2, its own",
    );
    at(
        2,
        |ty| ty.result = 300,
        "its result is type 300, and must be a lower type than 2, its own",
    );
    assert_refusal(
        |records| records.types.push(TypeRecord::function(1, 1, 0)),
        "5, type record, at type 3",
        "type 2 has the same record",
    );
    assert_refusal(
        |records| {
            records
                .types
                .extend((2..14).map(|ty| TypeRecord::function(ty, 0, 0)))
        },
        "5, type record, at type 14",
        "it is 13 deep, and 12 is the most",
    );
}

#[test]
fn the_lengths_of_a_field_are_reported() {
    let fields: [(&[u8], &str); 5] = [
        (
            &[1, 0, 3],
            "at byte 0 tag 1 has the length 3, and can have 2",
        ),
        (
            &[2, 0, 3],
            "at byte 5 tag 2 has the length 3, and can have 4 for each of 1 to 32 principals",
        ),
        (
            &[3, 0, 10],
            "at byte 12 tag 3 has the length 10, and can have 10 for each of 2 to 256 types",
        ),
        (
            &[4, 0, 0],
            "at byte 35 tag 4 has the length 0, and can have 8 for each of 1 to 1024 terms",
        ),
        (
            &[5, 0, 17],
            "at byte 46 tag 5 has the length 17, and can have 16",
        ),
    ];
    let mut whole = Records {
        format: Format::version_2(&[UNGUARDED; CHANNELS]),
        ..records()
    };
    whole.principals.truncate(1);
    whole.types.truncate(2);
    whole.terms.truncate(1);
    let bytes = whole.to_bytes();
    for (header, detail) in fields {
        let at = detail.split(' ').nth(2).expect("a place");
        let mut sheet = bytes[..at.parse().expect("a number")].to_vec();
        sheet.extend(header);
        assert_eq!(refusal(&sheet), ("4, length".into(), detail.into()));
    }
}

/// Whatever is damaged, a refusal by 4, 5 or 6 is explained.
#[test]
fn every_damage_is_explained() {
    let seed = seed::given_or_fresh();
    println!("SOVZEDAL_SEED={seed}");
    let mut seen = [0; 3];
    for index in 0..6_000 {
        let mut rng = Rng::for_item(seed, index);
        let mut bytes = sample(&mut rng).bytes;
        for _ in 0..rng.below(4) {
            // A third of the damage is near the headers of the first fields.
            let end = if rng.percent(33) {
                bytes.len().min(16)
            } else {
                bytes.len()
            };
            if let Some(byte) = bytes.get_mut(rng.below(end.max(1))) {
                *byte ^= 1 << rng.below(8);
            }
        }
        let text = ask(&["check", "-"], &bytes).text();
        let Some(cause @ 4..=6) = text
            .strip_prefix("refused: ")
            .and_then(|rest| rest.split(',').next()?.parse::<usize>().ok())
        else {
            continue;
        };
        let detail = text.lines().nth(2).expect("an explanation");
        let explained = match cause {
            4 => detail.contains(", and can have "),
            _ => detail.contains("; its record, at byte ") && !detail.starts_with("  ;"),
        };
        assert!(explained, "item {index}: {text}");
        seen[cause - 4] += 1;
    }
    assert!(seen.iter().all(|&count| count > 50), "{seen:?}");
}

#[test]
fn pairs_that_do_not_fit_are_explained() {
    let files = directory("pairs");
    let (sheet, pairs) = (files.join("sheet"), files.join("pairs"));
    let said = |records: &Records, lines: &str| {
        fs::write(&sheet, records.to_bytes()).unwrap();
        fs::write(&pairs, lines).unwrap();
        let words = [
            "run",
            "--skip-checks",
            "--pairs",
            pairs.to_str().unwrap(),
            sheet.to_str().unwrap(),
        ];
        ask(&words, b"").text()
    };
    assert!(said(&records(), "7\n2 3\n").starts_with("ended in "));
    let detail = |records: &Records, lines: &str| {
        let text = said(records, lines);
        assert!(text.starts_with("refused: 35, ranges\n"), "{text}");
        text.lines().nth(2).expect("an explanation").to_string()
    };
    assert_eq!(detail(&records(), ""), "  there are 0 pairs for 2 numbers");
    assert_eq!(detail(&records(), "1\n"), "  there is 1 pair for 2 numbers");
    assert_eq!(
        detail(&records(), "1\n3 2 # exchanged\n"),
        "  pair 2 of 2, for term 3, has the lowest 3 above its highest, 2"
    );
    let guarded = Records {
        format: Format::version_2(&[UNGUARDED; CHANNELS]),
        ..records()
    };
    assert_eq!(detail(&guarded, "1\n2\n"), "  the sheet is of version 2");
}
