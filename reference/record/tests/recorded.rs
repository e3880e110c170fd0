//! The recording is complete, and the files in the repository are it.

use record::Recording;
use std::collections::BTreeSet;
use std::fs;
use std::path::Path;

const MAX_BYTES: usize = 250_000;

/// What a single term can be refused for.
const FAULTS: [u32; 7] = [9, 10, 11, 12, 24, 25, 26];

#[test]
fn every_cause_is_recorded() {
    let recording = Recording::make();
    let causes: BTreeSet<u32> = recording.stdout.lines().map(cause).collect();
    // The others are told of addresses, lines, privileges, lean forms and
    // records, and no sheet is recorded for them.
    let expected = (0..=22).chain(24..=26).chain([31]).chain(35..=37);
    assert_eq!(causes, expected.collect());
    assert!(recording.stdin.len() <= MAX_BYTES);
}

/// W10's counts, one of them with more than 16 bits. Of a sheet that is
/// accepted the number stands for its needs.
#[test]
fn held_results_are_recorded() {
    let recording = Recording::make();
    let runs = recording.stdout.lines();
    let runs = runs.filter(|line| line.starts_with("eager") || line.starts_with("lazy"));
    let counts: BTreeSet<u32> = runs.map(|line| number(line, 7)).collect();
    assert!((0..=3).all(|count| counts.contains(&count)), "{counts:?}");
    assert!(counts.last() > Some(&65_535), "{counts:?}");
}

#[test]
fn pieces_and_single_terms_are_recorded() {
    let recording = Recording::make();
    let [pieces, terms] = ["piece", "term"].map(|name| lines(&recording, name));
    let faults: BTreeSet<u32> = pieces.iter().map(|line| number(line, 2)).collect();
    assert_eq!(faults, [0].into_iter().chain(FAULTS).collect());
    assert!(pieces.iter().any(|line| number(line, 4) > 5), "large ones");
    // A piece that is the checker's fault, and one that isn't.
    let verdicts = lines(&recording, "typecheck");
    let both = verdicts
        .iter()
        .zip(&pieces)
        .filter(|(_, piece)| number(piece, 4) > 0);
    let first: BTreeSet<bool> = both
        .map(|(verdict, piece)| number(verdict, 1) == number(piece, 3))
        .collect();
    assert_eq!(first.len(), 2);
    for lines in [&pieces, &terms] {
        let causes: BTreeSet<u32> = lines.iter().map(|line| cause(line)).collect();
        assert!(
            (1..=8).chain([31]).all(|cause| causes.contains(&cause)),
            "{causes:?}"
        );
    }
    let causes: BTreeSet<u32> = terms.iter().map(|line| cause(line)).collect();
    assert!(
        FAULTS
            .into_iter()
            .chain([37])
            .all(|cause| causes.contains(&cause)),
        "{causes:?}"
    );
    let typed = terms.iter().filter(|line| status(line) == 0);
    let types: BTreeSet<u32> = typed.clone().map(|line| number(line, 2)).collect();
    assert!((0..=2).all(|ty| types.contains(&ty)), "{types:?}");
    assert!(typed.clone().any(|line| number(line, 7) > 0), "needs");
    assert!(
        typed.clone().any(|line| number(line, 3) > 0),
        "another principal"
    );
}

#[test]
fn runs_over_ranges_are_recorded() {
    let recording = Recording::make();
    for name in ["ranges", "ranges-skip"] {
        let runs = lines(&recording, name);
        let causes: BTreeSet<u32> = runs.iter().map(|line| cause(line)).collect();
        // A check stops only where it is in force.
        let stops = (18..=22).chain((name == "ranges").then_some(17));
        let expected = (0..=8).chain(14..=16).chain([31, 35, 36]).chain(stops);
        assert_eq!(causes, expected.collect(), "{name}");
        let ended = runs.iter().filter(|line| status(line) == 0);
        let truths = ended.clone().filter(|line| number(line, 2) == 0);
        let truths: BTreeSet<u32> = truths.map(|line| number(line, 3)).collect();
        assert_eq!(truths, [0, 1, 2].into(), "no, yes and undecided");
        let limits = ended.filter(|line| number(line, 2) == 1);
        let limits: BTreeSet<(u32, u32)> = limits
            .map(|line| (number(line, 3) >> 16, number(line, 3) & 0xFFFF))
            .collect();
        let held = [(0, 0), (65_535, 65_535), (0, 65_535)];
        assert!(
            held.iter().all(|limits_held| limits.contains(limits_held)),
            "{limits:?}"
        );
        let within =
            |&(lowest, highest): &(u32, u32)| 0 < lowest && lowest < highest && highest < 65_535;
        assert!(limits.iter().any(within));
        let stopped = runs.iter().filter(|line| cause(line) == 36);
        assert!(
            stopped.clone().any(|line| number(line, 6) > 0),
            "posts before 36"
        );
    }
}

/// Those with this name.
fn lines<'a>(recording: &'a Recording, name: &str) -> Vec<&'a str> {
    let lines = recording.stdout.lines();
    lines
        .filter(|line| line.split(' ').next() == Some(name))
        .collect()
}

/// The returned number.
fn status(line: &str) -> u32 {
    let word = line.split(' ').nth(1).expect("a returned number");
    word.parse().expect("a number")
}

/// The first number of the answer.
fn cause(line: &str) -> u32 {
    number(line, 0)
}

/// A number of the answer, after the name and the returned number.
fn number(line: &str, entry: usize) -> u32 {
    let word = line.split(' ').nth(2 + entry).expect("an answer");
    word.parse().expect("a number")
}

#[test]
fn the_files_are_what_is_recorded() {
    let directory = Path::new(env!("CARGO_MANIFEST_DIR")).join("../../crates/vectors");
    if !directory.exists() {
        return;
    }
    let recording = Recording::make();
    let read = |name| fs::read(directory.join(name)).expect("a file that `record` has written");
    assert!(read("stdin") == recording.stdin, "stdin is out of date");
    assert!(
        read("stdout") == recording.stdout.as_bytes(),
        "stdout is out of date"
    );
}
