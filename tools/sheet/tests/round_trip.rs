//! What is dumped is built again, byte by byte, whatever the bytes are.

mod common;

use common::ask;
use sheet::library::MAX_SHEET;
use sheets::extremes::{longest, most_types};
use sheets::generate::sample;
use sheets::rng::Rng;
use sheets::{seed, smallest};

fn comes_back(bytes: &[u8]) {
    let dumped = ask(&["dump", "-"], bytes);
    assert_eq!((dumped.status, dumped.errors.as_str()), (0, ""));
    let built = ask(&["build", "-", "-o", "-"], &dumped.output);
    assert_eq!((built.status, built.errors.as_str()), (0, ""));
    assert!(
        built.output == bytes,
        "{} bytes do not come back",
        bytes.len()
    );
}

fn items(count: u64) -> impl Iterator<Item = Rng> {
    let seed = seed::given_or_fresh();
    println!("SOVZEDAL_SEED={seed}");
    (0..count).map(move |index| Rng::for_item(seed, index))
}

#[test]
fn any_bytes() {
    for mut rng in items(300) {
        let length = rng.below(MAX_SHEET + 1);
        let bytes: Vec<u8> = (0..length).map(|_| rng.bits() as u8).collect();
        comes_back(&bytes);
    }
    comes_back(&[]);
    comes_back(&[0xFF; MAX_SHEET]);
}

#[test]
fn sheets_whole_and_cut() {
    for mut rng in items(1_500) {
        let bytes = sample(&mut rng).bytes;
        let bytes = &bytes[..bytes.len().min(MAX_SHEET)];
        comes_back(bytes);
        comes_back(&bytes[..rng.below(bytes.len() + 1)]);
    }
}

#[test]
fn extremes() {
    comes_back(&longest());
    comes_back(&most_types());
    for smallest in smallest::all() {
        comes_back(&smallest.sheet);
    }
}

#[test]
fn a_sheet_that_is_too_long_is_not_dumped() {
    let said = ask(&["dump", "-"], &[1; MAX_SHEET + 1]);
    assert_eq!(said.status, 2);
    assert!(
        said.errors.contains("more than 10913 bytes"),
        "{}",
        said.errors
    );
}

/// The bytes of the examples come back as well, and so do their comments' words where the tool can know them.
#[test]
fn the_examples_are_dumped_in_their_own_form() {
    for name in ["hello.hex", "needs.hex", "test.hex", "page.hex"] {
        let path = common::example(name);
        let text = std::fs::read_to_string(&path).expect("an example");
        let dumped = ask(&["dump", &path], b"").text();
        for line in dumped
            .lines()
            .filter(|line| line.contains('#') && !line.contains("channel"))
        {
            let line = line.trim_end_matches("; the root");
            let same = text
                .lines()
                .any(|other| other.starts_with(line) || known_otherwise(line));
            assert!(same, "{name}: {line}");
        }
    }
}

/// Lines whose comments in page.hex use names.
fn known_otherwise(line: &str) -> bool {
    ["principal", "enable", "sign", "channel"]
        .iter()
        .any(|word| line.contains(word))
}
