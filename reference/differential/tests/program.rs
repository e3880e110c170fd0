//! The checking program, run on whole inputs. What a program reads is outside
//! every contract, so this is tried: it prints what the reference does, of
//! sheets up to the longest and of inputs that are longer.

use differential::settings;
use sheets::extremes::{deepest, longest, most_held, widest};
use sheets::generate::sample;
use sheets::hex;
use sheets::rng::Rng;
use sovzedal_reference::report;
use std::env;
use std::io::Write;
use std::path::{Path, PathBuf};
use std::process::{Command, Stdio};

const SHEETS: u64 = 400;

#[test]
fn sheets_made_by_hand_are_printed_as_by_the_reference() {
    for sheet in [Vec::new(), deepest(), widest(), longest(), most_held()] {
        assert_eq!(printed(&sheet), report(&sheet), "{}", hex(&sheet));
    }
}

/// "The program reads up to 10,913 bytes."
#[test]
fn the_longest_sheet_is_read_whole() {
    assert_eq!(longest().len(), 10_913);
    assert!(printed(&longest()).starts_with("terms 1024\n"));
}

/// Of a longer input one byte more is read, and the reader refuses it.
#[test]
fn a_byte_behind_the_longest_sheet_is_seen() {
    for behind in [1, 2, 5_000] {
        let input = [longest(), vec![0; behind]].concat();
        assert!(report(&input).starts_with("refused 2 at "));
        assert_eq!(printed(&input), report(&input), "{behind} bytes behind it");
    }
}

#[test]
fn random_sheets_are_printed_as_by_the_reference() {
    for batch in settings::batches(SHEETS) {
        for index in batch.items {
            let rng = &mut Rng::for_item(batch.seed.rotate_left(33), index);
            let sheet = sample(rng).bytes;
            assert_eq!(printed(&sheet), report(&sheet), "{}", hex(&sheet));
        }
    }
}

/// What the program prints of an input; it says nothing else.
fn printed(input: &[u8]) -> String {
    let mut program = Command::new(path())
        .stdin(Stdio::piped())
        .stdout(Stdio::piped())
        .stderr(Stdio::piped())
        .spawn()
        .unwrap_or_else(|error| panic!("{}: {error}; rt run builds it", path().display()));
    let mut stdin = program.stdin.take().unwrap();
    stdin.write_all(input).expect("the input fits into a pipe");
    drop(stdin);
    let said = program.wait_with_output().expect("it ends");
    assert!(said.status.success() && said.stderr.is_empty());
    String::from_utf8(said.stdout).expect("a text")
}

/// Asked when the test runs: a path compiled in would outlive a move.
fn path() -> PathBuf {
    let package = env::var_os("CARGO_MANIFEST_DIR").expect("cargo sets it");
    Path::new(&package).join("../../crates/sovzedal/out/sovzedal")
}
