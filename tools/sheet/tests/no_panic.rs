//! Whatever the arguments and the bytes are, the tool answers, and says so where it cannot.

mod common;

use std::collections::BTreeSet;
use std::ffi::OsString;
use std::os::unix::ffi::OsStringExt;
use std::path::Path;
use std::{env, fs};

use common::{ask, directory};
use sheets::generate::sample;
use sheets::rng::Rng;
use sheets::seed;

const COMMANDS: [&str; 9] = [
    "show", "check", "run", "why", "names", "lean", "compare", "dump", "build",
];

const WORDS: [&str; 30] = [
    "-",
    "-",
    "-",
    "--",
    "--html",
    "--hex",
    "--names",
    "--lazy",
    "--skip-checks",
    "--start",
    "--calls",
    "--depth",
    "--cells",
    "--posts",
    "--record",
    "--pairs",
    "-o",
    "--help",
    "-h",
    "-x",
    "",
    "0",
    "31",
    "32",
    "4294967296",
    "0:all",
    "0:1,2",
    "1:",
    "stamp",
    ":",
];

fn items(count: u64) -> impl Iterator<Item = Rng> {
    let seed = seed::given_or_fresh();
    println!("SOVZEDAL_SEED={seed}");
    (0..count).map(move |index| Rng::for_item(seed, index))
}

/// A sheet, a part of one, or anything.
fn input(rng: &mut Rng) -> Vec<u8> {
    let mut bytes = match rng.below(4) {
        0 => (0..rng.below(12_000)).map(|_| rng.bits() as u8).collect(),
        1 => b"privilege 0 stamp\nprincipal 1 <b>\n".to_vec(),
        _ => sample(rng).bytes,
    };
    if rng.percent(30) && !bytes.is_empty() {
        let at = rng.below(bytes.len());
        bytes[at] ^= 1 << rng.below(8);
        bytes.truncate(rng.between(at, bytes.len()));
    }
    bytes
}

/// A word that names no file, or one of this test: after `-o` or `--record` it is written.
fn word(rng: &mut Rng, files: &Path) -> OsString {
    match rng.below(10) {
        0 => {
            let bytes = (0..rng.below(9))
                .map(|_| rng.bits() as u8)
                .filter(|&byte| byte != 0)
                .collect();
            let mut word = OsString::from("no-such-directory/");
            word.push(OsString::from_vec(bytes));
            word
        }
        1 => files.join("names").into(),
        2 => files.join("sheet").into(),
        3 => files.join("record").into(),
        _ => rng.pick(&WORDS).into(),
    }
}

/// The names of the files beside the manifest.
fn package() -> BTreeSet<OsString> {
    let entries = fs::read_dir(env!("CARGO_MANIFEST_DIR")).expect("the package");
    entries
        .map(|entry| entry.expect("a file").file_name())
        .collect()
}

#[test]
fn any_arguments() {
    let before = package();
    let files = directory("any_arguments");
    fs::write(files.join("names"), "privilege 0 stamp\n").unwrap();
    // Any word may be a file that is written. The other tests here name none.
    let here = directory("any_arguments/here");
    env::set_current_dir(here).unwrap();
    for mut rng in items(3_000) {
        let bytes = input(&mut rng);
        fs::write(files.join("sheet"), &bytes).unwrap();
        let mut words = vec![OsString::from(rng.pick(&COMMANDS))];
        if rng.percent(3) {
            words.clear();
        }
        words.extend((0..rng.below(7)).map(|_| word(&mut rng, &files)));
        let said = ask(&words, &bytes);
        assert!(said.status <= 2, "{words:?}");
        // Of a refusal it depends on where data go.
        if said.status != 1 {
            assert_eq!(
                said.status == 2,
                !said.errors.is_empty(),
                "{words:?}: {}",
                said.errors
            );
        }
    }
    assert_eq!(package(), before);
}

#[test]
fn any_sheet() {
    for mut rng in items(1_000) {
        let bytes = input(&mut rng);
        let accepted = ask(&["check", "-"], &bytes).status;
        assert!(accepted <= 1);
        for words in [&["show", "-"][..], &["show", "--html", "-"]] {
            assert_eq!(ask(words, &bytes).status, accepted);
        }
        let runs: [&[&str]; 4] = [
            &["run", "-"],
            &["run", "--lazy", "-"],
            &["run", "--skip-checks", "--start", "0:all", "-"],
            &[
                "run", "--calls", "9", "--depth", "3", "--cells", "5", "--posts", "1", "-",
            ],
        ];
        for words in runs {
            assert!(ask(words, &bytes).status <= 1);
        }
        let privilege = rng.below(34).to_string();
        for command in ["why", "names"] {
            assert!(ask(&[command, "-", &privilege], &bytes).status <= 1);
        }
        assert!(ask(&["lean", "-", "-o", "-"], &bytes).status <= 1);
    }
}

#[test]
fn the_runners_say_the_same() {
    for mut rng in items(500) {
        let bytes = sample(&mut rng).bytes;
        let eager = ask(&["run", "--start", "0:all", "-"], &bytes);
        let lazy = ask(&["run", "--lazy", "--start", "0:all", "-"], &bytes);
        assert_eq!(eager.text(), lazy.text());
        assert_eq!(eager.status, lazy.status);
    }
}
