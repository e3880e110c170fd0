//! The examples: what the tool says in words is what the checking program prints of them.

mod common;

use std::fs;

use common::{ask, example};
use sheets::smallest::{self, Smallest};

#[test]
fn verdicts_and_runs_are_those_of_the_checking_program() {
    let mut seen = 0;
    for entry in fs::read_dir(example("")).expect("the examples") {
        let path = entry.expect("an example").path();
        if path.extension().is_some_and(|extension| extension == "hex") {
            let print = fs::read_to_string(path.with_extension("out")).expect("its print");
            compare(path.to_str().expect("a plain name"), &print);
            seen += 1;
        }
    }
    assert!(seen >= 16);
}

fn compare(path: &str, print: &str) {
    let words: Vec<&str> = print.split_whitespace().collect();
    let checked = ask(&["check", path], b"");
    let text = checked.text();
    let first = text.lines().next().expect("a verdict");
    if let ["refused", cause, "at", place] = words[..] {
        assert_eq!(checked.status, 1, "{path}");
        assert!(
            first.starts_with(&format!("refused: {cause}, ")),
            "{path}: {first}"
        );
        assert!(
            first.ends_with(&format!(", at term {place}")),
            "{path}: {first}"
        );
        return;
    }
    assert_eq!(checked.status, 0, "{path}");
    let ["terms", _, "needs", needs, "type", ty, ..] = words[..] else {
        panic!("{path}: {print}");
    };
    let ty = if ty == "num" { "number" } else { "boolean" };
    assert!(
        first.starts_with(&format!("accepted: gives a {ty}, needs ")),
        "{path}: {first}"
    );
    assert_eq!(
        first.ends_with(" nothing"),
        needs == "00000000",
        "{path}: {first}"
    );
    compare_runs(path, &words[6..]);
}

fn compare_runs(path: &str, words: &[&str]) {
    let ran = ask(&["run", path], b"");
    let text = ran.text();
    let first = text.lines().next().expect("an answer");
    let counts = match *words {
        ["end", "num", value, ref counts @ ..] => {
            assert_eq!(
                (ran.status, first),
                (0, format!("ended in the number {value}").as_str())
            );
            counts
        }
        ["stop", cause, "at", term, ref counts @ ..] => {
            assert_eq!(ran.status, 1);
            assert!(
                first.starts_with(&format!("stopped: {cause}, ")),
                "{path}: {first}"
            );
            assert!(
                first.ends_with(&format!(", at term {term}")),
                "{path}: {first}"
            );
            counts
        }
        _ => panic!("{path}: {words:?}"),
    };
    let last = text.lines().last().expect("counts");
    let shown: Vec<&str> = last
        .split(", ")
        .map(|count| count.split(' ').next().unwrap())
        .collect();
    let printed: Vec<&str> = counts.iter().skip(1).step_by(2).copied().collect();
    assert_eq!(shown, printed, "{path}");
}

#[test]
fn posts_stand_by_their_channels() {
    let text = ask(&["run", &example("page.hex")], b"").text();
    assert_eq!(
        text,
        "ended in the number 42\nposts on channel 0: 40\nposts on channel 1: 2\n\
         1 call, 2 cells, 2 posts, 0 results held\n"
    );
}

#[test]
fn a_start_stack_grants() {
    let plate = example("plate.hex");
    let said = |words: &[&str]| ask(&[&["run"], words, &[&plate]].concat(), b"").text();
    assert!(said(&[]).starts_with("ended in the number 40\n"));
    assert!(said(&["--start", "0:0"]).starts_with("ended in the number 42\n"));
    assert!(said(&["--start", "0", "--start", "0:all"]).starts_with("ended in the number 42\n"));
    assert!(said(&["--start", "0"]).starts_with("ended in the number 40\n"));
    assert!(said(&["--start", "1"]).starts_with("refused: 14, start stack\n"));
}

#[test]
fn limits_are_those_of_the_library() {
    let hello = example("hello.hex");
    let said = |option: &str, number: &str| ask(&["run", option, number, &hello], b"").text();
    assert!(said("--calls", "4097").starts_with("refused: 16, allowance\n"));
    assert!(said("--depth", "101").starts_with("refused: 16, allowance\n"));
    assert!(said("--cells", "8193").starts_with("refused: 15, buffers\n"));
    assert!(said("--cells", "4294967295").starts_with("refused: 15, buffers\n"));
    assert!(said("--posts", "257").starts_with("refused: 15, buffers\n"));
    assert!(said("--posts", "0").starts_with("stopped: 22, no place for a post, at term 1\n"));
    assert!(said("--cells", "8192").starts_with("ended in the number 7\n"));
    let checks =
        |words: &[&str]| ask(&[&["run"], words, &[&example("needs.hex")]].concat(), b"").status;
    assert_eq!((checks(&[]), checks(&["--skip-checks"])), (1, 0));
}

/// The lean form of choice.hex is choice-lean.hex.
#[test]
fn a_lean_form_is_written() {
    let lean = ask(&["lean", &example("choice.hex"), "-o", "-"], b"");
    let expected = ask(&["build", &example("choice-lean.hex"), "-o", "-"], b"");
    assert_eq!((lean.status, lean.output), (0, expected.output));
    let none = ask(&["lean", &example("page.hex"), "-o", "-"], b"");
    assert_eq!((none.status, none.output.len()), (1, 0));
    assert!(none.errors.starts_with("refused: 32, no lean form\n"));
}

#[test]
fn a_privilege_plays_a_part_or_none() {
    let said = |name: &str, privilege: &str| ask(&["names", &example(name), privilege], b"");
    assert_eq!(
        said("leftover.hex", "0").text(),
        "no term names privilege 0: it plays no part\n"
    );
    assert!(said("leftover.hex", "1")
        .text()
        .contains("the lowest term that names it is 4\n"));
    assert_eq!(said("leftover.hex", "1").status, 0);
    assert!(said("leftover.hex", "32")
        .text()
        .starts_with("refused: 30, no such privilege\n"));
}

/// The smallest sheet of each cause is refused in its words, with one place marked.
#[test]
fn each_refusal_is_marked() {
    for Smallest { cause, sheet, .. } in smallest::all() {
        if !matches!(cause, 1..=13 | 24..=26 | 31) {
            continue;
        }
        let checked = ask(&["check", "-"], &sheet);
        assert_eq!(checked.status, 1);
        assert!(
            checked.text().starts_with(&format!("refused: {cause}, ")),
            "{}",
            checked.text()
        );
        let shown = ask(&["show", "-"], &sheet).text();
        let marks: Vec<&str> = shown
            .lines()
            .filter(|line| line.starts_with("=> "))
            .collect();
        assert!((1..=2).contains(&marks.len()), "{shown}");
    }
}
