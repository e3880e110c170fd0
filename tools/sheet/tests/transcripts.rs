//! Sessions with the tool from the repository's root, in full: those of `tests/golden` and of the readmes. With
//! SHEET_BLESS=1 the sessions of `tests/golden` are written anew.

use std::path::{Path, PathBuf};
use std::process::Command;
use std::{env, fs};

fn repository() -> PathBuf {
    PathBuf::from(env!("CARGO_MANIFEST_DIR")).join("../..")
}

/// What the tool writes on both streams, and its exit status if that is not 0.
fn answer(words: &str) -> String {
    let mut command = Command::new(env!("CARGO_BIN_EXE_sheet"));
    command
        .args(words.split_whitespace())
        .current_dir(repository());
    let output = command.output().expect("the tool runs");
    let mut text = String::from_utf8(output.stdout).expect("text");
    text.push_str(&String::from_utf8(output.stderr).expect("text"));
    match output.status.code() {
        Some(0) => {}
        status => text.push_str(&format!("status {}\n", status.expect("an end"))),
    }
    text
}

/// The session again: each line that begins with `$ sheet`, and what is answered now.
fn again(session: &str) -> String {
    let commands = session.lines().filter(|line| line.starts_with("$ sheet "));
    commands
        .map(|line| format!("{line}\n{}\n", answer(&line["$ sheet ".len()..])))
        .collect()
}

#[test]
fn the_sessions_are_as_recorded() {
    let mut seen = 0;
    let directory = Path::new(env!("CARGO_MANIFEST_DIR")).join("tests/golden");
    for entry in fs::read_dir(directory).expect("the sessions") {
        let path = entry.expect("a session").path();
        let recorded = fs::read_to_string(&path).expect("a session");
        let now = again(&recorded);
        if env::var_os("SHEET_BLESS").is_some() {
            fs::write(&path, &now).expect("the session is written");
        } else {
            assert_eq!(now, recorded, "{}", path.display());
        }
        seen += 1;
    }
    assert!(seen > 0);
}

/// In a readme a block of text comes after the command that prints it.
fn shown(readme: &str) -> Vec<(String, String)> {
    let mut shown = Vec::new();
    let mut command = None;
    let mut lines = readme.lines();
    while let Some(line) = lines.next() {
        if let Some(words) = line.strip_prefix("    sheet ") {
            command = Some(words.to_string());
        } else if line == "```text" {
            let block: String = lines
                .by_ref()
                .take_while(|&line| line != "```")
                .map(|line| format!("{line}\n"))
                .collect();
            shown.extend(command.take().map(|command| (command, block)));
        }
    }
    shown
}

#[test]
fn the_readmes_show_what_is_printed() {
    for readme in ["README.md", "tools/sheet/README.md"] {
        let text = fs::read_to_string(repository().join(readme)).expect("a readme");
        let shown = shown(&text);
        assert!(!shown.is_empty(), "{readme}");
        for (command, block) in shown {
            let printed = answer(&command);
            let printed = printed.trim_end_matches("status 1\n");
            assert_eq!(printed, block, "{readme}: {command}");
        }
    }
}
