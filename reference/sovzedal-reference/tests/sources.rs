//! How the files of the crates are laid out, which no prover asks about: lines
//! that fit a page, files that say at their beginning what they hold, names
//! that mean one thing, imports that are used, and must-fail edits whose text
//! is there once. Where the repository is not around this workspace, there is
//! nothing to look at.

mod repository;

use repository::{files_below, repository};
use std::collections::BTreeMap;
use std::fs;
use std::path::{Path, PathBuf};

/// Characters of the longest line, imports aside, which the toolchain's
/// formatter does not break.
const LONGEST: usize = 160;

/// Where an argument stands in the name of an operator.
const ARGUMENT: char = '◌';

#[test]
fn lines_fit_a_page() {
    let mut long = Vec::new();
    for path in [files("antt"), files("rt")].concat() {
        let imports = ["use ", "pub use ", "ghost use "];
        for (at, line) in read(&path).lines().enumerate() {
            let import = imports.iter().any(|it| line.trim_start().starts_with(it));
            if !import && line.chars().count() > LONGEST {
                long.push(format!("{}:{}", path.display(), at + 1));
            }
        }
    }
    assert!(long.is_empty(), "over {LONGEST} characters: {long:#?}");
}

/// But for the lists of modules.
#[test]
fn files_say_what_they_hold() {
    let silent = [("antt", "--"), ("rt", "//")].map(|(extension, comment)| {
        let mut paths = files(extension);
        paths.retain(|path| {
            let text = read(path);
            let is_list = |line: &str| ["pub mod ", "mod "].iter().any(|it| line.starts_with(it));
            !text.starts_with(comment) && !text.lines().all(is_list)
        });
        paths
    });
    assert!(
        silent.concat().is_empty(),
        "no opening comment: {silent:#?}"
    );
}

/// No two files give one name to a type or to a public definition. A struct or
/// an enum may be called what its model is called, each table of examples, in a
/// file whose name ends in `Cases`, has rows and results of its own, and what a
/// loop keeps and what falls is called as the checker asks.
#[test]
fn a_name_means_one_thing() {
    let models = files("antt").into_iter().filter(|path| !is_table(path));
    for kind in [models.collect(), files("rt")] {
        let mut places: BTreeMap<String, Vec<PathBuf>> = BTreeMap::new();
        for path in kind {
            for name in defined(&read(&path)) {
                let of_name = places.entry(name).or_default();
                if !of_name.contains(&path) {
                    of_name.push(path.clone());
                }
            }
        }
        assert!(!repository().join("crates").exists() || places.len() > 50);
        places.retain(|_, paths| paths.len() > 1);
        assert!(places.is_empty(), "in several files: {places:#?}");
    }
}

#[test]
fn imports_are_used() {
    let mut unused = Vec::new();
    for path in [files("antt"), files("rt")].concat() {
        let text = read(&path);
        let imported = text.lines().flat_map(imported);
        let lines = text.lines().filter(|line| imported_list(line).is_none());
        let lines = lines.filter(|line| !is_comment(line));
        let body: Vec<&str> = lines.collect();
        let body = body.join("\n");
        let missing = imported.filter(|name| !is_used(name, &body));
        unused.extend(missing.map(|name| format!("{}: {name}", path.display())));
    }
    assert!(unused.is_empty(), "imported and not used: {unused:#?}");
}

/// The gate tells of an edit that no longer applies only when it comes to it.
/// Of several pairs each is applied to what those before it made.
#[test]
fn edits_apply() {
    let edits = files("edit");
    for edit in &edits {
        let crate_folder = edit.ancestors().nth(2).expect("a crate");
        let (mut file, mut wanted) = (String::new(), String::new());
        let mut pairs = 0;
        for line in read(edit).lines() {
            if let Some(named) = line.strip_prefix("file: ") {
                file = read(&crate_folder.join(named));
            } else if let Some(old) = line.strip_prefix("old: ") {
                let found = file.matches(old).count();
                assert_eq!(found, 1, "{}: {old}", edit.display());
                wanted = old.to_string();
                pairs += 1;
            } else if let Some(new) = line.strip_prefix("new:") {
                file = file.replacen(&wanted, new.trim_start(), 1);
            }
        }
        assert!(pairs > 0, "{}: nothing is edited", edit.display());
    }
    assert!(!repository().join("crates").exists() || edits.len() > 200);
}

/// Whether a file holds a table of examples.
fn is_table(path: &Path) -> bool {
    let name = path.file_stem().and_then(|name| name.to_str());
    name.is_some_and(|name| name.ends_with("Cases"))
}

/// The types and the public definitions of a file.
fn defined(text: &str) -> Vec<String> {
    let heads = [
        "record ",
        "data ",
        "abbrev pub ",
        "unfoldable pub ",
        "struct ",
        "enum ",
    ];
    let lines = text.lines().map(str::trim_start);
    let lines = lines.map(|line| line.strip_prefix("pub ").unwrap_or(line));
    let rests = lines.filter_map(|line| heads.iter().find_map(|head| line.strip_prefix(head)));
    rests
        .map(|rest| {
            rest.chars()
                .take_while(|&c| part_of_name(c) || c == ARGUMENT)
                .collect()
        })
        .filter(|name: &String| name.contains(char::is_alphanumeric))
        .filter(|name| !is_asked(name))
        .collect()
}

/// Whether a name is that of what the checker asks of a function or a loop.
fn is_asked(name: &str) -> bool {
    ["invariant", "decreases"].iter().any(|what| {
        let rest = name.strip_prefix(what);
        rest.is_some_and(|rest| rest.is_empty() || rest.starts_with('-'))
    })
}

/// What stands in the braces of a line that imports names.
fn imported_list(line: &str) -> Option<&str> {
    let line = line.strip_prefix("ghost ").unwrap_or(line);
    let (_, list) = line.strip_prefix("use ")?.split_once(".{")?;
    list.trim_end_matches(';').strip_suffix('}')
}

/// The names that a line brings in, each as the file calls it.
fn imported(line: &str) -> impl Iterator<Item = &str> {
    let items = imported_list(line).into_iter().flat_map(|it| it.split(','));
    items.filter_map(|item| item.rsplit(" as ").next().map(str::trim))
}

fn is_comment(line: &str) -> bool {
    ["--", "//"]
        .iter()
        .any(|it| line.trim_start().starts_with(it))
}

/// Whether the text has the name as a word, or of an operator each part.
fn is_used(name: &str, text: &str) -> bool {
    match name.contains(ARGUMENT) {
        true => name.split(ARGUMENT).all(|part| text.contains(part)),
        false => text.match_indices(name).any(|(at, _)| {
            let before = text[..at].chars().next_back();
            let after = text[at + name.len()..].chars().next();
            !before.is_some_and(part_of_name) && !after.is_some_and(part_of_name)
        }),
    }
}

fn part_of_name(c: char) -> bool {
    c.is_alphanumeric() || "-_'′".contains(c)
}

fn files(extension: &str) -> Vec<PathBuf> {
    files_below(&repository().join("crates"), extension)
}

fn read(path: &Path) -> String {
    fs::read_to_string(path).unwrap_or_else(|error| panic!("{}: {error}", path.display()))
}
