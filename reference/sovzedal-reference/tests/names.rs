//! The names in the documents exist. In the tables of `docs/ARCHITECTURE.md`
//! each definition and theorem is made in the file that is given for it, and
//! each function in its module; what is defined has code or a theorem, and
//! each crate has a row. The names that a text or a comment speaks of exist,
//! and so do those that the templates of the definitions' rows import, and
//! every link of a document leads to a file and to a heading of it.
//! Where the repository is not around this workspace, there is nothing to
//! compare.

mod repository;

use repository::{files_below, repository};
use std::collections::{BTreeMap, BTreeSet};
use std::fmt::Debug;
use std::fs;
use std::path::{Path, PathBuf};

/// The documents whose paths `crate::module::item` and whose names are looked
/// up.
const DOCUMENTS: [&str; 5] = [
    "README.md",
    "CONTRIBUTING.md",
    "docs/ARCHITECTURE.md",
    "docs/DECISIONS.md",
    "reference/README.md",
];

/// The cells of a table's row, each under the header of its column.
type Row = BTreeMap<String, String>;

#[test]
fn definitions_and_theorems_exist() {
    let rows = architecture();
    let cells = cells(&rows, &["definition", "theorem or promise"]);
    none("not found", cells.flat_map(missing_in));
}

#[test]
fn functions_exist() {
    let rows = architecture();
    let in_tables = cells(&rows, &["entry", "function", "code"]).flat_map(quoted);
    none("not found", in_tables.filter(|path| !item_exists(path)));
    for name in DOCUMENTS {
        let text = document(name);
        let paths = text.lines().flat_map(quoted).filter(|it| it.contains("::"));
        none("not found", paths.filter(|path| !item_exists(path)));
    }
}

/// In the documents, and in the comments of the crates. Definitions, lemmas
/// and Rust's own names are spelled alike, so that a name may be one of any.
#[test]
fn names_in_text_exist() {
    let folders = ["specs", "proofs", "src"];
    let mut sources: Vec<String> = folders.into_iter().flat_map(every_source).collect();
    for (folder, extension) in [("include", "h"), ("reference", "rs")] {
        let paths = files_below(&repository().join(folder), extension);
        sources.extend(paths.iter().map(|path| code_of(path)));
    }
    let stem = |path: PathBuf| path.file_stem().unwrap().to_string_lossy().into_owned();
    sources.extend(crates().map(stem));
    sources.extend(
        files_below(&repository().join("crates"), "edit")
            .into_iter()
            .map(stem),
    );
    let known: BTreeSet<&str> = sources.iter().flat_map(|text| parts(text)).collect();
    let lacks = |word: &&str| !known.contains(word);
    for name in DOCUMENTS {
        let text = document(name);
        none(name, text.lines().flat_map(names_of).filter(lacks));
    }
    let folder = repository().join("crates");
    for path in [files_below(&folder, "antt"), files_below(&folder, "rt")].concat() {
        let text = fs::read_to_string(&path).expect("a text");
        let comments = text.lines().filter(|line| is_comment(line));
        let lacking = comments.flat_map(names_of).filter(lacks);
        none(&path.display().to_string(), lacking);
    }
}

#[test]
fn what_a_text_cites_exists() {
    for name in DOCUMENTS {
        let text = document(name);
        let cited = text.split("(`").skip(1).filter_map(cited);
        none(name, cited.flat_map(|cell| missing_in(&cell)));
    }
}

#[test]
fn what_a_public_function_requires_is_listed() {
    let rows = architecture();
    let listed: Vec<&str> = cells(&rows, &["function"]).flat_map(quoted).collect();
    let requiring = crates().flat_map(|path| requiring(&path));
    none(
        "not listed",
        requiring.filter(|path| !listed.contains(&path.as_str())),
    );
}

#[test]
fn words_of_promises_exist() {
    let rows = architecture();
    let sources = every_source("src").chain(every_source("specs"));
    let sources: Vec<String> = sources.collect();
    let expressions = cells(&rows, &["promise", "requires", "here"]).flat_map(quoted);
    let words = expressions.flat_map(parts);
    none(
        "not found",
        words.filter(|word| !sources.iter().any(|source| has_word(source, word))),
    );
}

#[test]
fn a_definition_has_code_or_a_theorem() {
    let rows = architecture();
    let has = |row: &Row, column| !without_notes(&row[column]).trim().is_empty();
    let defined = rows
        .iter()
        .filter(|row| row.contains_key("definition") && has(row, "definition"));
    let bare = defined.filter(|row| !has(row, "code") && !has(row, "theorem or promise"));
    none("neither code nor theorem", bare.map(|row| &row["01"]));
}

#[test]
fn each_crate_has_a_row() {
    let rows = architecture();
    let text = document("crates.txt");
    let listed = text.lines().filter_map(|line| line.split_once(':'));
    let listed = listed.filter(|(name, _)| !name.contains('#'));
    // "staticlib" may stand behind the name.
    let listed = listed.filter_map(|(name, below)| Some((name.split(' ').next()?, below)));
    let listed: BTreeMap<&str, &str> = listed.collect();
    let rows = rows.iter().filter(|row| row.contains_key("crate"));
    let rows: BTreeMap<&str, &Row> = rows
        .filter_map(|row| Some((quoted(&row["crate"]).next()?, row)))
        .collect();
    assert_eq!(Vec::from_iter(rows.keys()), Vec::from_iter(listed.keys()));
    for (name, row) in rows {
        let below: Vec<&str> = listed[name].split_whitespace().collect();
        none(
            "not below it",
            quoted(&row["builds on"]).filter(|name| !below.contains(name)),
        );
    }
}

#[test]
fn names_in_templates_exist() {
    let templates = files(&repository().join("reference/definitions/templates"));
    let imports: Vec<Import> = templates.iter().flat_map(|text| imports(text)).collect();
    let around = repository().join("crates").exists();
    assert!(!around || imports.len() > 20, "imports: {}", imports.len());
    let imports = imports.iter().filter(|_| around);
    none("not found", imports.flat_map(Import::missing));
}

#[test]
fn links_lead_somewhere() {
    let around = repository().join("crates").exists();
    let documents = files_below(&repository(), "md");
    let documents = documents.iter().filter(|_| around);
    none(
        "leads nowhere",
        documents.flat_map(|path| broken_links(path)),
    );
}

/// The rows of all tables of `docs/ARCHITECTURE.md`.
fn architecture() -> Vec<Row> {
    let text = document("docs/ARCHITECTURE.md");
    let mut rows: Vec<Row> = Vec::new();
    let mut header: Vec<&str> = Vec::new();
    for line in text.lines() {
        let cells: Vec<&str> = line.trim_matches('|').split('|').map(str::trim).collect();
        if !line.starts_with('|') {
            header.clear();
        } else if header.is_empty() {
            header = cells;
        } else if !line.starts_with("|---") {
            assert_eq!(header.len(), cells.len(), "cells of {line}");
            let owned = |(name, cell): (&&str, &&str)| (name.to_string(), cell.to_string());
            rows.push(header.iter().zip(&cells).map(owned).collect());
        }
    }
    assert!(text.is_empty() || rows.len() > 150, "rows: {}", rows.len());
    rows
}

/// The cells of these columns that are not empty.
fn cells<'a>(rows: &'a [Row], columns: &'a [&str]) -> impl Iterator<Item = &'a str> {
    let cells = columns
        .iter()
        .flat_map(|column| rows.iter().filter_map(|row| row.get(*column)));
    cells.map(String::as_str).filter(|cell| !cell.is_empty())
}

fn none<T: Debug>(wrong: &str, items: impl Iterator<Item = T>) {
    let items: Vec<T> = items.collect();
    assert!(items.is_empty(), "{wrong}: {items:#?}");
}

/// What a cell names and the repository lacks. A cell is parts with `;`
/// between them: `crate/File: names`, `File: names` of the crate before, names
/// alone, which may stand in any crate, or words around what is in backticks.
fn missing_in(cell: &str) -> Vec<String> {
    let mut missing = Vec::new();
    let mut crate_name = "";
    for part in without_notes(cell).split(';').map(str::trim) {
        if part.contains('`') {
            continue;
        }
        let (file, names) = part.split_once(": ").unwrap_or(match part.contains('/') {
            true => (part, ""),
            false => ("", part),
        });
        let file = match file.split_once('/') {
            Some((named, file)) => {
                crate_name = named;
                file
            }
            None => file,
        };
        let sources = sources(crate_name, file);
        if sources.is_empty() {
            missing.push(format!("{crate_name}/{file}"));
        }
        let lacks = |name: &&str| !sources.iter().any(|source| defines(source, name));
        let lacking = words(names).filter(lacks);
        missing.extend(lacking.map(|name| format!("{crate_name}/{file}: {name}")));
    }
    missing
}

/// The cell without what stands in round brackets.
fn without_notes(cell: &str) -> String {
    let mut depth = 0;
    let mut kept = String::new();
    for c in cell.chars() {
        match c {
            '(' => depth += 1,
            ')' => depth -= 1,
            c if depth == 0 => kept.push(c),
            _ => (),
        }
    }
    kept
}

/// A line `use Rattle.crate.specs.File.{names}`, or one of proofs.
struct Import<'a> {
    crate_name: &'a str,
    file: &'a str,
    names: &'a str,
}

impl Import<'_> {
    fn missing(&self) -> Vec<String> {
        missing_in(&format!(
            "{}/{}: {}",
            self.crate_name, self.file, self.names
        ))
    }
}

/// What a text imports from crates of the repository, and not from the
/// toolchain's library or from that which the rows themselves are in.
fn imports(text: &str) -> impl Iterator<Item = Import<'_>> {
    let lines = text.lines().filter_map(|line| {
        let rest = line.strip_prefix("use Rattle.")?;
        let folders = [".specs.", ".proofs."];
        let (crate_name, rest) = folders.iter().find_map(|folder| rest.split_once(folder))?;
        let (file, names) = rest.strip_suffix('}')?.split_once(".{")?;
        Some(Import {
            crate_name,
            file,
            names,
        })
    });
    lines.filter(|import| !["std", "definition_rows"].contains(&import.crate_name))
}

/// The links of a document to a file that is not there, or to a heading that
/// its document does not have.
fn broken_links(path: &Path) -> Vec<String> {
    let text = fs::read_to_string(path).expect("a text");
    let folder = path.parent().expect("a folder");
    let links = text.split("](").skip(1);
    let links = links.filter_map(|rest| rest.split_once(')').map(|(link, _)| link));
    let leads = |link: &&str| {
        let (file, heading) = link.split_once('#').unwrap_or((link, ""));
        let target = match file {
            "" => path.to_owned(),
            file => folder.join(file),
        };
        target.exists() && (heading.is_empty() || has_heading(&target, heading))
    };
    let broken = links.filter(|link| !leads(link));
    broken
        .map(|link| format!("{}: {link}", path.display()))
        .collect()
}

/// Whether a document has the heading that is linked to by this word: lower
/// case, hyphens for blanks, and no other marks.
fn has_heading(path: &Path, word: &str) -> bool {
    let text = fs::read_to_string(path).expect("a text");
    let mut headings = text.lines().filter(|line| line.starts_with('#'));
    headings.any(|line| {
        let heading = line.trim_start_matches('#').trim().to_lowercase();
        let kept = heading
            .chars()
            .filter(|&c| c.is_alphanumeric() || "-_ ".contains(c));
        kept.map(|c| if c == ' ' { '-' } else { c })
            .eq(word.chars())
    })
}

/// The names of a list: the first word of each of its items.
fn words(names: &str) -> impl Iterator<Item = &str> {
    let items = names.split([',', '…']).flat_map(|item| item.split(" and "));
    items
        .filter_map(|item| item.split_whitespace().next())
        .flat_map(|path| path.split('.'))
}

/// What a text cites behind this place as "(`crate`, File: names)", as a cell
/// of a table has it.
fn cited(text: &str) -> Option<String> {
    let (crate_name, rest) = text.split_once("`, ")?;
    let (file, rest) = rest.split_once(": ")?;
    let (names, _) = rest.split_once([')', ';'])?;
    let is_path = |path: &str| path.split('/').all(|part| part.chars().all(part_of_name));
    let cell = format!("{crate_name}/{}: {names}", file.replace('/', "."));
    (is_path(crate_name) && is_path(file)).then_some(cell)
}

/// The names that a line speaks of: the words in backticks that are of letters,
/// digits and underscores alone, with an underscore inside, or with a capital
/// as no name has one.
fn names_of(line: &str) -> impl Iterator<Item = &str> {
    let words = quoted(line).flat_map(parts);
    let words = words.filter(|word| word.chars().all(|c| c == '_' || c.is_alphanumeric()));
    let words = words.filter(|word| word.starts_with(char::is_lowercase));
    words.filter(|word| word.contains(|c: char| c == '_' || c.is_uppercase()))
}

/// The words of a text.
fn parts(text: &str) -> impl Iterator<Item = &str> {
    let words = text.split(|c| !part_of_name(c));
    words.filter(|word| !word.is_empty())
}

/// What stands in backticks.
fn quoted(text: &str) -> impl Iterator<Item = &str> {
    text.split('`').skip(1).step_by(2)
}

/// Whether `crate::module::item`, which may have parameters, is in its module;
/// or, as `crate::module::Type::item`, among the functions of a type there.
fn item_exists(path: &str) -> bool {
    let path = path.split('(').next().unwrap();
    let Some((module, item)) = path.rsplit_once("::") else {
        return false;
    };
    let (module, owner) = match module.rsplit_once("::") {
        Some((module, owner)) if owner.starts_with(char::is_uppercase) => (module, Some(owner)),
        _ => (module, None),
    };
    let (crate_name, files) = match module.split_once("::") {
        Some((crate_name, file)) => (crate_name, vec![file]),
        None => (module, vec!["lib", "main"]),
    };
    let folder = repository().join("crates").join(crate_name).join("src");
    let paths = files.iter().map(|file| folder.join(format!("{file}.rt")));
    let mut texts = paths.filter_map(|path| fs::read_to_string(path).ok());
    let kinds = ["fn", "mod", "struct", "enum", "type", "const"];
    let kinds = kinds.map(|kind| format!("{kind} {item}"));
    texts.any(|text| {
        let text = match owner {
            Some(owner) => functions_of(&text, owner),
            None => text,
        };
        kinds.iter().any(|kind| has_word(&text, kind))
    })
}

/// The `impl` blocks of a type.
fn functions_of(text: &str, owner: &str) -> String {
    let blocks = impls(text).filter(|(name, _)| *name == owner);
    blocks.map(|(_, block)| block).collect()
}

/// The `impl` blocks of a file, each with its type.
fn impls(text: &str) -> impl Iterator<Item = (&str, &str)> {
    let blocks = text.split("\nimpl").skip(1);
    let blocks = blocks.map(|block| block.split_once("\n}").map_or(block, |(block, _)| block));
    blocks.filter_map(|block| {
        let (head, _) = block.split_once(" {")?;
        let name = head.rsplit(' ').next()?;
        Some((name.split('<').next()?, block))
    })
}

/// The texts that a name may stand in: the file of the crate, of definitions
/// or of laws and theorems, or every crate's if none is named.
fn sources(crate_name: &str, file: &str) -> Vec<String> {
    let folders = ["specs", "proofs"];
    if file.is_empty() {
        return folders.into_iter().flat_map(every_source).collect();
    }
    let file = format!("{}.antt", file.replace('.', "/"));
    let crate_folder = repository().join("crates").join(crate_name);
    folders
        .into_iter()
        .filter_map(|folder| fs::read_to_string(crate_folder.join(folder).join(&file)).ok())
        .map(|text| without_comments(&text))
        .collect()
}

/// The paths of the public functions of a crate that have a `requires`.
fn requiring(crate_folder: &Path) -> Vec<String> {
    let name = |path: &Path| path.file_stem().unwrap().to_str().unwrap().to_owned();
    let sources = fs::read_dir(crate_folder.join("src")).into_iter().flatten();
    let mut paths = Vec::new();
    for source in sources.map(|entry| entry.expect("a source").path()) {
        let module = match name(&source).as_str() {
            "lib" | "main" => name(crate_folder),
            file => format!("{}::{file}", name(crate_folder)),
        };
        let text = fs::read_to_string(&source).expect("a text");
        paths.extend(requiring_in(&text, "").map(|function| format!("{module}::{function}")));
        for (owner, block) in impls(&text) {
            let functions = requiring_in(block, "    ");
            paths.extend(functions.map(|function| format!("{module}::{owner}::{function}")));
        }
    }
    paths
}

/// The public functions of a text, at this depth, that have a `requires`.
fn requiring_in<'a>(text: &'a str, depth: &str) -> impl Iterator<Item = &'a str> {
    let body = format!("\n{depth}{{\n");
    let clause = format!("\n{depth}    requires ");
    let start = format!("\n{depth}pub fn ");
    let heads = text.split(&start).skip(1);
    let heads: Vec<&str> = heads.filter_map(|text| text.split(&body).next()).collect();
    let heads = heads.into_iter().filter(move |head| head.contains(&clause));
    heads.map(|head| head.split(['(', '<']).next().unwrap())
}

/// The texts in this folder of every crate.
fn every_source(folder: &'static str) -> impl Iterator<Item = String> {
    crates().flat_map(move |path| files(&path.join(folder)))
}

/// The folders of the crates.
fn crates() -> impl Iterator<Item = PathBuf> {
    let crates = fs::read_dir(repository().join("crates"));
    let crates = crates.into_iter().flatten();
    crates.map(|entry| entry.expect("a crate").path())
}

/// The texts of all files below a directory, without comments.
fn files(directory: &Path) -> Vec<String> {
    let Ok(entries) = fs::read_dir(directory) else {
        return Vec::new();
    };
    entries
        .map(|entry| entry.expect("an entry").path())
        .flat_map(|path| match path.is_dir() {
            true => files(&path),
            false => vec![code_of(&path)],
        })
        .collect()
}

/// The text of a file, without comments.
fn code_of(path: &Path) -> String {
    without_comments(&fs::read_to_string(path).expect("a text"))
}

fn is_comment(line: &str) -> bool {
    let line = line.trim_start();
    line.starts_with("--") || line.starts_with("//")
}

fn without_comments(text: &str) -> String {
    text.lines()
        .filter(|line| !is_comment(line))
        .flat_map(|line| [line, "\n"])
        .collect()
}

/// Whether the text gives this name a type.
fn defines(text: &str, name: &str) -> bool {
    let mut heads = text.lines().filter_map(|line| line.split_once(" :"));
    heads.any(|(head, _)| has_word(head, name))
}

/// Whether the text has this name as a word of its own.
fn has_word(text: &str, name: &str) -> bool {
    text.match_indices(name).any(|(at, _)| {
        let before = text[..at].chars().next_back();
        let after = text[at + name.len()..].chars().next();
        !before.is_some_and(part_of_name) && !after.is_some_and(part_of_name)
    })
}

fn part_of_name(c: char) -> bool {
    c.is_alphanumeric() || "-_'".contains(c)
}

/// A text of the repository, empty where that is not around this workspace.
fn document(name: &str) -> String {
    if !repository().join("crates").exists() {
        return String::new();
    }
    let text = fs::read_to_string(repository().join(name));
    text.unwrap_or_else(|error| panic!("{name}: {error}"))
}
