//! The files of the crate `definition_rows`, and its line in `crates.txt`.

use crate::antt;
use crate::row::{Compared, Entry};
use sheets::seed::number_from;
use std::fs::{self, OpenOptions};
use std::io::{self, Write};
use std::path::Path;

const LINE: &str =
    "definition_rows: intervals soundness subterms typing semantics traces program privileges";
const CRATE: &str = "crates/definition_rows";

/// How many rows a theorem has, or a few more.
const ROWS: &str = "SOVZEDAL_ROWS";
const DEFAULT_ROWS: u64 = 20;

/// Writes the crate anew.
pub fn write(directory: &Path, entries: Vec<Entry>, compared: &[Compared]) -> io::Result<()> {
    let folder = directory.join(CRATE);
    if folder.exists() {
        fs::remove_dir_all(&folder)?;
    }
    let (src, specs) = (folder.join("src"), folder.join("specs"));
    fs::create_dir_all(&src)?;
    fs::create_dir_all(&specs)?;
    fs::write(
        src.join("lib.rt"),
        "// Rows only, in specs/.\n#![tactic(auto)]\n",
    )?;
    fs::write(specs.join("Table.antt"), antt::TABLE)?;
    let mut modules = "pub mod Table\n".to_string();
    let rows = number_from(ROWS).unwrap_or(DEFAULT_ROWS) as usize;
    let about_sheets = theorems(entries, rows);
    let about_sheets = about_sheets.iter().map(|entries| antt::theorem(entries));
    let about_records = compared.chunks(rows).map(antt::comparisons);
    for (number, theorem) in about_sheets.chain(about_records).enumerate() {
        let name = format!("Rows{number}");
        fs::write(specs.join(format!("{name}.antt")), theorem)?;
        modules += &format!("pub mod {name}\n");
    }
    fs::write(specs.join("Lib.antt"), modules)?;
    list(&directory.join("crates.txt"))
}

/// Splits the entries into theorems. The rows of an entry stay together, so
/// that the checker reads the sheet once for all of them; but if a theorem is
/// to have one row, it has one.
fn theorems(entries: Vec<Entry>, rows: usize) -> Vec<Vec<Entry>> {
    if rows == 1 {
        let alone = entries.into_iter().flat_map(Entry::split);
        return alone.map(|entry| vec![entry]).collect();
    }
    let mut theorems: Vec<Vec<Entry>> = Vec::new();
    for entry in entries {
        match theorems.last_mut() {
            Some(last) if row_count(last) < rows => last.push(entry),
            _ => theorems.push(vec![entry]),
        }
    }
    theorems
}

pub fn row_count(entries: &[Entry]) -> usize {
    entries.iter().map(|entry| entry.rows.len()).sum()
}

/// Adds the crate's line, unless it is there.
fn list(path: &Path) -> io::Result<()> {
    let mut file = OpenOptions::new().create(true).append(true).open(path)?;
    if fs::read_to_string(path)?.lines().all(|line| line != LINE) {
        writeln!(file, "{LINE}")?;
    }
    Ok(())
}
