//! `sheet compare`.

use std::ffi::OsStr;

use super::{Command, ACCEPTED, REFUSED};
use crate::arguments::{Arguments, Form};
use crate::causes;
use crate::console::{shown, Console, Failure};
use crate::library::{self, Comparison, ENTRY, MAX_DECISIONS};
use crate::names::Names;
use crate::show::counted;

pub const COMMAND: Command = Command {
    name: "compare",
    form: Form {
        operands: &["UNIT", "OFFICE"],
        valued: &["--names"],
        flags: &[],
    },
    help: "\
usage: sheet compare [--names NAMES] UNIT OFFICE

Holds a unit's record of a run, in the file UNIT, against the office's complete
record of it, in OFFICE. It fits if the unit's entries occur in the office's in
that order; others may stand between them, since a unit may drop entries.

  --names NAMES  a file with lines such as 'privilege 0 stamp'; the names stand
                 where a number would

'sheet run --record' writes records. The exit status is 1 if the unit's does not
fit or one of them is refused.
",
    run,
};

fn run(arguments: &Arguments, console: &mut Console) -> Result<u8, Failure> {
    let names = console.read_names(arguments.value("--names"))?;
    let [unit_path, office_path] = [&arguments.operands[0], &arguments.operands[1]];
    let unit = console.read(unit_path, MAX_DECISIONS * ENTRY)?;
    let office = console.read(office_path, MAX_DECISIONS * ENTRY)?;
    let (words, status) = match library::compare(&unit, &office) {
        Ok(Comparison::Fits { missing }) => (
            format!("fits, {} missing", counted_entries(missing as usize)),
            ACCEPTED,
        ),
        Ok(Comparison::Not { entry }) => (misfit(&unit, entry as usize, &names), REFUSED),
        Err(refusal) => {
            let which = if is_refused(&unit) {
                unit_path
            } else {
                office_path
            };
            (refused(which, refusal.cause), REFUSED)
        }
    };
    console.write(format!("{words}\n").as_bytes())?;
    Ok(status)
}

/// Whether the library refuses this record by itself.
fn is_refused(record: &[u8]) -> bool {
    library::compare(record, &[]).is_err()
}

fn refused(which: &OsStr, cause: u32) -> String {
    format!(
        "refused: {}, in {}\n  {}",
        causes::heading(cause),
        shown(which),
        causes::sentence(cause)
    )
}

fn counted_entries(count: usize) -> String {
    counted(count, "entry").replace("entrys", "entries")
}

fn misfit(unit: &[u8], number: usize, names: &Names) -> String {
    let words = format!("does not fit from the unit's entry {number} on, counted from 0");
    match unit.chunks_exact(ENTRY).nth(number) {
        Some(entry) => format!("{words}: {}", decision(entry, names)),
        None => words,
    }
}

/// An entry of a record in words.
pub fn decision(entry: &[u8], names: &Names) -> String {
    let term = u16::from_be_bytes([entry[0], entry[1]]);
    let answer = if entry[3] == 0 {
        "not granted"
    } else {
        "granted"
    };
    format!(
        "at term {term}, {} {answer}",
        names.privilege_in_words(entry[2].into())
    )
}
