//! `sheet why`.

use super::{privilege, read_request, refuse, Command, ACCEPTED};
use crate::arguments::{Arguments, Form};
use crate::console::{Console, Failure};
use crate::listing::Mark;
use crate::reading::Reading;
use crate::{kinds, library, listing};

pub const COMMAND: Command = Command {
    name: "why",
    form: Form {
        operands: &["FILE", "PRIVILEGE"],
        valued: &["--names"],
        flags: &["--hex"],
    },
    help: "\
usage: sheet why [--names NAMES] [--hex] FILE PRIVILEGE

Says why an accepted sheet needs a privilege: the terms from the root down to
the cause, each a child of the one before and with the privilege among its
needs. Other causes may be behind the one that is told.

  --names NAMES  a file with lines such as 'privilege 0 stamp'; PRIVILEGE is
                 then a number or a name
  --hex          FILE is hexadecimal text, whatever its name

The exit status is 1 if the sheet is refused.
",
    run,
};

fn run(arguments: &Arguments, console: &mut Console) -> Result<u8, Failure> {
    let (bytes, names) = read_request(arguments, console)?;
    let privilege = privilege(arguments, &names)?;
    let reading = Reading::new(&bytes, &names);
    match library::explain(&bytes, privilege) {
        Ok(terms) => {
            console
                .write(format!("{}\n", chain(&reading, privilege, &terms).join("\n")).as_bytes())?;
            Ok(ACCEPTED)
        }
        Err(refusal) => refuse(&reading, refusal, None, console),
    }
}

/// The chain of a need in words.
pub fn chain(reading: &Reading, privilege: u32, terms: &[u16]) -> Vec<String> {
    let name = reading.names.privilege_in_words(privilege);
    let terms: Vec<usize> = terms.iter().map(|&term| term.into()).collect();
    let (Some(&cause), Some(tree)) = (terms.last(), &reading.tree) else {
        return vec![format!("{name} is not needed")];
    };
    let mut lines = vec![format!("{name} is needed:")];
    let mark = Mark {
        term: cause,
        note: Some(cause_words(reading, cause).to_string()),
    };
    lines.extend(listing::lines(reading, tree, &terms, Some(&mark)));
    lines
}

fn cause_words(reading: &Reading, term: usize) -> &'static str {
    match reading.sheet.terms.get(term).map(|term| term.kind) {
        Some(kinds::CHECK) => "the cause: a check of it",
        Some(kinds::POST) => "the cause: a post on a channel that it guards",
        Some(kinds::CALL) => "the cause: a call of a function whose type names it",
        _ => "the cause: a letrec whose type names it",
    }
}
