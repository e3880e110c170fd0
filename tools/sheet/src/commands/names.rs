//! `sheet names`.

use super::{privilege, read_request, refuse, Command, ACCEPTED};
use crate::arguments::{Arguments, Form};
use crate::console::{Console, Failure};
use crate::listing::Mark;
use crate::reading::Reading;
use crate::{library, listing};

pub const COMMAND: Command = Command {
    name: "names",
    form: Form {
        operands: &["FILE", "PRIVILEGE"],
        valued: &["--names"],
        flags: &["--hex"],
    },
    help: "\
usage: sheet names [--names NAMES] [--hex] FILE PRIVILEGE

Says whether a readable sheet names a privilege, in a check, in a test or as the
guard of a post, and the lowest term that does. A privilege that is not named
plays no part: runs from two starts that differ in it alone come out alike.

  --names NAMES  a file with lines such as 'privilege 0 stamp'; PRIVILEGE is
                 then a number or a name
  --hex          FILE is hexadecimal text, whatever its name

The exit status is 1 if the sheet cannot be read or there is no such privilege.
",
    run,
};

fn run(arguments: &Arguments, console: &mut Console) -> Result<u8, Failure> {
    let (bytes, names) = read_request(arguments, console)?;
    let privilege = privilege(arguments, &names)?;
    let reading = Reading::new(&bytes, &names);
    let name = names.privilege_in_words(privilege);
    let lines = match library::names(&bytes, privilege) {
        Ok(None) => vec![format!("no term names {name}: it plays no part")],
        Ok(Some(term)) => named(&reading, &name, term as usize),
        Err(refusal) => return refuse(&reading, refusal, None, console),
    };
    console.write(format!("{}\n", lines.join("\n")).as_bytes())?;
    Ok(ACCEPTED)
}

fn named(reading: &Reading, name: &str, term: usize) -> Vec<String> {
    let mut lines = vec![format!(
        "{name} is named; the lowest term that names it is {term}"
    )];
    if let Some(tree) = &reading.tree {
        lines.extend(listing::lines(
            reading,
            tree,
            &tree.path(term),
            Some(&Mark { term, note: None }),
        ));
    }
    lines
}
