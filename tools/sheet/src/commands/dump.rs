//! `sheet dump`.

use super::{read_request, Command, ACCEPTED};
use crate::arguments::{Arguments, Form};
use crate::console::{file, Console, Failure};
use crate::dump::dump;
use crate::library::MAX_SHEET;
use crate::reading::Reading;

pub const COMMAND: Command = Command {
    name: "dump",
    form: Form {
        operands: &["FILE"],
        valued: &["--names"],
        flags: &["--hex"],
    },
    help: "\
usage: sheet dump [--names NAMES] [--hex] FILE

Writes a sheet as hexadecimal text with comments: two digits a byte, a header or
record a line. 'sheet build' gives the same bytes back. Whether the sheet can be
read does not matter: what cannot be followed is written without comments.

  --names NAMES  a file with lines such as 'privilege 0 stamp' and 'principal 1
                 inspector'; the names stand in the comments
  --hex          FILE is hexadecimal text already, whatever its name
",
    run,
};

fn run(arguments: &Arguments, console: &mut Console) -> Result<u8, Failure> {
    let (bytes, names) = read_request(arguments, console)?;
    if bytes.len() > MAX_SHEET {
        return Err(file(
            &arguments.operands[0],
            &format!("more than {MAX_SHEET} bytes, which no sheet has"),
        ));
    }
    console.write(dump(&Reading::new(&bytes, &names)).as_bytes())?;
    Ok(ACCEPTED)
}
