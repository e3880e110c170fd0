//! `sheet build`.

use super::{Command, ACCEPTED};
use crate::arguments::{Arguments, Form};
use crate::console::{file, has_hex_name, Console, Failure};
use crate::library::MAX_SHEET;
use crate::show::counted;

pub const COMMAND: Command = Command {
    name: "build",
    form: Form {
        operands: &["FILE.hex"],
        valued: &["-o"],
        flags: &[],
    },
    help: "\
usage: sheet build FILE.hex -o OUT

Writes the bytes of hexadecimal text: two digits a byte, with blanks and line
ends between them where one likes, and comments from # to the end of a line.
They are not judged: 'sheet check' does that.

  -o OUT  the file for the bytes, which is written over; its name cannot end in
          .hex, as those of text do. - is standard output
",
    run,
};

fn run(arguments: &Arguments, console: &mut Console) -> Result<u8, Failure> {
    let out = super::out(arguments)?;
    if has_hex_name(out) {
        return Err(file(
            out,
            "a file of this name has hexadecimal text, and bytes are to be written",
        ));
    }
    let path = &arguments.operands[0];
    let bytes = console.read_hex(path)?;
    if bytes.len() > MAX_SHEET {
        return Err(file(
            path,
            &format!("more than {MAX_SHEET} bytes, which no sheet has"),
        ));
    }
    console.write_over(out, &bytes)?;
    console.remark(out, &counted(bytes.len(), "byte"))?;
    Ok(ACCEPTED)
}
