//! `sheet lean`.

use super::{read_request, refuse, Command, ACCEPTED};
use crate::arguments::{Arguments, Form};
use crate::console::{has_hex_name, Console, Failure};
use crate::dump::dump;
use crate::library;
use crate::reading::Reading;

pub const COMMAND: Command = Command {
    name: "lean",
    form: Form {
        operands: &["FILE"],
        valued: &["--names", "-o"],
        flags: &["--hex"],
    },
    help: "\
usage: sheet lean [--names NAMES] [--hex] FILE -o OUT

Writes the lean form of an accepted sheet of version 1 without tests: the sheet
without its checks and enables, and with every latent set empty. On a start
stack that grants what the old sheet needs it runs as the old one does.

  -o OUT         the file for the lean sheet, which is written over and cannot
                 be FILE: its bytes or, where its name ends in .hex, hexadecimal
                 text as 'sheet dump' writes it. - is standard output; a refusal
                 is then told on standard error
  --names NAMES  a file with names for what a refusal says, and for the comments
                 of text
  --hex          FILE is hexadecimal text, whatever its name

The exit status is 1 if the sheet is refused or has no lean form.
",
    run,
};

fn run(arguments: &Arguments, console: &mut Console) -> Result<u8, Failure> {
    let out = super::out(arguments)?;
    let (bytes, names) = read_request(arguments, console)?;
    match library::erase(&bytes) {
        Ok(lean) => {
            if has_hex_name(out) {
                let text = dump(&Reading::new(&lean, &names));
                console.write_over(out, text.as_bytes())?;
            } else {
                console.write_over(out, &lean)?;
            }
            let words = format!("{} bytes in place of {}", lean.len(), bytes.len());
            console.remark(out, &words)?;
            Ok(ACCEPTED)
        }
        Err(refusal) => {
            let reading = Reading::new(&bytes, &names);
            refuse(&reading, refusal, Some(out), console)
        }
    }
}
