//! `sheet show`.

use super::{read_request, Command, ACCEPTED, REFUSED};
use crate::arguments::{Arguments, Form};
use crate::console::{shown, Console, Failure};
use crate::reading::Reading;
use crate::{html, show};

pub const COMMAND: Command = Command {
    name: "show",
    form: Form {
        operands: &["FILE"],
        valued: &["--names"],
        flags: &["--html", "--hex"],
    },
    help: "\
usage: sheet show [--html] [--names NAMES] [--hex] FILE

Shows a sheet: its principals and what they may use, its types, the guards of
its channels, and its terms as a tree from the root, each with its number, the
principal that signs it, its type and its needs. A sheet that is refused is
shown as far as it can be read, with the place marked.

  --html         a page for a browser instead, on standard output
  --names NAMES  a file with lines such as 'privilege 0 stamp' and 'principal 1
                 inspector'; the names stand where a number would
  --hex          FILE is hexadecimal text, whatever its name

The exit status is 1 if the sheet is refused.
",
    run,
};

fn run(arguments: &Arguments, console: &mut Console) -> Result<u8, Failure> {
    let (bytes, names) = read_request(arguments, console)?;
    let reading = Reading::new(&bytes, &names);
    let file = shown(&arguments.operands[0]);
    let text = if arguments.has("--html") {
        html::page(&reading, &file)
    } else {
        show::listing(&reading, &file)
    };
    console.write(text.as_bytes())?;
    Ok(if reading.verdict.is_ok() {
        ACCEPTED
    } else {
        REFUSED
    })
}
