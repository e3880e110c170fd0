//! The commands.

mod build;
mod check;
mod compare;
mod dump;
mod lean;
mod names;
mod run;
mod show;
mod why;

use std::ffi::OsString;

use crate::arguments::{shown, Arguments, Form};
use crate::console::{Console, Failure};
use crate::library::Refusal;
use crate::names::Names;
use crate::reading::Reading;

pub struct Command {
    pub name: &'static str,
    pub form: Form,
    pub help: &'static str,
    /// Gives the exit status: 0, or 1 if a sheet is refused or stopped.
    pub run: fn(&Arguments, &mut Console) -> Result<u8, Failure>,
}

pub const COMMANDS: [Command; 9] = [
    show::COMMAND,
    check::COMMAND,
    run::COMMAND,
    why::COMMAND,
    names::COMMAND,
    lean::COMMAND,
    compare::COMMAND,
    dump::COMMAND,
    build::COMMAND,
];

pub const HELP: &str = "\
usage: sheet COMMAND ...

  show FILE                 a sheet as a listing, or as a page with --html
  check FILE                the verdict, where needs come from, what is at fault
  run FILE                  what a run comes to
  why FILE PRIVILEGE        where a need comes from
  names FILE PRIVILEGE      whether the privilege plays a part
  lean FILE -o OUT          the sheet without what its acceptance makes idle
  compare UNIT OFFICE       a unit's record held against the office's
  dump FILE                 the sheet as commented hex
  build FILE.hex -o OUT     the bytes of commented hex

sheet COMMAND --help says more. A FILE has the bytes of a sheet or, where its
name ends in .hex or .HEX or --hex is given, hexadecimal text with comments; -
is standard input. The exit status is 0, or 1 if a sheet is refused or stopped,
or 2 if the arguments are no request or a file cannot be read or written.
";

pub const ACCEPTED: u8 = 0;
pub const REFUSED: u8 = 1;

/// The bytes that the first operand names, and the names that `--names` gives.
fn read_request(arguments: &Arguments, console: &mut Console) -> Result<(Vec<u8>, Names), Failure> {
    let names = console.read_names(arguments.value("--names"))?;
    let bytes = console.read_sheet(&arguments.operands[0], arguments.has("--hex"))?;
    Ok((bytes, names))
}

/// The privilege that the second operand names. It may be above 31: the library refuses that.
fn privilege(arguments: &Arguments, names: &Names) -> Result<u32, Failure> {
    let word = &arguments.operands[1];
    let number = word.to_str().and_then(|word| names.privilege_number(word));
    number.ok_or_else(|| {
        Failure::Usage(format!(
            "{} is neither a privilege's number nor its name",
            shown(word)
        ))
    })
}

/// Says that the library refuses, where no data go.
fn refuse(
    reading: &Reading,
    refusal: Refusal,
    data: Option<&OsString>,
    console: &mut Console,
) -> Result<u8, Failure> {
    let lines = crate::show::refused(reading, refusal);
    console.say(&format!("{}\n", lines.join("\n")), data)?;
    Ok(REFUSED)
}

/// The file that `-o` names.
fn out(arguments: &Arguments) -> Result<&OsString, Failure> {
    arguments
        .value("-o")
        .ok_or_else(|| Failure::Usage("-o OUT is missing".into()))
}
