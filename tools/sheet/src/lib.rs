//! `sheet`: shows people what the proved library says of rule sheets.
//!
//! The tool reads files and shows; every verdict, type, need, chain, piece and run comes from [`library`].

mod arguments;
mod boxes;
mod causes;
mod columns;
mod commands;
mod console;
mod dump;
mod fault;
mod hex;
mod html;
mod kinds;
pub mod library;
mod listing;
mod malformed;
mod names;
mod reading;
pub mod sheet;
mod show;
mod tree;
mod types;

use std::ffi::OsString;
use std::io::{Read, Write};

use arguments::Arguments;
use commands::{Command, COMMANDS};
use console::{Console, Failure};

/// The exit status of a request that cannot be met.
const FAILED: u8 = 2;

/// Does what the arguments, without the program's name, ask for. Gives the exit status.
pub fn sheet(
    words: &[OsString],
    input: &mut dyn Read,
    output: &mut dyn Write,
    errors: &mut dyn Write,
) -> u8 {
    let mut console = Console {
        input,
        output,
        errors,
        taken: false,
        sources: Vec::new(),
    };
    let command = words
        .first()
        .and_then(|word| COMMANDS.iter().find(|command| word == command.name));
    let done = match command {
        Some(command) => obey(command, &words[1..], &mut console),
        None => without_command(words, &mut console),
    };
    done.unwrap_or_else(|failure| {
        complain(command, &failure, &mut console);
        FAILED
    })
}

fn obey(command: &Command, words: &[OsString], console: &mut Console) -> Result<u8, Failure> {
    let arguments = Arguments::parse(&command.form, words)?;
    if arguments.help {
        console.write(command.help.as_bytes())?;
        return Ok(0);
    }
    (command.run)(&arguments, console)
}

fn without_command(words: &[OsString], console: &mut Console) -> Result<u8, Failure> {
    match words.first() {
        Some(word) if word == "--help" || word == "-h" || word == "help" => {
            console.write(commands::HELP.as_bytes())?;
            Ok(0)
        }
        Some(word) => Err(Failure::Usage(format!(
            "there is no command {}",
            arguments::shown(word)
        ))),
        None => Err(Failure::Usage("a command is missing".into())),
    }
}

/// Says on standard error what went wrong. If nobody listens there, nothing more can be done.
fn complain(command: Option<&Command>, failure: &Failure, console: &mut Console) {
    let name = command.map_or(String::new(), |command| format!(" {}", command.name));
    let _ = match failure {
        Failure::Usage(why) => {
            writeln!(console.errors, "sheet{name}: {why}; see sheet{name} --help")
        }
        Failure::File(which, why) => writeln!(console.errors, "sheet{name}: {which}: {why}"),
        Failure::Unread => Ok(()),
    };
}
