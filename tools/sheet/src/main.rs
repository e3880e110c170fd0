//! The command.

use std::ffi::OsString;
use std::process::ExitCode;
use std::{env, io};

fn main() -> ExitCode {
    let words: Vec<OsString> = env::args_os().skip(1).collect();
    let (mut input, mut output, mut errors) =
        (io::stdin().lock(), io::stdout().lock(), io::stderr().lock());
    ExitCode::from(sheet::sheet(&words, &mut input, &mut output, &mut errors))
}
