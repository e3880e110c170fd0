//! Files and standard streams. A file is read before anything is written, and written over only where `-o` names it and it was
//! not read.

use std::ffi::{OsStr, OsString};
use std::fs::{self, File, OpenOptions};
use std::io::{self, ErrorKind, Read, Write};
use std::path::PathBuf;

use crate::hex;
use crate::library::MAX_SHEET;
use crate::names::Names;

/// Names standard input and standard output.
pub const STREAM: &str = "-";
/// Standard input as a file, where it comes from one.
const INPUT: &str = "/dev/stdin";

/// More hexadecimal text than any sheet takes, comments included.
const MAX_TEXT: usize = 16 << 20;

/// Why nothing is shown: exit status 2.
#[derive(Debug)]
pub enum Failure {
    /// The arguments are no request.
    Usage(String),
    /// A file cannot be read or written: which, and why.
    File(String, String),
    /// Nobody reads what is written any more.
    Unread,
}

pub struct Console<'a> {
    pub input: &'a mut dyn Read,
    pub output: &'a mut dyn Write,
    pub errors: &'a mut dyn Write,
    /// Standard input can be read once.
    pub taken: bool,
    /// The files that were read.
    pub sources: Vec<PathBuf>,
}

impl Console<'_> {
    /// The bytes of a file, of which there may be as many as `limit`.
    pub fn read(&mut self, path: &OsStr, limit: usize) -> Result<Vec<u8>, Failure> {
        let bytes = self.read_beginning(path, limit + 1)?;
        if bytes.len() > limit {
            return Err(file(path, &format!("more than {limit} bytes")));
        }
        Ok(bytes)
    }

    /// The first bytes of a file, as many as `limit` or all that it has.
    fn read_beginning(&mut self, path: &OsStr, limit: usize) -> Result<Vec<u8>, Failure> {
        let mut bytes = Vec::new();
        let limit = limit as u64;
        let done = if path == STREAM {
            if self.taken {
                return Err(Failure::Usage("standard input can be read once".into()));
            }
            self.taken = true;
            self.sources.extend(source(INPUT.as_ref()));
            (&mut *self.input).take(limit).read_to_end(&mut bytes)
        } else {
            self.sources.extend(source(path));
            File::open(path).and_then(|file| file.take(limit).read_to_end(&mut bytes))
        };
        done.map_err(|error| file(path, &error.to_string()))?;
        Ok(bytes)
    }

    /// The bytes of a sheet, or one more than any sheet has if there are more: the library refuses them for the same cause as
    /// all of them. Of a file in hexadecimal text, its bytes.
    pub fn read_sheet(&mut self, path: &OsStr, in_hex: bool) -> Result<Vec<u8>, Failure> {
        if in_hex || has_hex_name(path) {
            let mut bytes = self.read_hex(path)?;
            bytes.truncate(MAX_SHEET + 1);
            return Ok(bytes);
        }
        self.read_beginning(path, MAX_SHEET + 1)
    }

    pub fn read_hex(&mut self, path: &OsStr) -> Result<Vec<u8>, Failure> {
        let text = self.read(path, MAX_TEXT)?;
        hex::parse(&text).map_err(|why| file(path, &why))
    }

    pub fn read_text(&mut self, path: &OsStr) -> Result<String, Failure> {
        let bytes = self.read(path, MAX_TEXT)?;
        String::from_utf8(bytes).map_err(|_| file(path, "no text in UTF-8"))
    }

    pub fn read_names(&mut self, path: Option<&OsString>) -> Result<Names, Failure> {
        let Some(path) = path else {
            return Ok(Names::default());
        };
        let text = self.read_text(path)?;
        Names::parse(&text).map_err(|why| file(path, &why))
    }

    /// Writes the file that `-o` names, over what it had.
    pub fn write_over(&mut self, path: &OsStr, bytes: &[u8]) -> Result<(), Failure> {
        if path == STREAM {
            return self.write(bytes);
        }
        if source(path).is_some_and(|path| self.sources.contains(&path)) {
            return Err(file(path, "it was read, and is not written over"));
        }
        fs::write(path, bytes).map_err(|error| file(path, &error.to_string()))
    }

    /// Writes a file that is not there yet.
    pub fn write_new(&mut self, path: &OsStr, bytes: &[u8]) -> Result<(), Failure> {
        if path == STREAM {
            return self.write(bytes);
        }
        let opened = OpenOptions::new().write(true).create_new(true).open(path);
        let written = opened.and_then(|mut file| file.write_all(bytes));
        written.map_err(|error| match error.kind() {
            ErrorKind::AlreadyExists => file(path, "it is there already, and is not written over"),
            _ => file(path, &error.to_string()),
        })
    }

    pub fn write(&mut self, bytes: &[u8]) -> Result<(), Failure> {
        let written = self
            .output
            .write_all(bytes)
            .and_then(|()| self.output.flush());
        written.map_err(|error| unwritten(&error))
    }

    /// Says something to people: on standard output, unless that is where data go.
    pub fn say(&mut self, words: &str, data: Option<&OsString>) -> Result<(), Failure> {
        if data.is_some_and(|path| path == STREAM) {
            // If nobody listens there, nothing more can be done.
            let _ = self.errors.write_all(words.as_bytes());
            return Ok(());
        }
        self.write(words.as_bytes())
    }

    /// Says what was written into a file; nothing where standard output has it.
    pub fn remark(&mut self, path: &OsStr, words: &str) -> Result<(), Failure> {
        if path == STREAM {
            return Ok(());
        }
        self.write(format!("{}: {words}\n", shown(path)).as_bytes())
    }
}

fn unwritten(error: &io::Error) -> Failure {
    match error.kind() {
        ErrorKind::BrokenPipe => Failure::Unread,
        _ => Failure::File("standard output".into(), error.to_string()),
    }
}

pub fn file(path: &OsStr, why: &str) -> Failure {
    Failure::File(shown(path), why.into())
}

/// The name of a file for people.
pub fn shown(path: &OsStr) -> String {
    if path == STREAM {
        return "standard input".into();
    }
    path.to_string_lossy()
        .chars()
        .map(|c| if c.is_control() { '?' } else { c })
        .collect()
}

/// Whether a file has hexadecimal text by its name.
pub fn has_hex_name(path: &OsStr) -> bool {
    let ending = path.as_encoded_bytes().last_chunk();
    ending.is_some_and(|ending: &[u8; 4]| ending.eq_ignore_ascii_case(b".hex"))
}

/// A file by its full name, without links, so that two names of it can be compared.
fn source(path: &OsStr) -> Option<PathBuf> {
    fs::canonicalize(path).ok().filter(|path| path.is_file())
}
