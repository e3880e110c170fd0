//! Asks the tool, in this process.

#![allow(dead_code)]

use std::ffi::OsString;
use std::path::PathBuf;

pub struct Said {
    pub status: u8,
    pub output: Vec<u8>,
    pub errors: String,
}

impl Said {
    pub fn text(&self) -> String {
        String::from_utf8(self.output.clone()).expect("text")
    }
}

pub fn ask<W: Into<OsString> + Clone>(words: &[W], mut input: &[u8]) -> Said {
    let words: Vec<OsString> = words.iter().cloned().map(Into::into).collect();
    let (mut output, mut errors) = (Vec::new(), Vec::new());
    let status = sheet::sheet(&words, &mut input, &mut output, &mut errors);
    let errors = String::from_utf8(errors).expect("messages are text");
    Said {
        status,
        output,
        errors,
    }
}

/// An example of the repository.
pub fn example(name: &str) -> String {
    format!("../../examples/{name}")
}

/// A directory for the files of one test, empty.
pub fn directory(name: &str) -> PathBuf {
    let path = PathBuf::from(env!("CARGO_TARGET_TMPDIR")).join(name);
    let _ = std::fs::remove_dir_all(&path);
    std::fs::create_dir_all(&path).expect("a directory for the test");
    path
}
