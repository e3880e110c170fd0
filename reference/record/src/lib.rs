//! Recorded vectors: what the program `vectors` is given and must print.

mod choice;
mod expected;
mod vector;

use std::{fs, io, path::Path};

/// The two files, by name.
pub struct Recording {
    pub stdin: Vec<u8>,
    pub stdout: String,
}

impl Recording {
    pub fn make() -> Self {
        let vectors = choice::vectors();
        Self {
            stdin: vectors.iter().flat_map(vector::Vector::to_bytes).collect(),
            stdout: vectors.iter().map(expected::lines).collect(),
        }
    }

    pub fn write_to(&self, directory: &Path) -> io::Result<()> {
        fs::write(directory.join("stdin"), &self.stdin)?;
        fs::write(directory.join("stdout"), &self.stdout)
    }
}
