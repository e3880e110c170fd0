//! The repository around this workspace.

use std::path::{Path, PathBuf};
use std::{env, fs};

/// Its root. Asked when the test runs: a path compiled in would outlive a move.
pub fn repository() -> PathBuf {
    let package = env::var_os("CARGO_MANIFEST_DIR").expect("cargo sets it");
    Path::new(&package).join("../..")
}

/// The files below a folder that have this extension, but for those of builds;
/// none where there is no such folder.
pub fn files_below(folder: &Path, extension: &str) -> Vec<PathBuf> {
    let entries = fs::read_dir(folder).into_iter().flatten();
    let paths = entries.map(|entry| entry.expect("an entry").path());
    let made = ["target", "out", ".git"];
    let kept = paths.filter(|path| !made.iter().any(|it| path.ends_with(it)));
    kept.flat_map(|path| match path.is_dir() {
        true => files_below(&path, extension),
        false if path.extension().is_some_and(|it| it == extension) => vec![path],
        false => Vec::new(),
    })
    .collect()
}
