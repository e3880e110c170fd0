//! Links the proved library, `libsovzedal.a`, or `libcapi.a` as the toolchain
//! names it.

use std::env;
use std::path::{Path, PathBuf};

const LIB_DIR: &str = "SOVZEDAL_LIB_DIR";

/// Names of the library, the preferred one first.
const NAMES: [&str; 2] = ["sovzedal", "capi"];

fn main() {
    let package = env::var_os("CARGO_MANIFEST_DIR").expect("cargo sets it");
    let directory = match env::var_os(LIB_DIR) {
        Some(directory) => PathBuf::from(directory),
        None => Path::new(&package).join("../../target"),
    };
    println!("cargo:rerun-if-env-changed={LIB_DIR}");
    println!("cargo:rustc-link-search=native={}", directory.display());
    println!("cargo:rustc-link-lib=static={}", library_in(&directory));
}

/// The first of the names that the directory has a file for.
fn library_in(directory: &Path) -> &'static str {
    for name in NAMES {
        let file = directory.join(format!("lib{name}.a"));
        println!("cargo:rerun-if-changed={}", file.display());
        if file.exists() {
            return name;
        }
    }
    let directory = directory.display();
    println!("cargo:warning=there is no libsovzedal.a and no libcapi.a in {directory}");
    NAMES[0]
}
