//! Finds the proved library, `libcapi.a`.

use std::env;
use std::path::PathBuf;

const LIB_DIR: &str = "SOVZEDAL_LIB_DIR";

fn main() {
    let dir = match env::var_os(LIB_DIR) {
        Some(dir) => PathBuf::from(dir),
        None => PathBuf::from(env!("CARGO_MANIFEST_DIR")).join("../../crates/capi/out"),
    };
    let library = dir.join("libcapi.a");
    if !library.exists() {
        println!("cargo:warning=there is no {}", library.display());
    }
    println!("cargo:rerun-if-env-changed={LIB_DIR}");
    println!("cargo:rerun-if-changed={}", library.display());
    println!("cargo:rustc-link-search=native={}", dir.display());
    println!("cargo:rustc-link-lib=static=capi");
}
