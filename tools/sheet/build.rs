//! Links the proved library, `libcapi.a`.

use std::env;
use std::path::PathBuf;

const LIB_DIR: &str = "SOVZEDAL_LIB_DIR";

fn main() {
    let package = PathBuf::from(env::var_os("CARGO_MANIFEST_DIR").expect("cargo sets it"));
    let directory = match env::var_os(LIB_DIR) {
        Some(directory) => PathBuf::from(directory),
        None => package.join("../../crates/capi/out"),
    };
    println!("cargo:rerun-if-env-changed={LIB_DIR}");
    println!("cargo:rerun-if-changed=build.rs");
    println!(
        "cargo:rerun-if-changed={}",
        directory.join("libcapi.a").display()
    );
    println!("cargo:rustc-link-search=native={}", directory.display());
    println!("cargo:rustc-link-lib=static=capi");
}
