//! How far the code is moved, for `placement`.

use std::env;

const SHIFT: &str = "SOVZEDAL_SHIFT";

fn main() {
    let bytes = env::var(SHIFT).unwrap_or_else(|_| "0".to_string());
    println!("cargo:rerun-if-env-changed={SHIFT}");
    println!("cargo:rustc-env={SHIFT}={bytes}");
}
