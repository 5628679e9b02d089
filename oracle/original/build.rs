//! Copies the original's text, byte for byte, to where `lib.rs` includes it from.

use std::ffi::OsString;
use std::path::{Path, PathBuf};
use std::{env, fs, process};

const SOURCE_VARIABLE: &str = "JUMPERLOFT_ORIGINAL";
const SOURCE_BESIDE_REPOSITORY: &str = "../../../shared/docs/src/src/vector/mod.rs";

fn main() {
    let source = source_path();
    println!("cargo::rerun-if-env-changed={SOURCE_VARIABLE}");
    println!("cargo::rerun-if-changed={}", source.display());
    println!("cargo::rustc-check-cfg=cfg(feature, values(\"serde\"))");

    let Ok(text) = fs::read(&source) else {
        eprintln!(
            "The original's text is not at {}; set {SOURCE_VARIABLE} to where src/vector/mod.rs of rpds 1.2.1 is.",
            source.display()
        );
        process::exit(1);
    };

    let copy = Path::new(&set_by_cargo("OUT_DIR")).join("original_vector.rs");
    fs::write(copy, text).expect("OUT_DIR can be written");
}

fn source_path() -> PathBuf {
    match env::var_os(SOURCE_VARIABLE) {
        Some(path) => PathBuf::from(path),
        None => Path::new(&set_by_cargo("CARGO_MANIFEST_DIR")).join(SOURCE_BESIDE_REPOSITORY),
    }
}

fn set_by_cargo(variable: &str) -> OsString {
    env::var_os(variable).expect("cargo sets this variable for build scripts")
}
