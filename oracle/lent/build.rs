//! Names the static library of the crate `host` to the linker: the one that the variable names, or else the one in the repository.

use std::env;
use std::path::{Path, PathBuf};

const VARIABLE: &str = "JUMPERLOFT_HOST_LIBRARY";
const IN_REPOSITORY: &str = "../../target/staticlib/libhost.a";

fn main() {
    let library = library_path();
    println!("cargo::rerun-if-env-changed={VARIABLE}");
    println!("cargo::rerun-if-changed={}", library.display());
    let (Some(folder), Some(name)) = (library.parent(), library.file_name()) else {
        panic!("{VARIABLE} names no file");
    };
    if !library.is_file() {
        println!(
            "cargo::warning=The static library is not at {}; write it by `make host-library`, or set {VARIABLE} to where it is.",
            library.display()
        );
    }
    println!("cargo::rustc-link-search=native={}", folder.display());
    println!("cargo::rustc-link-lib=static:+verbatim={}", name.display());
}

fn library_path() -> PathBuf {
    match env::var_os(VARIABLE) {
        Some(path) => PathBuf::from(path),
        None => {
            let manifest = env::var_os("CARGO_MANIFEST_DIR").expect("cargo sets this variable");
            Path::new(&manifest).join(IN_REPOSITORY)
        }
    }
}
