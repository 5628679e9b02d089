//! Finds the static library and names it to the linker.

use std::env;
use std::fs;
use std::path::{Path, PathBuf};

const VARIABLE: &str = "JUMPERLOFT_LIBRARY";
const FOLDER_IN_REPOSITORY: &str = "../../target/staticlib";
const ARCHIVES: [&str; 2] = ["libjumperloft.a", "libhost.a"];

fn main() {
    println!("cargo::rerun-if-env-changed={VARIABLE}");
    let place = place();
    println!("cargo::rerun-if-changed={}", place.display());
    let folder = PathBuf::from(variable("OUT_DIR"));
    let copy = folder.join(ARCHIVES[0]);
    match archive_at(&place) {
        Some(archive) => copy_archive(&archive, &copy),
        None => leave_out(&place, &copy),
    }
    println!("cargo::rustc-link-search=native={}", folder.display());
    println!("cargo::rustc-link-lib=static=jumperloft");
}

/// Where to look: an archive or a folder with one.
fn place() -> PathBuf {
    match env::var_os(VARIABLE).map(PathBuf::from) {
        Some(place) if place.is_absolute() => place,
        Some(place) if place != Path::new("") => where_cargo_was_called().join(place),
        _ => Path::new(&variable("CARGO_MANIFEST_DIR")).join(FOLDER_IN_REPOSITORY),
    }
}

/// A build script runs in its package's folder, but in the environment of the shell that called cargo.
fn where_cargo_was_called() -> PathBuf {
    println!("cargo::rerun-if-env-changed=PWD");
    PathBuf::from(variable("PWD"))
}

fn archive_at(place: &Path) -> Option<PathBuf> {
    let named = ARCHIVES.iter().map(|name| place.join(name));
    [place.to_path_buf()]
        .into_iter()
        .chain(named)
        .find(|path| path.is_file())
}

/// A copy under one name, so that the archive may have any.
fn copy_archive(archive: &Path, copy: &Path) {
    println!("cargo::rerun-if-changed={}", archive.display());
    if let Err(error) = fs::copy(archive, copy) {
        println!(
            "cargo::error=The static library {} can't be copied: {error}.",
            archive.display()
        );
    }
}

/// No error: what is only checked or documented needs no library, and a build script isn't told. The linker misses it.
fn leave_out(place: &Path, copy: &Path) {
    // one of an earlier build would be linked in its place
    let _ = fs::remove_file(copy);
    println!(
        "cargo::warning=Nothing can be linked, as there is no static library of Jumperloft at {}. Write it by `make host-library` in \
         the repository, or set {VARIABLE} to the archive, or to a folder with {}.",
        place.display(),
        ARCHIVES.join(" or ")
    );
}

fn variable(name: &str) -> String {
    env::var(name).unwrap_or_else(|_| panic!("{name} is not set"))
}
