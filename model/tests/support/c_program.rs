//! C programs built against the headers and the engine's static libraries, as a firmware is.

use crate::repository;
use std::env;
use std::path::{Path, PathBuf};
use std::process::Command;

/// A static library by its file.
fn archive(file: &str) -> PathBuf {
    let folder = env::var_os("JURENGATE_LIB_DIR");
    folder.map_or_else(|| repository::at("target/staticlib"), PathBuf::from).join(file)
}

/// The engine's static library.
pub fn library() -> PathBuf {
    archive("libjurengate.a")
}

/// The static library of the batch card's rows.
#[allow(dead_code)] // not every file of tests links it
pub fn cards_library() -> PathBuf {
    archive("libjurengate_cards.a")
}

/// Builds a source of the repository; `libraries` are the options that follow the engine's library.
#[allow(dead_code)] // the header's tests have sources of their own
pub fn build(source: &str, libraries: &[&str], program: &Path) {
    build_at(&repository::at(source), libraries, program);
}

/// Builds a source at any path.
pub fn build_at(source: &Path, libraries: &[&str], program: &Path) {
    build_with(source, &[library()], libraries, program);
}

/// Builds a source with these archives in their order; `libraries` are the options that follow them.
pub fn build_with(source: &Path, archives: &[PathBuf], libraries: &[&str], program: &Path) {
    let status = Command::new("cc")
        .args(["-std=c99", "-Wall", "-Wextra", "-Werror", "-O2", "-I"])
        .arg(repository::at("include"))
        .arg(source)
        .args(archives)
        .args(libraries)
        .arg("-o")
        .arg(program)
        .status()
        .expect("the C compiler runs");
    assert!(status.success(), "{} is built", source.display());
}
