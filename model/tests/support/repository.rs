//! Where the repository's files are, seen from this package.

use std::path::{Path, PathBuf};

/// The file or folder at a path from the repository's root.
pub fn at(path: &str) -> PathBuf {
    Path::new(env!("CARGO_MANIFEST_DIR")).join("..").join(path)
}
