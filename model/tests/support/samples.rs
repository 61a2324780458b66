//! The stored sample cards: a folder each, with figures, card and printout.

use crate::repository;
use std::fs;
use std::path::{Path, PathBuf};

/// The folder of every sample, by name.
pub fn folders() -> Vec<PathBuf> {
    let entries = fs::read_dir(repository::at("samples")).expect("the folder of samples");
    let paths = entries.map(|entry| entry.expect("an entry of the folder").path());
    let mut folders: Vec<PathBuf> = paths.filter(|path| path.is_dir()).collect();
    folders.sort();
    assert!(folders.len() >= 7, "no sample may go missing");
    folders
}

/// A file of a sample.
pub fn stored(sample: &Path, file: &str) -> Vec<u8> {
    let path = sample.join(file);
    fs::read(&path).unwrap_or_else(|why| panic!("{}: {why}", path.display()))
}
