//! A temporary folder of one test, removed with all its files at the end.

use std::env;
use std::fs;
use std::path::{Path, PathBuf};
use std::process;

pub struct Folder {
    path: PathBuf,
}

impl Folder {
    /// `name` tells it from the other folders of this test program.
    pub fn new(name: &str) -> Folder {
        let path = env::temp_dir().join(format!("jurengate-{}-{name}", process::id()));
        fs::create_dir_all(&path).expect("a temporary folder");
        Folder { path }
    }

    pub fn path(&self) -> &Path {
        &self.path
    }

    /// Writes a file and answers its path.
    pub fn write(&self, file: &str, bytes: &[u8]) -> PathBuf {
        let path = self.path.join(file);
        fs::write(&path, bytes).expect("a file is written");
        path
    }
}

impl Drop for Folder {
    fn drop(&mut self) {
        // A folder left behind must not hide why a test failed.
        let _ = fs::remove_dir_all(&self.path);
    }
}
