//! A program of the engine, as the gate has built it, run in a folder as a user runs it.

use crate::folder::Folder;
use crate::repository;
use std::fs::OpenOptions;
use std::io::Write;
use std::path::{Path, PathBuf};
use std::process::{Command, Output};
use std::thread::{self, JoinHandle};
use std::time::Duration;

/// A program by its name.
pub struct Program(pub &'static str);

impl Program {
    /// Where the gate leaves the program.
    pub fn built(&self) -> PathBuf {
        let built = repository::at("target/bin").join(self.0).canonicalize();
        built.unwrap_or_else(|why| panic!("./build {} has built the program: {why}", self.0))
    }

    pub fn command(&self) -> Command {
        Command::new(self.built())
    }

    /// What the program prints in a folder.
    pub fn printed(&self, folder: &Path) -> Vec<u8> {
        let output = self.command().current_dir(folder).output().expect("the program runs");
        assert!(output.status.success(), "{}", output.status);
        assert!(output.stderr.is_empty(), "{}", String::from_utf8_lossy(&output.stderr));
        output.stdout
    }

    /// What the program prints in a folder must be this.
    pub fn compare(&self, folder: &Path, due: &[u8], what: &str) {
        let printed = self.printed(folder);
        assert_eq!(String::from_utf8_lossy(&printed), String::from_utf8_lossy(due), "{what}");
    }

    /// Runs the program in a folder, its standard files changed as a shell writes it: `<&-` closes standard input.
    pub fn redirected(&self, folder: &Path, redirections: &str) -> Output {
        let mut shell = Command::new("sh");
        shell.args(["-c", &format!("exec \"$0\" {redirections}")]).arg(self.built()).current_dir(folder);
        shell.output().expect("the shell runs")
    }

    /// If standard output is a full device, the program says so once and ends by itself.
    pub fn meets_a_full_device(&self, folder: &Path) {
        let full = OpenOptions::new().write(true).open("/dev/full").expect("a device that is full");
        let output = self.command().current_dir(folder).stdout(full).output().expect("the program runs");
        assert!(output.status.code().is_some(), "ended by a signal: {}", output.status);
        let told = format!("{}: No space left on device\n", self.0);
        assert_eq!(String::from_utf8_lossy(&output.stderr), told);
    }

    /// A closed standard output is told as a full device is, and standard error, closed too, stops nothing.
    pub fn meets_a_closed_output(&self, folder: &Path) {
        let reason = format!("{}: Bad file descriptor\n", self.0);
        for (redirections, told) in [(">&-", reason.as_str()), (">&- 2>&-", ""), ("<&- >&- 2>&-", "")] {
            let output = self.redirected(folder, redirections);
            assert!(output.status.code().is_some(), "{redirections}: ended by a signal: {}", output.status);
            assert!(output.stdout.is_empty(), "{redirections}");
            assert_eq!(String::from_utf8_lossy(&output.stderr), told, "{redirections}");
        }
    }
}

/// Makes a named pipe.
pub fn make_pipe(folder: &Folder, file: &str) -> PathBuf {
    let path = folder.path().join(file);
    let made = Command::new("mkfifo").arg(&path).status().expect("mkfifo runs");
    assert!(made.success(), "{file} is made");
    path
}

/// Makes a named pipe, and writes bytes into it in two parts: the pause ends the first read after the first part.
pub fn pipe(folder: &Folder, file: &str, bytes: &[u8], first: usize) -> JoinHandle<()> {
    let path = make_pipe(folder, file);
    let bytes = bytes.to_vec();
    thread::spawn(move || {
        let mut pipe = OpenOptions::new().write(true).open(path).expect("the pipe has a reader");
        pipe.write_all(&bytes[..first]).expect("the first part is taken");
        thread::sleep(Duration::from_millis(200));
        pipe.write_all(&bytes[first..]).expect("the second part is taken");
    })
}
