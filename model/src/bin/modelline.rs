//! Prints what `leadline` is to print for `site.lkb` and `book.lkb` in this folder, by the model.

use jurengate_model::console::{asks_for_help, ended, misused, print, words};
use jurengate_model::printout::printout;
use std::process::ExitCode;

const PROGRAM: &str = "modelline";

const USAGE: &str = "\
usage: modelline          prints what leadline is to print for site.lkb and book.lkb in this folder
       modelline --help   prints this
";

/// A missing file counts as empty.
fn bytes_of(name: &str) -> Vec<u8> {
    std::fs::read(name).unwrap_or_default()
}

fn main() -> ExitCode {
    let words = words();
    match words.first() {
        None => ended(PROGRAM, print(printout(&bytes_of("site.lkb"), &bytes_of("book.lkb")))),
        Some(_) if asks_for_help(&words) => ended(PROGRAM, print(USAGE)),
        Some(word) => misused(PROGRAM, &format!("`{word}` is no option"), USAGE),
    }
}
