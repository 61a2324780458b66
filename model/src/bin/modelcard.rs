//! Prints what `leadcard` is to print for `site.lkb`, `book.lkb` and `card.txt` in this folder, by the model.

use jurengate_model::card::card_printout;
use jurengate_model::console::{asks_for_help, ended, misused, print, words};
use std::process::ExitCode;

const PROGRAM: &str = "modelcard";

const USAGE: &str = "\
usage: modelcard          prints what leadcard is to print for site.lkb, book.lkb and card.txt in this folder
       modelcard --help   prints this
";

/// A missing file counts as empty.
fn bytes_of(name: &str) -> Vec<u8> {
    std::fs::read(name).unwrap_or_default()
}

fn main() -> ExitCode {
    let words = words();
    match words.first() {
        None => {
            let [site, book, text] = ["site.lkb", "book.lkb", "card.txt"].map(bytes_of);
            ended(PROGRAM, print(card_printout(&site, &book, &text)))
        }
        Some(_) if asks_for_help(&words) => ended(PROGRAM, print(USAGE)),
        Some(word) => misused(PROGRAM, &format!("`{word}` is no option"), USAGE),
    }
}
