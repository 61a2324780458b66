//! The programs `makecard`, `modelline` and `modelcard` together, run as a user runs them.

#[path = "support/folder.rs"]
mod folder;
#[path = "support/repository.rs"]
mod repository;
#[path = "support/samples.rs"]
mod samples;

use folder::Folder;
use jurengate_model::cards::published;
use samples::{folders, stored};
use std::fs;
use std::path::Path;
use std::process::{Command, Output};

fn makecard(arguments: &[&str], folder: &Folder) -> Output {
    let program = env!("CARGO_BIN_EXE_makecard");
    Command::new(program).args(arguments).current_dir(folder.path()).output().expect("makecard runs")
}

fn modelline(folder: &Folder) -> Output {
    let program = env!("CARGO_BIN_EXE_modelline");
    Command::new(program).current_dir(folder.path()).output().expect("modelline runs")
}

fn modelcard(folder: &Path) -> Output {
    let program = env!("CARGO_BIN_EXE_modelcard");
    Command::new(program).current_dir(folder).output().expect("modelcard runs")
}

fn printed(output: Output) -> String {
    assert!(
        output.status.success() && output.stderr.is_empty(),
        "{}",
        String::from_utf8_lossy(&output.stderr)
    );
    String::from_utf8(output.stdout).expect("text")
}

#[test]
fn figures_become_the_stored_card_and_its_printout() {
    for sample in folders() {
        let folder = Folder::new("card");
        let figures = sample.join("figures.txt");
        let foods = if sample.ends_with("foods") { ", ./foods.lkb (512 bytes)" } else { "" };
        let wrote = format!("wrote ./site.lkb (512 bytes){foods} and ./book.lkb (8704 bytes)\n");
        assert_eq!(printed(makecard(&[figures.to_str().expect("a path")], &folder)), wrote);
        for file in ["site.lkb", "foods.lkb", "book.lkb"] {
            let (made, due) = (fs::read(folder.path().join(file)).ok(), fs::read(sample.join(file)).ok());
            assert!(made == due, "{}: {file}", sample.display());
        }
        let due = String::from_utf8(stored(&sample, "printout.txt")).expect("text");
        assert_eq!(printed(modelline(&folder)), due);
    }
}

#[test]
fn modelline_takes_missing_files_for_empty_ones() {
    let folder = Folder::new("empty");
    assert_eq!(printed(modelline(&folder)), "refused 1 after 0\n");
    folder.write("site.lkb", &published::site());
    assert_eq!(printed(modelline(&folder)), "refused 1 after 0\n");
}

#[test]
fn modelcard_prints_the_stored_survey() {
    let sample = repository::at("samples/survey");
    let due = String::from_utf8(stored(&sample, "cardout.txt")).expect("text");
    assert_eq!(printed(modelcard(&sample)), due);
}

#[test]
fn modelcard_takes_missing_files_for_empty_ones() {
    let folder = Folder::new("empty-survey");
    assert_eq!(printed(modelcard(folder.path())), "");
    folder.write("card.txt", b"\n\n\n\nA");
    assert_eq!(printed(modelcard(folder.path())), "refused 1\nrefused 1\n");
}
