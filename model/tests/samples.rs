//! The stored sample cards: made of their figures, printed as stored, and what their descriptions say.

#[path = "support/foods_printout.rs"]
mod foods_printout;
#[path = "support/repository.rs"]
mod repository;
#[path = "support/samples.rs"]
mod samples;

use foods_printout::foods_printout;
use jurengate_model::card::{card_printout, fields, rows};
use jurengate_model::cards::{self, curves};
use jurengate_model::engine::run;
use jurengate_model::figures::read;
use jurengate_model::printout::{decimals, printout};
use jurengate_model::site::{away, read_site_file, PLACES};
use jurengate_model::state::MONTHS;
use samples::{folders, stored};
use std::fs;

fn text(bytes: Vec<u8>) -> String {
    String::from_utf8(bytes).expect("text")
}

#[test]
fn each_card_is_made_of_its_figures() {
    for sample in folders() {
        let figures = read(&text(stored(&sample, "figures.txt"))).expect("figures that makecard takes");
        let foods = figures.card.foods.map(|foods| cards::foods_file(&foods));
        let site = cards::site_file_with(&figures.card.site, figures.card.places.as_ref());
        assert!(stored(&sample, "site.lkb") == site, "{}", sample.display());
        assert!(stored(&sample, "book.lkb") == curves::book(), "{}", sample.display());
        assert!(fs::read(sample.join("foods.lkb")).ok() == foods, "{}", sample.display());
    }
}

#[test]
fn each_printout_is_the_model_s() {
    for sample in folders() {
        let due = printout(&stored(&sample, "site.lkb"), &stored(&sample, "book.lkb"));
        assert_eq!(text(stored(&sample, "printout.txt")), text(due), "{}", sample.display());
    }
}

/// With its foods the card has other figures than `leadline` prints, and than the agency's diet gives.
#[test]
fn the_printout_with_foods_is_the_model_s() {
    let sample = repository::at("samples/foods");
    let file = |name: &str| stored(&sample, name);
    let due = foods_printout(&file("site.lkb"), &file("foods.lkb"), &file("book.lkb"));
    assert_eq!(text(file("printout-foods.txt")), due);
    let highest = |printout: &str| {
        let blood = printout.lines().filter_map(|line| line.split(' ').nth(1)?.parse().ok());
        blood.fold(0.0, f64::max)
    };
    assert_eq!((highest(&due), highest(&text(file("printout.txt")))), (6.1, 5.6));
}

/// What the rows of the survey answer, by their ID; one of them, C8, ends in a carriage return.
#[test]
fn the_survey_shows_what_it_says() {
    let sample = repository::at("samples/survey");
    let [site, book, card] = ["site.lkb", "book.lkb", "card.txt"].map(|file| stored(&sample, file));
    let printed = text(stored(&sample, "cardout.txt"));
    assert_eq!(printed, text(card_printout(&site, &book, &card)));
    let ids = rows(&card).into_iter().map(|row| text(fields(row)[0].to_vec()));
    let answers: Vec<(String, &str)> = ids.zip(printed.lines()).collect();
    let of =
        |id: &str| answers.iter().find(|answer| answer.0 == id).unwrap_or_else(|| panic!("no row {id}")).1;
    let pairs = [("A1", "A2"), ("A3", "A4"), ("A5", "A6")];
    assert!(pairs.iter().all(|(one, other)| of(one) == of(other)), "{printed}");
    let due = [
        (&["B3", "B4", "B5", "B6"][..], "---"),
        (&["C1"], "refused 7"),
        (&["C2"], "refused 9"),
        (&["C4", "C5", "C6", "MILL-LANE", "C8"], "refused 12"),
        (&["C3"], "refused 22"),
    ];
    for (ids, answer) in due {
        let there: Vec<&String> = answers.iter().filter(|row| row.1 == answer).map(|row| &row.0).collect();
        assert_eq!(there, ids, "{answer}");
    }
    assert!(rows(&card).iter().any(|row| row.starts_with(b"C8 ") && row.ends_with(b"\r")));
    assert_eq!((answers.len(), of("C9")), (23, "31.3"));
}

/// The cards that the programs' own checks run on are samples.
#[test]
fn the_programs_cards_are_samples() {
    let programs = [
        ("leadline", "default", &["site.lkb", "book.lkb"][..], "printout.txt"),
        ("leadcard", "survey", &["site.lkb", "book.lkb", "card.txt"][..], "cardout.txt"),
    ];
    for (name, sample, files, printout) in programs {
        let (program, sample) = (repository::at("crates").join(name), repository::at("samples").join(sample));
        for file in files {
            assert!(stored(&program.join("data"), file) == stored(&sample, file), "{name}: {file}");
        }
        assert_eq!(text(stored(&program, "stdout")), text(stored(&sample, printout)), "{name}");
    }
}

/// Name, lines, lines marked `W` and last line of each sample.
#[test]
fn the_samples_do_what_they_say() {
    let due = [
        ("daycare", 84, 0, "84 2.5 - 1867527 7113572"),
        ("default", 84, 0, "84 1.7 - 1220950 4728846"),
        ("foods", 84, 0, "84 2.4 - 1772050 6766400"),
        ("heavy", 84, 50, "84 21.1 - 21287650 54190619"),
        ("refused-burden", 27, 2, "refused 22 after 26"),
        ("refused-intake", 49, 0, "refused 9 after 48"),
        ("survey", 84, 0, "84 3.2 - 2354950 8859840"),
    ];
    let samples = folders();
    assert_eq!(samples.len(), due.len());
    for (sample, due) in samples.iter().zip(due) {
        let printout = text(stored(sample, "printout.txt"));
        let lines: Vec<&str> = printout.lines().collect();
        let marked = lines.iter().filter(|line| line.contains(" W ")).count();
        let name = sample.file_name().and_then(|name| name.to_str()).expect("a name");
        assert_eq!((name, lines.len(), marked, lines[lines.len() - 1]), due);
    }
}

/// The places of `daycare` double its highest month, as its text and the README of the samples say.
#[test]
fn the_daycare_sample_has_two_places_that_double_its_lead() {
    let sample = repository::at("samples/daycare");
    let [site, book] = ["site.lkb", "book.lkb"].map(|file| stored(&sample, file));
    let file = read_site_file(&site).expect("a site file");
    let there: Vec<(usize, u32, u32)> = (0..PLACES)
        .map(|at| (at, file.places.0[at].share, file.places.0[at].dust))
        .filter(|place| place.1 > 0)
        .collect();
    assert_eq!(there, [(away::WORK, 10, 2_200_000), (away::DAYCARE, 30, 850_500)]);
    let highest = |site: &[u8]| {
        let mut blood = [0; MONTHS];
        assert_eq!(run(site, &book, &mut blood).number, 0);
        decimals(*blood.iter().max().expect("84 months"))
    };
    let (with, without) = (highest(&site), highest(&cards::site_file(&file.fields)));
    assert_eq!((with.as_str(), without.as_str()), ("6.0", "3.0"));
    let figures = text(stored(&sample, "figures.txt")).replace("\n# ", " ");
    let readme = text(fs::read(repository::at("samples/README.md")).expect("the README"));
    assert!(figures.contains("the highest 6.0 µg/dL;") && figures.contains("it would be 3.0."));
    assert!(readme.contains("the highest month is 6.0 µg/dL, and would be 3.0 with"));
}

/// The months in which more goes by the passive route than by the active one.
#[test]
fn the_heavy_sample_is_passive_in_its_first_three_months() {
    let passive_months = |sample: &str| {
        let printout = text(stored(&repository::at("samples").join(sample), "printout.txt"));
        let lines = printout.lines().map(|line| line.split(' ').map(str::to_string).collect::<Vec<_>>());
        let number = |field: &String| field.parse::<u64>().expect("a number of pg");
        let passive = lines.filter(|line| number(&line[3]) > number(&line[4]));
        passive.map(|line| line[0].clone()).collect::<Vec<_>>()
    };
    assert_eq!(passive_months("heavy"), ["1", "2", "3"]);
    assert!(passive_months("default").is_empty());
}
