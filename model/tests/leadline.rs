//! The program `leadline`, run in many folders and held to the model byte for byte.

#[path = "support/folder.rs"]
mod folder;
#[path = "support/program.rs"]
mod program;
#[path = "support/repository.rs"]
mod repository;
#[path = "support/route_cards.rs"]
mod route_cards;
#[path = "support/samples.rs"]
mod samples;

use folder::Folder;
use jurengate_model::book::{column, RowFields, BOOK_ROWS, ROW_FIELDS};
use jurengate_model::cards::{book_file, curves, published, site_file};
use jurengate_model::printout::printout;
use jurengate_model::random::{book, damaged, fault, range, row_faults, site, Fault, Generator, Intake};
use jurengate_model::site::{place, SATURATION_LEAST, SITE_FIELDS};
use program::{pipe, Program};
use route_cards::{four_in_balance, mixed, most_active, most_passive, Numbers};
use std::fs;

const LEADLINE: Program = Program("leadline");

/// A folder with the files that are there.
fn card(name: &str, site: Option<&[u8]>, book: Option<&[u8]>) -> Folder {
    let folder = Folder::new(name);
    for (file, bytes) in [("site.lkb", site), ("book.lkb", book)] {
        bytes.map(|bytes| folder.write(file, bytes));
    }
    folder
}

/// Runs the program on two files, of which one may be missing, and compares.
fn compare(name: &str, site: Option<&[u8]>, book: Option<&[u8]>) -> Vec<u8> {
    let folder = card(name, site, book);
    let due = printout(site.unwrap_or(&[]), book.unwrap_or(&[]));
    LEADLINE.compare(folder.path(), &due, name);
    due
}

fn last_line(bytes: &[u8]) -> String {
    String::from_utf8_lossy(bytes).lines().last().unwrap_or_default().to_string()
}

#[test]
fn missing_short_and_long_files() {
    let (site, book) = (published::site(), curves::book());
    let longer = |bytes: &[u8], more: usize| [bytes, &vec![0; more]].concat();
    let refused = "refused 1 after 0";
    assert_eq!(last_line(&compare("no-files", None, None)), refused);
    assert_eq!(last_line(&compare("no-book", Some(&site), None)), refused);
    assert_eq!(last_line(&compare("no-site", None, Some(&book))), refused);
    assert_eq!(last_line(&compare("empty-book", Some(&site), Some(&[]))), refused);
    assert_eq!(last_line(&compare("short-site", Some(&site[..511]), Some(&book))), refused);
    assert_eq!(last_line(&compare("short-book", Some(&site), Some(&book[..8703]))), refused);
    for more in [1, 512, 100_000] {
        assert_eq!(last_line(&compare("long-site", Some(&longer(&site, more)), Some(&book))), refused);
        assert_eq!(last_line(&compare("long-book", Some(&site), Some(&longer(&book, more)))), refused);
    }
}

#[test]
fn files_that_cannot_be_read_count_as_empty() {
    let folder = Folder::new("folders");
    fs::create_dir(folder.path().join("site.lkb")).expect("a folder by the site file's name");
    fs::create_dir(folder.path().join("book.lkb")).expect("a folder by the book's name");
    assert_eq!(LEADLINE.printed(folder.path()), b"refused 1 after 0\n");
}

#[test]
fn a_full_device_is_told_on_standard_error() {
    let (site, book) = (published::site(), curves::book());
    for (name, book) in [("full-84", Some(book.as_slice())), ("full-1", None)] {
        LEADLINE.meets_a_full_device(card(name, Some(&site), book).path());
    }
}

#[test]
fn a_closed_standard_output_is_told_on_standard_error() {
    let folder = card("closed-output", Some(&published::site()), Some(&curves::book()));
    LEADLINE.meets_a_closed_output(folder.path());
}

/// If standard input is closed, a file is opened as descriptor 0, and read as any other.
#[test]
fn a_closed_standard_input_changes_nothing() {
    let (site, book) = (published::site(), curves::book());
    for (name, book) in [("closed-input", book.as_slice()), ("closed-input-short", &book[..8703])] {
        let folder = card(name, Some(&site), Some(book));
        let output = LEADLINE.redirected(folder.path(), "<&-");
        assert!(output.status.success() && output.stderr.is_empty(), "{name}: {output:?}");
        let expected = printout(&site, book);
        assert_eq!(String::from_utf8_lossy(&output.stdout), String::from_utf8_lossy(&expected), "{name}");
    }
}

/// A file that comes in parts is read to its end, and a part of the right length is not yet a file of the right length.
#[test]
fn files_that_come_through_a_pipe_in_two_parts() {
    let (site, book) = (published::site(), curves::book());
    let longer = [book.as_slice(), &[0]].concat();
    let cards: [(&str, usize, &[u8], usize, usize); 3] = [
        ("pipe", 100, &book, 5_000, 84),
        ("pipe-last-byte", 511, &book, 8_703, 84),
        ("pipe-longer", 100, &longer, 8_704, 1),
    ];
    for (name, site_first, book, book_first, lines) in cards {
        let folder = Folder::new(name);
        let site_writer = pipe(&folder, "site.lkb", &site, site_first);
        let book_writer = pipe(&folder, "book.lkb", book, book_first);
        let due = printout(&site, book);
        LEADLINE.compare(folder.path(), &due, name);
        assert_eq!(due.iter().filter(|byte| **byte == b'\n').count(), lines, "{name}");
        site_writer.join().expect("the site file was written whole");
        book_writer.join().expect("the book was written whole");
    }
}

#[test]
fn the_published_default() {
    let bytes = compare("default", Some(&published::site()), Some(&curves::book()));
    assert_eq!(bytes.iter().filter(|byte| **byte == b'\n').count(), 84);
}

/// A child that keeps its birth's red cells and takes up nothing: its blood figure is 85 % of the mother's in every month.
fn constant_child(mother: u32) -> (Vec<u8>, Vec<u8>) {
    let mut fields = [0; SITE_FIELDS];
    fields[place::SATURATION] = SATURATION_LEAST;
    fields[place::MOTHER] = mother;
    let mut row: RowFields = [0; ROW_FIELDS];
    row[column::VB] = 1_000;
    row[column::VP] = 1;
    row[column::BODY] = 10_000;
    row[column::OUT] = 1;
    (site_file(&fields), book_file(&[row; BOOK_ROWS]))
}

#[test]
fn the_mark_at_30000_and_30001() {
    for (mother, line) in [(35_295, "84 30.0 - 0 0"), (35_296, "84 30.0 W 0 0")] {
        let (site, book) = constant_child(mother);
        assert_eq!(last_line(&compare("mark", Some(&site), Some(&book))), line);
    }
}

/// What the program prints for a card in which no month is refused, held to the model: a line for each month.
fn months(name: &str, (fields, rows): &Numbers) -> Vec<String> {
    let folder = card(name, Some(&site_file(fields)), Some(&book_file(rows)));
    let printed = LEADLINE.printed(folder.path());
    assert!(printed == printout(&site_file(fields), &book_file(rows)), "{name}");
    let lines: Vec<String> = String::from_utf8_lossy(&printed).lines().map(str::to_string).collect();
    assert_eq!(lines.len(), 84, "{name}");
    lines
}

/// The columns of cards known beforehand: the highest passive sum is over 32 bits, the highest active one over 31, and a pg
/// of diet takes four from T.
#[test]
fn the_passive_and_the_active_sum() {
    let lines = months("most-passive", &most_passive());
    assert_eq!(lines[0], "1 3.9 - 5000000000 0");
    assert!(lines.iter().all(|line| line.ends_with(" 5000000000 0")), "{lines:?}");
    let lines = months("most-active", &most_active());
    assert!(lines[0].ends_with(" - 0 3571428570") && lines[23].ends_with(" - 0 454545450"), "{lines:?}");
    for (diet, columns) in [(0, " - 0 500000"), (1, " - 0 499996")] {
        let lines = months("four-in-balance", &four_in_balance(diet));
        assert!(lines.iter().all(|line| line.ends_with(columns)), "{lines:?}");
    }
}

/// Passive before active, without the air, of the day and not of the month; at the end of an age and at the next one's
/// beginning.
#[test]
fn the_columns_at_the_borders_of_ages() {
    let rows = curves::rows().try_into().expect("the rows of a book");
    let lines = months("mixed", &(mixed(), rows));
    for (month, columns) in [
        (1, " - 2895425 7492475"),
        (12, " - 2895425 12231222"),
        (13, " - 3752635 13775689"),
        (84, " - 6813153 17766758"),
    ] {
        assert!(lines[month - 1].ends_with(columns), "{}", lines[month - 1]);
    }
}

#[test]
fn every_refusal_number() {
    let mut generator = Generator::new(20);
    let mut faults = vec![
        Fault::SiteCheck,
        Fault::SiteEdition,
        Fault::SiteRelabelled,
        Fault::SiteNumber,
        Fault::SiteReserved,
        Fault::SiteField(0),
        Fault::Shares,
        Fault::SaturationLow,
        Fault::PlaceShare(0),
        Fault::PlaceDust(4),
        Fault::PlaceShares,
        Fault::BlockCheck(16),
        Fault::BlockEdition(0),
        Fault::BlockNumber(7),
        Fault::BlockReserved(16),
        Fault::Intake(Intake::ConstantWater, 4),
        Fault::PlaceIntake(2, 5),
    ];
    faults.extend(row_faults().into_iter().map(|each| Fault::Row(60, each)));
    for each in faults {
        let (site, book) = damaged(&mut generator, &published::fields(), &curves::rows(), &[each]);
        let line = last_line(&compare("faults", Some(&site), Some(&book)));
        assert!(line.starts_with(&format!("refused {} after ", each.number())), "{line}");
    }
}

#[test]
fn random_cards() {
    let mut generator = Generator::new(21);
    for _ in 0..150 {
        let kind = range(&mut generator);
        let (site, book) = (site(&mut generator, kind), book(&mut generator, kind));
        compare("random", Some(&site), Some(&book));
    }
}

#[test]
fn random_damage() {
    let mut generator = Generator::new(22);
    for _ in 0..150 {
        let each = fault(&mut generator);
        let (site, book) = damaged(&mut generator, &published::fields(), &curves::rows(), &[each]);
        compare("damage", Some(&site), Some(&book));
    }
}

#[test]
fn the_samples_print_what_is_stored() {
    for sample in samples::folders() {
        assert!(
            LEADLINE.printed(&sample) == samples::stored(&sample, "printout.txt"),
            "{}",
            sample.display()
        );
    }
}
