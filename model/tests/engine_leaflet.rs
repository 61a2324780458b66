//! The engine's readers held to the leaflet, and the program that prints it (feature `engine`).

#[path = "support/folder.rs"]
mod folder;
#[path = "support/leaflet_ends.rs"]
mod leaflet_ends;
#[allow(dead_code)] // the leaflet has no foods and no rows
#[path = "support/limits.rs"]
mod limits;
#[allow(dead_code)] // the leaflet has no foods and no rows
#[path = "support/places.rs"]
mod places;
#[allow(dead_code)] // the program reads no pipe
#[path = "support/program.rs"]
mod program;
#[path = "support/repository.rs"]
mod repository;

use folder::Folder;
use jurengate_model::card::{RowCall, GOES};
use jurengate_model::cards::{curves, published, site_file};
use jurengate_model::ffi;
use jurengate_model::leaflet::{leaflet, LEAFLET};
use jurengate_model::random::just_over;
use jurengate_model::refusal::{Refusal, ACCEPTED};
use jurengate_model::site::SITE_FIELDS;
use leaflet_ends::hold_to_leaflet;
use limits::free_fields;
use places::SITE;
use program::Program;

const PRINTER: Program = Program("leaflet");

/// Whether the engine's site reader takes these fields; what it does not take it refuses with 7.
fn engine_takes(fields: &[u32; SITE_FIELDS]) -> bool {
    let (number, _) = ffi::read_site(&site_file(fields));
    assert!(number == ACCEPTED || number == Refusal::SiteLimits.number(), "refused with {number}");
    number == ACCEPTED
}

#[test]
fn the_site_reader_takes_what_the_leaflet_says_and_no_more() {
    hold_to_leaflet(engine_takes);
}

/// What the engine answers to a row with this text in one field, over a site that gives the child no lead.
fn answer(place: usize, text: &str) -> RowCall {
    let mut row = ["A1", "1", "1", "2", "0", "0", "*", "*", "*", "*", "*", "*"];
    row[place] = text;
    ffi::card_row(&site_file(&free_fields()), None, &curves::book(), row.join(" ").as_bytes())
}

/// Each of the seven figures that go into a site file at its limit, and by the least that eight bytes can write over it.
#[test]
fn a_card_s_row_takes_what_the_leaflet_says_and_no_more() {
    let accepted = RowCall { number: ACCEPTED, blood: 0, skipped: false };
    for goes in &GOES {
        let (name, ..) = SITE.into_iter().find(|place| place.1 == goes.to).expect("a site figure");
        let line = leaflet().line(name);
        assert_eq!(line.count, goes.count, "{name}");
        let most = u128::from(line.most) / goes.factor;
        assert_eq!(answer(goes.from, &most.to_string()), accepted, "{name}");
        let refused = RowCall { number: Refusal::SiteLimits.number(), ..accepted };
        assert_eq!(answer(goes.from, &just_over(goes, line.most)), refused, "{name}");
    }
}

#[test]
fn the_program_prints_the_leaflet_wherever_it_is_run() {
    let (empty, damaged) = (Folder::new("empty"), Folder::new("damaged"));
    for file in ["site.lkb", "foods.lkb", "book.lkb", "card.txt"] {
        damaged.write(file, &published::site()[1..]);
    }
    for folder in [&empty, &damaged] {
        PRINTER.compare(folder.path(), LEAFLET.as_bytes(), &folder.path().display().to_string());
    }
    for words in ["soil 50001", "--help", "site.lkb", "<&-", "< site.lkb"] {
        let output = PRINTER.redirected(damaged.path(), words);
        assert!(output.status.success() && output.stderr.is_empty(), "{words}: {output:?}");
        assert_eq!(String::from_utf8_lossy(&output.stdout), LEAFLET, "{words}");
    }
}

#[test]
fn a_leaflet_that_cannot_be_written_is_told_on_standard_error() {
    let folder = Folder::new("unwritten");
    PRINTER.meets_a_full_device(folder.path());
    PRINTER.meets_a_closed_output(folder.path());
}
