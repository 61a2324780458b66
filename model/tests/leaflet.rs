//! The leaflet held to the model, and `makecard` to the leaflet.

#[path = "support/leaflet_ends.rs"]
mod leaflet_ends;
#[allow(dead_code)] // the leaflet has no foods and no rows
#[path = "support/limits.rs"]
mod limits;
#[allow(dead_code)] // the leaflet has no foods and no rows
#[path = "support/places.rs"]
mod places;
#[path = "support/repository.rs"]
mod repository;

use jurengate_model::card::GOES;
use jurengate_model::figures::{outside_site, site_fields, text_of, Card, KEYS};
use jurengate_model::leaflet::{leaflet, LEAFLET};
use jurengate_model::site::{least, most, within_limits, SATURATION_LEAST, SHARES_MOST, SITE_FIELDS};
use leaflet_ends::hold_to_leaflet;
use limits::number;
use places::{CARD, SITE};
use std::fs;

#[test]
fn the_fields_limits_and_rules_are_the_models() {
    let leaflet = leaflet();
    assert_eq!(leaflet.lines.len(), SITE.len());
    for (line, (name, place, count)) in leaflet.lines.iter().zip(SITE) {
        assert_eq!((line.name.as_str(), line.count), (name, count));
        for field in place..place + count {
            assert_eq!((line.least, line.most), (least(field), most(field)), "{name}, field {field}");
        }
    }
    assert_eq!((leaflet.shares_most, leaflet.saturation_least), (SHARES_MOST, SATURATION_LEAST));
    assert_eq!(leaflet.line("saturation").least, leaflet.saturation_least);
}

#[test]
fn the_model_takes_what_the_leaflet_says_and_no_more() {
    hold_to_leaflet(within_limits);
}

/// Whether `makecard` has nothing to say of a site's figures, as a text that it reads and as a file that it shows.
fn makecard_takes(fields: &[u32; SITE_FIELDS]) -> bool {
    let card = Card { site: *fields, ..Card::published() };
    let read = site_fields(&text_of(&card));
    assert_eq!(read.is_ok(), outside_site(&card).is_empty(), "{read:?}");
    read == Ok(*fields)
}

#[test]
fn makecard_takes_what_the_leaflet_says_and_no_more() {
    hold_to_leaflet(makecard_takes);
}

/// The remark behind a key's figures begins with its limits, as `0 to 50000 µg/g`.
#[test]
fn makecard_prints_the_leaflet_s_limits() {
    let text = text_of(&Card::published());
    for line in &leaflet().lines {
        let key = KEYS.iter().find(|key| key.name == line.name).expect("a key for each figure");
        let start = format!("{} = ", key.name);
        let said = text.lines().find(|said| said.trim_start_matches("# ").starts_with(&start));
        let (_, remark) = said.and_then(|said| said.split_once("  # ")).expect("a line with a remark");
        let limits = format!("{} to {} {}", key.shown(line.least), key.shown(line.most), key.unit);
        assert_eq!(remark.split(';').next(), Some(limits.trim_end()), "{}", key.name);
    }
    let share = format!("first-draw share, with the fountain's at most {};", leaflet().shares_most);
    assert!(text.contains(&share), "{share}");
}

/// README's lines of the leaflet are the leaflet's, and its table of a survey's fields has the leaflet's limits.
#[test]
fn the_readme_s_limits_are_the_leaflets() {
    let readme = fs::read_to_string(repository::at("README.md")).expect("the repository's README");
    let (_, shown) = readme.split_once("target/bin/leaflet\n").expect("README runs the program");
    let lines: Vec<&str> = shown.lines().map_while(|line| line.strip_prefix("    ")).collect();
    assert!(lines.len() >= 6, "{lines:?}");
    for line in lines.into_iter().filter(|line| *line != "..") {
        assert!(LEAFLET.lines().any(|due| due == line), "{line}");
    }
    for goes in &GOES {
        let (name, ..) = CARD[goes.from];
        let is_its =
            |row: &&str| row.split('|').nth(1).is_some_and(|cell| cell.contains(&name.to_uppercase()));
        let row = readme.lines().find(is_its).expect("a row for each figure");
        let (_, behind) = row.split_once("at most ").expect("a limit");
        let most = behind.split(' ').next().and_then(number).expect("a number");
        let (figure, ..) = SITE.into_iter().find(|place| place.1 == goes.to).expect("a site figure");
        assert_eq!(u128::from(most) * goes.factor, leaflet().line(figure).most.into(), "{name}");
    }
}
