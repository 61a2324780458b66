//! The tables of `docs/FORMAT.md`, held to the model.

#[path = "support/limits.rs"]
mod limits;
#[path = "support/places.rs"]
mod places;
#[path = "support/repository.rs"]
mod repository;

use jurengate_model::block::{
    check_of, field, word16, word32, BLOCK_BYTES, BODY_BYTES, FIELDS_AT, FIELD_BYTES,
};
use jurengate_model::book::{self, column, Row, RowFields, BLOCK_FIELDS, BLOCK_ROWS, ROW_FIELDS};
use jurengate_model::card::{self, card_row, Form, CARD_FIELDS, FORMS, GOES};
use jurengate_model::cards::{block_of, curves, foods_file, published, site_file_2};
use jurengate_model::figures::KEYS;
use jurengate_model::foods::{self, Foods, FOODS_FIGURES, FOODS_NUMBER};
use jurengate_model::leaflet::{leaflet, Line};
use jurengate_model::refusal::{Refusal, ACCEPTED};
use jurengate_model::site::{self, Away, Places, AGES, PLACES, SITE_FIELDS};
use jurengate_model::uptake::{dust_parts, house_share};
use limits::{
    are_away_ends, are_foods_ends, are_row_ends, are_site_ends, foods_bytes, number, BLOOD_VOLUME_MOST,
};
use places::{Place, AWAY, FOODS, ROW, SITE};
use std::fs;

/// A row of a markdown table, cell by cell.
type Cells = Vec<String>;

fn format() -> String {
    fs::read_to_string(repository::at("docs/FORMAT.md")).expect("the format's page")
}

/// The rows of the table whose head begins with these cells, without head and rule.
fn table(page: &str, head: &[&str]) -> Vec<Cells> {
    let start = format!("| {} |", head.join(" | "));
    let mut lines = page.lines().skip_while(|line| !line.starts_with(&start));
    assert!(lines.next().is_some(), "no table {head:?}");
    let rows = lines.skip(1).take_while(|line| line.starts_with('|'));
    rows.map(|line| line.trim_matches('|').split('|').map(|cell| cell.trim().to_string()).collect()).collect()
}

/// `4–31` as its two ends; a single number is both.
fn ends(cell: &str) -> (usize, usize) {
    let (first, last) = cell.split_once('–').unwrap_or((cell, cell));
    (first.parse().expect(cell), last.parse().expect(cell))
}

fn count(cell: &str) -> u32 {
    number(cell).unwrap_or_else(|| panic!("`{cell}` is not a number"))
}

/// The bytes that fields take, counted from where their first one may stand.
fn bytes_of(start: usize, first: usize, fields: usize) -> (usize, usize) {
    let from = start + FIELD_BYTES * first;
    (from, from + FIELD_BYTES * fields - 1)
}

/// Checks that the places follow each other without a gap up to the end.
fn assert_gapless(places: &[Place], end: usize) {
    let mut next = 0;
    for (name, place, count) in places {
        assert_eq!(*place, next, "{name}");
        next += count;
    }
    assert_eq!(next, end);
}

#[test]
fn the_names_are_those_of_the_figures() {
    assert_gapless(&SITE, SITE_FIELDS);
    assert_gapless(&ROW, ROW_FIELDS);
    let names = [&SITE[..], &AWAY, &FOODS].concat();
    assert_eq!(KEYS.map(|key| key.name).to_vec(), names.iter().map(|place| place.0).collect::<Vec<_>>());
}

/// The table of site fields.
fn site_table(page: &str) -> Vec<Cells> {
    table(page, &["bytes", "fields", "name", "unit", "least", "most", "what"])
}

#[test]
fn the_site_fields_are_the_models() {
    let rows = site_table(&format());
    assert_eq!(rows.len(), SITE.len());
    for (cells, (name, place, fields)) in rows.iter().zip(SITE) {
        assert_eq!(cells[2], format!("`{name}`"));
        assert_eq!(ends(&cells[0]), bytes_of(FIELDS_AT, place, fields), "{name}");
        assert_eq!(ends(&cells[1]), (place, place + fields - 1), "{name}");
        let (least, most) = (count(&cells[4]), count(&cells[5]));
        for field in place..place + fields {
            assert_eq!((least, most), (site::least(field), site::most(field)), "{name}");
            assert!(are_site_ends(field, least, most), "{name}");
        }
    }
}

#[test]
fn the_figures_of_the_places_are_the_models() {
    let rows = table(&format(), &["bytes", "field", "name", "unit", "least", "most", "what"]);
    assert_eq!(rows.len(), AWAY.len());
    for (cells, (name, place, _)) in rows.iter().zip(AWAY) {
        let field = SITE_FIELDS + place;
        assert_eq!(cells[2], format!("`{name}`"));
        assert_eq!(ends(&cells[0]), bytes_of(FIELDS_AT, field, 1), "{name}");
        assert_eq!(ends(&cells[1]), (field, field), "{name}");
        assert!(are_away_ends(place, count(&cells[4]), count(&cells[5])), "{name}");
    }
}

/// House and places in the worked example of the dust intake, and their sum.
#[test]
fn the_worked_dust_comes_out() {
    let page = format();
    assert!(page.contains("An example: 100 mg eaten, weight_soil 45, house dust 150,000."));
    let rows = table(&page, &["part", "share", "dust", "its lead"]);
    let [house, places @ .., together] = &rows[..] else { panic!("a row for each part is due") };
    let away: [Away; PLACES] = std::array::from_fn(|at| Away {
        share: count(&places[at][1]).into(),
        dust: count(&places[at][2]).into(),
    });
    let parts = dust_parts(count(&house[2]).into(), 100, 45, &away);
    assert_eq!((places.len(), u128::from(count(&house[1]))), (PLACES, house_share(&away)));
    for (cells, part) in rows.iter().zip(parts) {
        assert_eq!(u128::from(count(&cells[3])), part, "{}", cells[0]);
    }
    assert_eq!(u128::from(count(&together[3])), parts.iter().sum::<u128>());
    let shares: u32 = rows[..=PLACES].iter().map(|cells| count(&cells[1])).sum();
    assert_eq!((shares, count(&together[1])), (100, 100));
}

/// A unit as the leaflet has it, which is ASCII.
fn plain_unit(cell: &str) -> String {
    match cell {
        "" => "-".to_string(),
        unit => unit.replace('µ', "u").replace('³', "3"),
    }
}

/// The line of the leaflet that a row of the table would be.
fn leaflet_line(cells: &Cells) -> Line {
    let (first, last) = ends(&cells[1]);
    let (name, unit) = (cells[2].trim_matches('`').to_string(), plain_unit(&cells[3]));
    Line { name, count: last + 1 - first, unit, least: count(&cells[4]), most: count(&cells[5]) }
}

#[test]
fn the_site_fields_are_the_leaflets() {
    let page = format();
    let lines: Vec<Line> = site_table(&page).iter().map(leaflet_line).collect();
    assert_eq!(lines, leaflet().lines);
    let rule = format!("a first-draw and a fountain share that are together over {}.", leaflet().shares_most);
    assert!(page.contains(&rule), "{rule}");
}

/// Grams and single figures are two tables, each with bytes, figure and limits.
#[test]
fn the_foods_figures_are_the_models() {
    let page = format();
    let columns = ["figure", "name", "unit", "least", "most", "what"];
    let grams = table(&page, &[&["bytes at age 0"], &columns[..]].concat());
    let singly = table(&page, &[&["bytes"], &columns[..]].concat());
    let due = [(grams, &FOODS[..foods::FOODS]), (singly, &FOODS[foods::FOODS..])];
    let mut places = Vec::new();
    for (rows, foods_places) in due {
        assert_eq!(rows.len(), foods_places.len());
        for (cells, (name, place, ages)) in rows.iter().zip(foods_places) {
            let bytes = foods_bytes(*place);
            assert_eq!(cells[2], format!("`{name}`"));
            assert_eq!(ends(&cells[0]), (bytes.start, bytes.end - 1), "{name}");
            assert_eq!(ends(&cells[1]), (*place, *place), "{name}");
            for figure in (0..*ages).map(|age| place + foods::FOODS * age) {
                assert!(are_foods_ends(figure, count(&cells[4]), count(&cells[5])), "{name}");
                places.push(figure);
            }
        }
    }
    places.sort();
    assert_eq!(places, (0..FOODS_FIGURES).collect::<Vec<_>>());
}

/// The byte of a food's grams, as the page's formula has it.
fn grams_byte(age: usize, food: usize) -> usize {
    4 + 30 * age + 2 * food
}

#[test]
fn the_formula_finds_the_grams_of_every_age() {
    assert!(format().contains("\n    4 + 30 × a + 2 × j\n"));
    let (block, foods) = (foods_file(&published::foods()), published::foods());
    for (age, grams) in foods.grams.iter().enumerate() {
        for (food, due) in grams.iter().enumerate() {
            assert_eq!(word16(&block, grams_byte(age, food)), *due);
        }
    }
}

#[test]
fn the_row_numbers_are_the_models() {
    let page = format();
    let rows = table(&page, &["bytes of the row", "number", "name", "sign", "unit", "least", "most", "what"]);
    assert_eq!(rows.len(), ROW.len());
    for (cells, (name, place, _)) in rows.iter().zip(ROW) {
        assert_eq!(cells[2], format!("`{name}`"));
        assert_eq!(ends(&cells[0]), bytes_of(0, place, 1), "{name}");
        assert_eq!(ends(&cells[1]), (place, place), "{name}");
        let most = if cells[6] == "VB − 1" { BLOOD_VOLUME_MOST - 1 } else { count(&cells[6]) };
        assert!(are_row_ends(place, count(&cells[5]), most), "{name}");
    }
}

/// Whether a row passes with these numbers, each beside its place.
fn fits(numbers: &[(usize, u32)]) -> bool {
    let mut row: RowFields = [0; ROW_FIELDS];
    (row[column::VB], row[column::VP], row[column::BODY], row[column::OUT]) = (1_000, 999, 2_000, 1);
    for (place, value) in numbers {
        row[*place] = *value;
    }
    Row::of_fields(&row).within_limits()
}

#[test]
fn the_sums_of_a_row_are_the_models() {
    let rows = table(&format(), &["sum", "most"]);
    let most = |index: usize| rows[index][1].replace(',', "").parse::<u64>().expect("a number");
    assert_eq!(rows.len(), 3);
    let rest = u32::try_from(most(0) - u64::from(u32::MAX)).expect("two rates reach the sum");
    for place in column::OUT + 1..=column::URINE {
        assert!(
            fits(&[(column::OUT, u32::MAX), (place, rest)])
                && !fits(&[(column::OUT, u32::MAX), (place, rest + 1)])
        );
    }
    for (index, back, exit) in [(1, column::BACK + 1, column::FAECES), (2, column::BACK + 3, column::SKIN)] {
        let rest = most(index) as u32 - 7;
        assert!(fits(&[(back, rest), (exit, 7)]) && !fits(&[(back, rest + 1), (exit, 7)]));
    }
    assert!(fits(&[(column::VP, 999)]) && !fits(&[(column::VP, 1_000)]));
}

/// The byte of a number of a row, as the page's formula has it.
fn book_byte(month: usize, number: usize) -> usize {
    512 * (month / 5) + 4 + 92 * (month % 5) + 4 * number
}

#[test]
fn the_formula_finds_every_number_of_a_book() {
    assert!(format().contains("\n    512 × floor(m / 5) + 4 + 92 × (m mod 5) + 4 × j\n"));
    let (file, rows) = (curves::book(), book::read_table(&curves::book()).expect("a good book"));
    for (month, row) in rows.iter().enumerate() {
        for (number, value) in row.iter().enumerate() {
            assert_eq!(word32(&file, book_byte(month, number)), *value);
        }
    }
}

#[test]
fn fields_end_and_reserved_bytes_begin_where_the_page_says() {
    let page = format();
    for (fields, words) in [
        (SITE_FIELDS, "In edition 1, bytes {first} to {last} are fields, bytes {reserved} to 507 reserved."),
        (BLOCK_FIELDS, "bytes {first} to {last} of the block;\nbytes {reserved} to 507 are reserved."),
    ] {
        let (first, last) = bytes_of(FIELDS_AT, 0, fields);
        let words = words.replace("{first}", &first.to_string()).replace("{last}", &last.to_string());
        let words = words.replace("{reserved}", &(last + 1).to_string());
        assert!(page.contains(&words), "{words}");
    }
    let words = format!(
        "Bytes 4 to {} are figures, bytes {} to 507 reserved.",
        foods::RESERVED_AT - 1,
        foods::RESERVED_AT
    );
    assert!(page.contains(&words), "{words}");
    let words = format!(
        "Edition 2 has the same fields in the same bytes, five places behind them, and bytes {} to 507 reserved.",
        site::RESERVED_2_AT
    );
    assert!(page.replace('\n', " ").contains(&words), "{words}");
    assert_eq!((BODY_BYTES, BLOCK_ROWS * ROW_FIELDS), (508, 115));
}

/// Bytes as the page writes them.
fn hexadecimal(bytes: &[u8]) -> String {
    bytes.iter().map(|byte| format!("{byte:02X}")).collect::<Vec<_>>().join(" ")
}

#[test]
fn the_worked_check_comes_out() {
    let rows = table(&format(), &["bytes", "content, hexadecimal", "position", "word", "word × position"]);
    let block = block_of(3, &[100_000]);
    let (last, words) = rows.split_last().expect("rows");
    let mut sum = 0;
    for cells in &words[..4] {
        let ((first, end), position) = (ends(&cells[0]), count(&cells[2]));
        assert_eq!((first, end), (2 * position as usize - 2, 2 * position as usize - 1));
        assert_eq!(cells[1], hexadecimal(&block[first..=end]));
        assert_eq!(count(&cells[3]), u32::from(word16(&block, first)));
        assert_eq!(count(&cells[4]), count(&cells[3]) * position);
        sum += count(&cells[4]);
    }
    assert_eq!((ends(&words[4][0]), ends(&words[4][2])), ((8, BODY_BYTES - 1), (5, BODY_BYTES / 2)));
    assert!(block[8..BODY_BYTES].iter().all(|byte| *byte == 0));
    assert_eq!((last[1].as_str(), count(&last[4])), (hexadecimal(&block[BODY_BYTES..]).as_str(), sum));
    assert_eq!((sum, field(&block, 0)), (check_of(&block), 100_000));
}

#[test]
fn the_other_checks_on_the_page_come_out() {
    let page = format();
    assert_eq!(check_of(&block_of(0, &[])), 2);
    assert_eq!(check_of(&block_of(FOODS_NUMBER, &[])), 3);
    assert_eq!(check_of(&site_file_2(&[0; SITE_FIELDS], &Places::default())), 4);
    assert!(page.contains(
        "A block of zeros with edition 1 has the check 2; with number 1 as well, 3. One with edition 2 and number 0 has 4."
    ));
    let site = published::site();
    let bytes = hexadecimal(&site[BODY_BYTES..BLOCK_BYTES]);
    assert!(page.contains(&format!("has the check 44,952,423, in bytes {bytes}.")));
    assert_eq!(check_of(&site), 44_952_423);
}

/// As many whole numbers as are due in a cell.
fn numbers<const N: usize>(cell: &str) -> [u32; N] {
    let numbers: Vec<u32> = cell.split(' ').map(count).collect();
    numbers.try_into().unwrap_or_else(|_| panic!("`{cell}` has not {N} numbers"))
}

#[test]
fn the_worked_diet_comes_out() {
    let rows = table(&format(), &["example", "figures"]);
    let [grams, leads, shares, local_leads, diet, check] = &rows[..] else { panic!("six rows are due") };
    let mut foods = Foods {
        leads: numbers(&leads[1]),
        local_shares: numbers(&shares[1]),
        local_leads: numbers(&local_leads[1]),
        ..Foods::default()
    };
    foods.grams[0] = numbers(&grams[1]).map(|grams| grams as u16);
    assert_eq!((foods.diet(0), check_of(&foods_file(&foods))), (11_085, 109_834));
    assert_eq!((count(&diet[1]), count(&check[1])), (11_085, 109_834));
}

/// How far the agency's foods fall short of its default diet, in whole % rounded to the nearest.
#[test]
fn the_published_foods_give_less_than_the_default_diet_by_what_the_page_says() {
    let short = |age: usize| {
        let (diet, foods) = (f64::from(published::DIET[age]), published::foods().diet(age) as f64);
        (100.0 * (diet - foods) / diet).round() as u32
    };
    let by_age: Vec<u32> = (0..AGES).map(short).collect();
    let words = format!(
        "{} to {} % less than its default diet",
        by_age.iter().min().unwrap(),
        by_age.iter().max().unwrap()
    );
    assert!(format().contains(&words), "{words}");
}

#[test]
fn the_refusals_are_the_models() {
    let due = [
        Refusal::Length,
        Refusal::BloodList,
        Refusal::Check,
        Refusal::Edition,
        Refusal::Number,
        Refusal::Reserved,
        Refusal::SiteLimits,
        Refusal::BookLimits,
        Refusal::Intake,
        Refusal::FoodShares,
        Refusal::FoodLimits,
        Refusal::CardRow,
        Refusal::PlaceShares,
        Refusal::ShareAbove0,
        Refusal::NoState,
        Refusal::LastMonth,
        Refusal::Burden,
    ];
    let due = [vec![ACCEPTED], due.map(Refusal::number).to_vec()].concat();
    let header = |file: &str| fs::read_to_string(repository::at(file)).expect("the header");
    let (cards, others) = (header("include/jurengate_cards.h"), header("include/jurengate.h"));
    let rows = table(&format(), &["number", "name in C", "why"]);
    assert_eq!(rows.iter().map(|cells| count(&cells[0])).collect::<Vec<_>>(), due);
    for cells in rows {
        let line = format!("\n    {} = {}", cells[1].trim_matches('`'), cells[0]);
        let header = if count(&cells[0]) == Refusal::CardRow.number() { &cards } else { &others };
        let behind = header.split_once(&line).map(|(_, rest)| rest.chars().next());
        assert!(matches!(behind, Some(Some(',' | ' '))), "{line}");
    }
}

/// The names of a row's fields, each at its place.
const CARD_NAMES: [(&str, usize); CARD_FIELDS] = [
    ("ID", card::field::ID),
    ("FAM", card::field::FAM),
    ("BLOCK", card::field::BLOCK),
    ("AGE", card::field::AGE),
    ("SOIL", card::field::SOIL),
    ("DUST", card::field::DUST),
    ("WATER", card::field::WATER),
    ("AIR", card::field::AIR),
    ("OTHER", card::field::OTHER),
    ("PBB", card::field::PBB),
    ("ABSSOIL", card::field::ABSSOIL),
    ("ABSDUST", card::field::ABSDUST),
];

/// A limit in the row's unit, times the factor, is that of the site field.
#[test]
fn the_fields_of_a_card_s_row_are_the_models() {
    let head = ["field", "name", "form", "unit", "factor", "most", "site fields", "an asterisk in it"];
    let rows = table(&format(), &head);
    assert_eq!(rows.len(), CARD_FIELDS);
    for (cells, (place, (name, field))) in rows.iter().zip(CARD_NAMES.iter().enumerate()) {
        assert_eq!((count(&cells[0]) as usize, place), (*field, *field), "{name}");
        assert_eq!(cells[1], format!("`{name}`"));
        let form = match FORMS[place] {
            Form::Text => "text",
            Form::Figure => "figure",
            Form::Whole => "whole",
        };
        assert_eq!(cells[2], form, "{name}");
        match GOES.iter().find(|goes| goes.from == place) {
            None => assert!(cells[4..7].iter().all(String::is_empty), "{name}"),
            Some(goes) => {
                let factor = count(&cells[4]);
                assert_eq!(u128::from(factor), goes.factor, "{name}");
                assert_eq!(factor * count(&cells[5]), site::most(goes.to), "{name}");
                assert_eq!(ends(&cells[6]), (goes.to, goes.to + goes.count - 1), "{name}");
            }
        }
    }
}

/// Each text in its field of the page's row, over the published site.
#[test]
fn the_texts_of_a_card_s_fields_are_answered_as_the_page_says() {
    let page = format();
    let (_, behind) = page.split_once("and the row `").expect("the page's row");
    let (whole, _) = behind.split_once('`').expect("the row's end");
    let (site, book) = (published::site(), curves::book());
    let answer = |row: &str| match card_row(&site, None, &book, row.as_bytes()) {
        call if call.skipped => "skipped".to_string(),
        call if call.number == ACCEPTED => "blood".to_string(),
        call => call.number.to_string(),
    };
    assert_eq!(answer(whole), "blood");
    let rows = table(&page, &["field", "text", "answer", "why"]);
    assert_eq!(rows.len(), 30);
    for cells in rows {
        let name = cells[0].trim_matches('`');
        let (_, place) = CARD_NAMES.iter().find(|field| field.0 == name).expect("a field of a row");
        let mut fields: Vec<&str> = whole.split(' ').collect();
        fields[*place] = cells[1].trim_matches('`');
        assert_eq!(answer(&fields.join(" ")), cells[2], "{cells:?}");
    }
}
