//! `include/jurengate.h` and `include/jurengate_cards.h`: clean C and C++; their numbers and limits are the model's, their
//! declarations and what they say on linking the libraries'.

#[path = "support/c_program.rs"]
mod c_program;
#[path = "support/folder.rs"]
mod folder;
#[path = "support/limits.rs"]
mod limits;
#[path = "support/places.rs"]
mod places;
#[path = "support/repository.rs"]
mod repository;
#[path = "support/stack_bounds.rs"]
mod stack_bounds;

use folder::Folder;
use jurengate_model::book::{self, Row};
use jurengate_model::card::{self, GOES};
use jurengate_model::group::{self, kind};
use jurengate_model::kinetics::blood_figure;
use jurengate_model::refusal::{Refusal, ACCEPTED};
use jurengate_model::state::{self, compartment, COMPARTMENTS, LEDGERS, MONTHS};
use jurengate_model::{block, foods, site, uptake};
use limits::{are_away_ends, are_foods_ends, are_row_ends, are_site_ends, number, BLOOD_VOLUME_MOST};
use places::{Place, AWAY, CARD, FOODS, ROW, SITE, STATE};
use stack_bounds::{CARDS_STACK_BOUNDS, STACK_BOUNDS};
use std::collections::BTreeSet;
use std::fs;
use std::path::PathBuf;
use std::process::Command;

/// What every name begins with.
const PREFIX: &str = "JURENGATE_";
/// The include guards, which are no numbers.
const GUARDS: [&str; 2] = ["JURENGATE_H", "JURENGATE_CARDS_H"];
/// The version of the rows' interface.
const CARDS_VERSION: [u128; 3] = [0, 3, 0];

/// A name of the header and the number that it must have.
type Named = (String, u128);

fn header() -> String {
    header_of("jurengate.h")
}

fn header_of(file: &str) -> String {
    fs::read_to_string(repository::at("include").join(file)).expect("the header")
}

/// The largest blood figure: all the lead that a child can hold in the red cells of the smallest blood volume.
fn blood_most() -> u128 {
    let mut row = [0; book::ROW_FIELDS];
    row[book::column::VB] = 1_000;
    row[book::column::VP] = 999;
    let mut lead = [0; COMPARTMENTS];
    lead[compartment::RED_CELLS] = state::BURDEN_LIMIT as u64;
    blood_figure(&Row::of_fields(&row), &lead).into()
}

/// Sizes and limits.
fn sizes() -> Vec<Named> {
    let sizes: [(&str, u128); 24] = [
        ("BLOCK_BYTES", block::BLOCK_BYTES as u128),
        ("BODY_BYTES", block::BODY_BYTES as u128),
        ("EDITION", block::EDITION.into()),
        ("PLACES_EDITION", site::EDITION_2.number.into()),
        ("SITE_BYTES", block::BLOCK_BYTES as u128),
        ("SITE_FIELDS", site::SITE_FIELDS as u128),
        ("SITE_PLACES", site::PLACE_FIGURES as u128),
        ("AGES", site::AGES as u128),
        ("FOODS_BYTES", block::BLOCK_BYTES as u128),
        ("FOODS", foods::FOODS as u128),
        ("FOODS_FIGURES", foods::FOODS_FIGURES as u128),
        ("BOOK_BYTES", book::BOOK_BYTES as u128),
        ("BOOK_BLOCKS", book::BOOK_BLOCKS as u128),
        ("BLOCK_ROWS", book::BLOCK_ROWS as u128),
        ("ROWS", book::BOOK_ROWS as u128),
        ("ROW_NUMBERS", book::ROW_FIELDS as u128),
        ("TABLE_NUMBERS", (book::BOOK_ROWS * book::ROW_FIELDS) as u128),
        ("MONTHS", MONTHS as u128),
        ("STATE_WORDS", (1 + COMPARTMENTS + LEDGERS) as u128),
        ("RATE_UNIT", book::D),
        ("INTAKE_MOST", uptake::INTAKE_MOST),
        ("BURDEN_MOST", state::BURDEN_LIMIT),
        ("MONTH_UPTAKE_MOST", state::MONTH_LIMIT),
        ("BLOOD_MOST", blood_most()),
    ];
    sizes.map(|(name, value)| (name.to_string(), value)).to_vec()
}

/// The version, that of this package.
fn version() -> Vec<Named> {
    let parts = env!("CARGO_PKG_VERSION").split('.').map(|part| part.parse().expect("a number"));
    let names = ["VERSION_MAJOR", "VERSION_MINOR", "VERSION_PATCH"];
    names.iter().map(|name| name.to_string()).zip(parts).collect()
}

fn refusals() -> Vec<Named> {
    let refusals = [
        ("WRONG_LENGTH", Refusal::Length),
        ("WRONG_LIST_LENGTH", Refusal::BloodList),
        ("CHECK_WRONG", Refusal::Check),
        ("EDITION_WRONG", Refusal::Edition),
        ("NUMBER_WRONG", Refusal::Number),
        ("RESERVED_NOT_ZERO", Refusal::Reserved),
        ("FIELD_OUTSIDE_LIMITS", Refusal::SiteLimits),
        ("ROW_OUTSIDE_LIMITS", Refusal::BookLimits),
        ("INTAKE_TOO_LARGE", Refusal::Intake),
        ("SHARES_TOO_LARGE", Refusal::FoodShares),
        ("FOOD_OUTSIDE_LIMITS", Refusal::FoodLimits),
        ("PLACES_OVER_100", Refusal::PlaceShares),
        ("SHARE_ABOVE_0", Refusal::ShareAbove0),
        ("NO_STATE", Refusal::NoState),
        ("LAST_MONTH_DONE", Refusal::LastMonth),
        ("BURDEN_TOO_LARGE", Refusal::Burden),
    ];
    let refused = refusals.map(|(name, refusal)| (name.to_string(), refusal.number().into()));
    [vec![("ACCEPTED".to_string(), ACCEPTED.into())], refused.to_vec()].concat()
}

/// `soil` of the places of a site file as `SITE_SOIL`.
fn place_name(kind: &str, name: &str) -> String {
    format!("{kind}_{}", name.to_uppercase())
}

fn named_places(kind: &str, places: &[Place]) -> Vec<Named> {
    places.iter().map(|(name, place, _)| (place_name(kind, name), *place as u128)).collect()
}

fn stack_bounds(bounds: &[(&str, usize)]) -> Vec<Named> {
    bounds.iter().map(|(call, bound)| (place_name("STACK", call), *bound as u128)).collect()
}

fn prefixed(named: Vec<Named>) -> Vec<Named> {
    named.into_iter().map(|(name, value)| (format!("{PREFIX}{name}"), value)).collect()
}

/// Every number that `jurengate.h` must name, with its value.
fn all_named() -> Vec<Named> {
    let places = [("SITE", &SITE[..]), ("PLACE", &AWAY), ("FOODS", &FOODS), ("ROW", &ROW), ("STATE", &STATE)];
    let places = places.map(|(kind, places)| named_places(kind, places));
    prefixed([version(), sizes(), stack_bounds(&STACK_BOUNDS), refusals(), places.concat()].concat())
}

/// Every number that `jurengate_cards.h` must name, with its value.
fn all_named_of_cards() -> Vec<Named> {
    let [major, minor, patch] = CARDS_VERSION;
    let named = [
        ("CARDS_VERSION_MAJOR", major),
        ("CARDS_VERSION_MINOR", minor),
        ("CARDS_VERSION_PATCH", patch),
        ("CARD_HEADINGS", card::HEADING_LINES as u128),
        ("CARD_FIELDS", card::CARD_FIELDS as u128),
        ("CARD_FIELD_BYTES", card::FIELD_MOST as u128),
        ("CARD_TEXT_WRONG", Refusal::CardRow.number().into()),
        ("GROUP_ROWS", group::GROUP_ROWS as u128),
        ("GROUP_ANSWERS", group::GROUP_ANSWERS as u128),
        ("GROUP_BLOOD", kind::BLOOD.into()),
        ("GROUP_SKIPPED", kind::SKIPPED.into()),
        ("GROUP_REFUSED", kind::REFUSED.into()),
    ];
    let named = named.map(|(name, value)| (name.to_string(), value)).to_vec();
    prefixed([named, stack_bounds(&CARDS_STACK_BOUNDS), named_places("CARD", &CARD)].concat())
}

/// What the header defines: the words behind `#define`, and those before ` = `.
fn defined(header: &str) -> BTreeSet<String> {
    let lines = header.lines().map(|line| line.trim().trim_start_matches("#define "));
    let words = lines.filter_map(|line| line.split_whitespace().next());
    words.filter(|word| word.starts_with(PREFIX) && !GUARDS.contains(word)).map(String::from).collect()
}

/// The line that defines a name.
fn line_of<'a>(header: &'a str, name: &str) -> &'a str {
    let start = format!("{PREFIX}{name} = ");
    let line = header.lines().map(str::trim).find(|line| line.starts_with(&start));
    line.unwrap_or_else(|| panic!("{name} is not in the header"))
}

/// The number that a line's remark says behind some words.
fn said(line: &str, words: &str) -> Option<u32> {
    let (_, rest) = line.split_once(words)?;
    number(rest.split([' ', ';']).next()?.trim_end_matches(','))
}

/// Compiles a text without linking, in a language with every warning an error.
fn compile(folder: &Folder, compiler: &str, language: &[&str], text: &str) {
    let source = folder.write("source", text.as_bytes());
    let output = Command::new(compiler)
        .args(language)
        .args(["-Wall", "-Wextra", "-Wpedantic", "-Werror", "-c", "-I"])
        .arg(repository::at("include"))
        .arg(source)
        .arg("-o")
        .arg(folder.path().join("object"))
        .output()
        .unwrap_or_else(|why| panic!("the command `{compiler}` is needed: {why}"));
    assert!(output.status.success(), "{language:?}: {}", String::from_utf8_lossy(&output.stderr));
}

fn compile_as_c_and_cpp(name: &str, text: &str) {
    let folder = Folder::new(name);
    compile(&folder, "cc", &["-x", "c", "-std=c99"], text);
    compile(&folder, "c++", &["-x", "c++", "-std=c++11"], text);
}

#[test]
fn the_header_alone_is_clean_c_and_cpp() {
    for file in ["jurengate.h", "jurengate_cards.h"] {
        compile_as_c_and_cpp("header-alone", &format!("#include \"{file}\"\n#include \"{file}\"\n"));
    }
    compile_as_c_and_cpp("both-headers", "#include \"jurengate_cards.h\"\n#include \"jurengate.h\"\n");
}

/// The thirteen calls as the library has them: a pointer of another type is an error in both languages.
#[test]
fn the_declarations_are_those_of_the_library() {
    let text = r#"
#include "jurengate.h"
struct calls {
    uint32_t (*read_site)(const uint8_t *, size_t, uint32_t *);
    uint32_t (*read_book)(const uint8_t *, size_t, uint32_t *);
    uint32_t (*write_block)(const uint8_t *, size_t, uint8_t *, size_t);
    uint32_t (*birth)(const uint8_t *, size_t, const uint8_t *, size_t, uint64_t *);
    uint32_t (*month)(const uint8_t *, size_t, const uint8_t *, size_t, uint64_t *, uint32_t *);
    uint32_t (*run)(const uint8_t *, size_t, const uint8_t *, size_t,
                    uint32_t *, size_t, uint64_t *, uint32_t *);
    uint32_t (*read_foods)(const uint8_t *, size_t, uint32_t *);
    uint32_t (*birth_foods)(const uint8_t *, size_t, const uint8_t *, size_t, const uint8_t *, size_t, uint64_t *);
    uint32_t (*month_foods)(const uint8_t *, size_t, const uint8_t *, size_t, const uint8_t *, size_t,
                            uint64_t *, uint32_t *);
    uint32_t (*run_foods)(const uint8_t *, size_t, const uint8_t *, size_t, const uint8_t *, size_t,
                          uint32_t *, size_t, uint64_t *, uint32_t *);
    uint32_t (*read_places)(const uint8_t *, size_t, uint32_t *);
    uint32_t (*site_to_edition_2)(const uint8_t *, size_t, uint8_t *, size_t);
    uint32_t (*site_to_edition_1)(const uint8_t *, size_t, uint8_t *, size_t);
};
struct calls calls = {
    jurengate_read_site, jurengate_read_book, jurengate_write_block,
    jurengate_birth, jurengate_month, jurengate_run,
    jurengate_read_foods, jurengate_birth_foods, jurengate_month_foods, jurengate_run_foods,
    jurengate_read_places, jurengate_site_to_edition_2, jurengate_site_to_edition_1
};
"#;
    compile_as_c_and_cpp("declarations", text);
}

#[test]
fn the_declarations_of_a_row_and_a_group_are_those_of_the_library() {
    let text = r#"
#include "jurengate_cards.h"
uint32_t (*card_row)(const uint8_t *, size_t, bool, const uint8_t *, size_t, const uint8_t *, size_t,
                     const uint8_t *, size_t, uint32_t *, bool *) = jurengate_card_row;
uint32_t (*card_group)(const uint8_t *, size_t, bool, const uint8_t *, size_t, const uint8_t *, size_t,
                       const uint8_t *, size_t, uint32_t *, uint32_t *, size_t *) = jurengate_card_group;
"#;
    compile_as_c_and_cpp("declaration-of-rows", text);
}

/// Answers and places as a firmware uses them.
#[test]
fn the_names_are_used_without_a_warning() {
    let text = r#"
#include "jurengate.h"
int is_accepted(uint32_t refusal);
int is_accepted(uint32_t refusal) { return refusal == JURENGATE_ACCEPTED; }
uint32_t blood_volume(const uint32_t table[JURENGATE_TABLE_NUMBERS], uint32_t month);
uint32_t blood_volume(const uint32_t table[JURENGATE_TABLE_NUMBERS], uint32_t month) {
    return table[JURENGATE_ROW_NUMBERS * month + JURENGATE_ROW_BLOOD_VOLUME];
}
uint32_t meat(const uint32_t figures[JURENGATE_FOODS_FIGURES], uint32_t age);
uint32_t meat(const uint32_t figures[JURENGATE_FOODS_FIGURES], uint32_t age) {
    return figures[JURENGATE_FOODS * age + JURENGATE_FOODS_MEAT_GRAMS];
}
int is_over(const uint64_t state[JURENGATE_STATE_WORDS]);
int is_over(const uint64_t state[JURENGATE_STATE_WORDS]) {
    return state[JURENGATE_STATE_PLASMA] > JURENGATE_BURDEN_MOST || state[JURENGATE_STATE_MONTH] > JURENGATE_MONTHS;
}
"#;
    compile_as_c_and_cpp("names", text);
    let text = r#"
#include "jurengate_cards.h"
uint32_t refusals(const uint32_t answers[JURENGATE_GROUP_ANSWERS], uint32_t taken);
uint32_t refusals(const uint32_t answers[JURENGATE_GROUP_ANSWERS], uint32_t taken) {
    uint32_t refused = 0;
    for (uint32_t row = 0; row < taken && row < JURENGATE_GROUP_ROWS; row++) {
        refused += answers[2 * row] == JURENGATE_GROUP_REFUSED && answers[2 * row + 1] == JURENGATE_CARD_TEXT_WRONG;
    }
    return refused;
}
"#;
    compile_as_c_and_cpp("names-of-groups", text);
}

#[test]
fn the_headers_name_these_numbers_and_no_others() {
    for (file, named) in [("jurengate.h", all_named()), ("jurengate_cards.h", all_named_of_cards())] {
        let due: BTreeSet<String> = named.into_iter().map(|(name, _)| name).collect();
        assert_eq!(defined(&header_of(file)), due, "{file}");
    }
}

#[test]
fn the_named_numbers_are_the_models() {
    let named = [all_named(), all_named_of_cards()].concat();
    let lines = named
        .iter()
        .map(|(name, _)| format!("    printf(\"{name} %llu\\n\", (unsigned long long){name});\n"));
    let text = format!(
        "#include <stdio.h>\n#include \"jurengate_cards.h\"\nint main(void) {{\n{}    return 0;\n}}\n",
        lines.collect::<String>()
    );
    let folder = Folder::new("header-numbers");
    let (source, program) = (folder.write("numbers.c", text.as_bytes()), folder.path().join("numbers"));
    c_program::build_at(&source, &[], &program);
    let output = Command::new(&program).output().expect("the program runs");
    let due: String = named.iter().map(|(name, value)| format!("{name} {value}\n")).collect();
    assert_eq!(String::from_utf8_lossy(&output.stdout), due);
}

#[test]
fn the_limits_beside_the_site_places_are_the_models() {
    let header = header();
    for (name, place, count) in SITE {
        let line = line_of(&header, &place_name("SITE", name));
        let (least, most) = (said(line, "at least ").unwrap_or(0), said(line, "at most ").expect(line));
        for field in place..place + count {
            assert!(are_site_ends(field, least, most), "{line}");
            assert_eq!((least, most), (site::least(field), site::most(field)), "{line}");
        }
    }
}

#[test]
fn the_limits_beside_the_figures_of_the_places_are_the_models() {
    let header = header();
    for (name, place, _) in AWAY {
        let line = line_of(&header, &place_name("PLACE", name));
        assert!(are_away_ends(place, 0, said(line, "at most ").expect(line)), "{line}");
    }
}

#[test]
fn the_limits_beside_the_foods_places_are_the_models() {
    let header = header();
    for (name, place, count) in FOODS {
        let line = line_of(&header, &place_name("FOODS", name));
        for age in 0..count {
            assert!(
                are_foods_ends(place + foods::FOODS * age, 0, said(line, "at most ").expect(line)),
                "{line}"
            );
        }
    }
}

/// A line without a limit has that of 32 bits; VB - 1 is tried with the largest VB.
#[test]
fn the_limits_beside_the_row_places_are_the_models() {
    let header = header();
    for (name, place, _) in ROW {
        let line = line_of(&header, &place_name("ROW", name));
        let most = if line.contains("at most VB - 1") {
            BLOOD_VOLUME_MOST - 1
        } else {
            said(line, "at most ").unwrap_or(u32::MAX)
        };
        assert!(are_row_ends(place, said(line, "at least ").unwrap_or(0), most), "{line}");
    }
}

/// In the units of the row; a place without a limit says none.
#[test]
fn the_limits_beside_the_places_of_a_card_are_the_models() {
    let header = header_of("jurengate_cards.h");
    for (name, place, _) in CARD {
        let line = line_of(&header, &place_name("CARD", name));
        let goes = GOES.iter().find(|goes| goes.from == place);
        let most = goes.map(|goes| u128::from(site::most(goes.to)) / goes.factor);
        assert_eq!(said(line, "at most ").map(u128::from), most, "{line}");
        if let Some(goes) = goes {
            assert_eq!(u128::from(site::most(goes.to)) % goes.factor, 0, "{line}");
        }
    }
}

/// The kinds of symbol that `nm` has for static data that can be written.
const DATA_KINDS: [&str; 5] = ["b", "B", "d", "D", "C"];

/// Of each library: what it needs, its data, and what it offers, which is its calls alone, so that both can be linked.
#[test]
fn the_libraries_need_memcpy_and_memset_alone_and_have_no_static_data() {
    let libraries: [(PathBuf, &[(&str, usize)]); 2] =
        [(c_program::library(), &STACK_BOUNDS), (c_program::cards_library(), &CARDS_STACK_BOUNDS)];
    for (library, calls) in libraries {
        let output = Command::new("nm").arg(library).output().expect("the command `nm` is needed");
        let text = String::from_utf8(output.stdout).expect("text");
        let symbols: Vec<Vec<&str>> = text.lines().map(|line| line.split_whitespace().collect()).collect();
        let of_kind = |kind: &str| -> BTreeSet<&str> {
            let named = symbols.iter().filter(|words| words.len() >= 2 && words[words.len() - 2] == kind);
            named.map(|words| words[words.len() - 1]).collect()
        };
        assert_eq!(of_kind("U"), BTreeSet::from(["memcpy", "memset"]));
        for kind in DATA_KINDS {
            assert_eq!(of_kind(kind), BTreeSet::new(), "static data of kind {kind}");
        }
        let calls: Vec<String> = calls.iter().map(|(call, _)| format!("jurengate_{call}")).collect();
        assert_eq!(of_kind("T"), calls.iter().map(String::as_str).collect());
    }
}
