//! The examples in C, built against the header and the static library, held to the model.

#[path = "support/c_program.rs"]
mod c_program;
#[path = "support/folder.rs"]
mod folder;
#[path = "support/foods_printout.rs"]
mod foods_printout;
#[path = "support/repository.rs"]
mod repository;

use folder::Folder;
use foods_printout::foods_printout;
use jurengate_model::block::{BLOCK_BYTES, EDITION_AT};
use jurengate_model::card::{answers, fields, rows, FIELD_MOST};
use jurengate_model::cards::{curves, foods_file, published, site_file_2};
use jurengate_model::convert::{to_edition_1, to_edition_2, Converter};
use jurengate_model::engine;
use jurengate_model::foods::food;
use jurengate_model::group::{group, GROUP_ROWS};
use jurengate_model::site::{read_site_file, Places, PLACE_FIGURES};
use std::fs;
use std::path::{Path, PathBuf};
use std::process::Command;

/// What the example is to print for two files.
fn expected(site: &[u8], book: &[u8]) -> String {
    let mut blood = [0; 84];
    let answer = engine::run(site, book, &mut blood);
    let figures = blood[..answer.months as usize].iter().zip(1..);
    let lines: String = figures.map(|(figure, month)| format!("{month} {figure}\n")).collect();
    format!("{lines}refusal {} after {}\n", answer.number, answer.months)
}

#[test]
fn the_firmware_example_prints_what_the_model_says() {
    let folder = Folder::new("firmware");
    let program = folder.path().join("firmware");
    c_program::build("examples/firmware.c", &[], &program);
    let (site, book) = (published::site(), curves::book());
    let mut damaged = book.clone();
    damaged[9 * 512] ^= 1;
    let cards: [(&[u8], &[u8]); 4] = [(&site, &book), (&site, &damaged), (&site[..511], &book), (&site, &[])];
    for (site, book) in cards {
        let files = [folder.write("site", site), folder.write("book", book)];
        let output = Command::new(&program).args(files).output().expect("the example runs");
        assert!(output.status.success(), "{}", String::from_utf8_lossy(&output.stderr));
        assert_eq!(String::from_utf8_lossy(&output.stdout), expected(site, book));
    }
}

/// The sample, then cards that are refused: by the foods behind a sound site file, by the site before them, by the
/// diet of age 3.
#[test]
fn the_foods_example_prints_what_the_model_says() {
    let folder = Folder::new("foods-example");
    let program = folder.path().join("foods");
    c_program::build("examples/foods.c", &[], &program);
    let run = |files: [PathBuf; 3]| {
        let output = Command::new(&program).args(files).output().expect("the example runs");
        assert!(output.status.success(), "{}", String::from_utf8_lossy(&output.stderr));
        String::from_utf8(output.stdout).expect("text")
    };
    let sample = repository::at("samples/foods");
    let printed = run(["site.lkb", "foods.lkb", "book.lkb"].map(|file| sample.join(file)));
    assert_eq!(
        printed,
        fs::read_to_string(sample.join("printout-foods.txt")).expect("the sample's printout")
    );

    let (site, book) = (published::site(), curves::book());
    let foods = foods_file(&published::foods());
    let mut damaged = site.clone();
    damaged[4] ^= 1;
    let mut much = published::foods();
    (much.grams[3][food::MEAT], much.leads[food::MEAT]) = (10_000, 1_000_000);
    let much = foods_file(&much);
    let cards: [([&[u8]; 3], &str); 5] = [
        ([&site, &foods, &book], " -\n"),
        ([&site, &[], &book], "refused 1 after 0\n"),
        ([&damaged, &foods[..511], &book], "refused 3 after 0\n"),
        ([&site, &foods, &book[..512]], "refused 1 after 0\n"),
        ([&site, &much, &book], "refused 9 after 36\n"),
    ];
    for ([site, foods, book], end) in cards {
        let files = [("site", site), ("foods.lkb", foods), ("book", book)];
        let printed = run(files.map(|(name, bytes)| folder.write(name, bytes)));
        assert_eq!(printed, foods_printout(site, foods, book));
        assert!(printed.ends_with(end), "{printed}");
    }
}

/// What the example of the editions is to print for two files, and the file that it is to write.
fn expected_editions(site: &[u8], book: &[u8]) -> (String, Option<Vec<u8>>) {
    let file = match read_site_file(site) {
        Ok(file) => file,
        Err(refusal) => return (format!("refused {}\n", refusal.number()), None),
    };
    let names = ["work", "school", "daycare", "second home", "other"];
    let places = names.iter().zip(file.places.0).filter(|(_, place)| place.share > 0);
    let places: String = places
        .map(|(name, place)| {
            let (whole, part) = (place.dust / 1_000, place.dust % 1_000);
            format!("{name}: {} % of the dust, {whole}.{part:03} ug/g\n", place.share)
        })
        .collect();
    let head = format!("{places}house: {} % of the dust\n", 100 - file.places.shares());
    let (way, converter): (_, Converter) = match site[EDITION_AT] {
        1 => ("edition 1 to 2", to_edition_2),
        _ => ("edition 2 to 1", to_edition_1),
    };
    let mut target = vec![0; BLOCK_BYTES];
    if let Err(refusal) = converter(site, &mut target) {
        return (format!("{head}{way}: refused {}\n", refusal.number()), None);
    }
    let mut blood = [0; 84];
    let months = engine::run(site, book, &mut blood).months as usize;
    let last = blood[..months].last().copied().unwrap_or(0);
    (format!("{head}{way}: blood {last} before and after\n"), Some(target))
}

#[test]
fn the_editions_example_prints_and_writes_what_the_model_says() {
    let folder = Folder::new("editions-example");
    let program = folder.path().join("editions");
    c_program::build("examples/editions.c", &[], &program);
    let (site, book) = (published::site(), curves::book());
    let with =
        |figures: [u32; PLACE_FIGURES]| site_file_2(&published::fields(), &Places::of_figures(&figures));
    let daycare = fs::read(repository::at("samples/daycare/site.lkb")).expect("the sample");
    let mut damaged = site.clone();
    damaged[4] ^= 1;
    let cards: [(&[u8], &[u8], &str); 8] = [
        (&site, &book, "edition 1 to 2: blood 1"),
        (&with([0, 7, 0, 0, 0, 8, 0, 0, 0, 9]), &book, "edition 2 to 1: blood 1"),
        (&daycare, &book, "edition 2 to 1: refused 14\n"),
        (
            &with([20, 1, 20, 2, 20, 3, 20, 50_000_000, 20, 5]),
            &book,
            "house: 0 % of the dust\nedition 2 to 1: refused 14\n",
        ),
        (&with([100, 0, 1, 0, 0, 0, 0, 0, 0, 0]), &book, "refused 13\n"),
        (&damaged, &book, "refused 3\n"),
        (&[], &book, "refused 1\n"),
        (&site, &[], "edition 1 to 2: blood 0 before and after\n"),
    ];
    for (site, book, part) in cards {
        let target = folder.path().join("converted");
        fs::remove_file(&target).ok();
        let files = [folder.write("site", site), folder.write("book", book), target.clone()];
        let output = Command::new(&program).args(files).output().expect("the example runs");
        assert!(output.status.success(), "{}", String::from_utf8_lossy(&output.stderr));
        let printed = String::from_utf8(output.stdout).expect("text");
        assert_eq!((printed.clone(), fs::read(target).ok()), expected_editions(site, book));
        assert!(printed.contains(part), "{printed}");
    }
}

/// A row's ID as the example prints it: at most eight bytes, `?` for one that is not to be printed, `-` for none.
fn printed_id(row: &[u8]) -> String {
    let shown = |&byte: &u8| if byte.is_ascii_graphic() { char::from(byte) } else { '?' };
    let id = fields(row).first().map(|id| id.iter().take(FIELD_MOST).map(shown).collect());
    id.unwrap_or_else(|| "-".to_string())
}

/// What the example is to print for a text over the files.
fn expected_rows(site: &[u8], foods: Option<&[u8]>, book: &[u8], text: &[u8]) -> String {
    let rows = rows(text);
    let answers = answers(site, foods, book, rows.iter().copied());
    rows.iter().zip(answers).map(|(row, answer)| format!("{} {}\n", printed_id(row), answer.line())).collect()
}

/// What the example of the rows prints on standard output and on standard error.
fn run_rows(program: &Path, files: &[PathBuf]) -> (String, String) {
    let output = Command::new(program).args(files).output().expect("the example runs");
    let text = |bytes: Vec<u8>| String::from_utf8(bytes).expect("text");
    assert!(output.status.success(), "{}", output.status);
    (text(output.stdout), text(output.stderr))
}

/// The library of the rows alone, and on either side of the other.
#[test]
fn the_cards_example_prints_the_sample_however_it_is_linked() {
    let folder = Folder::new("cards-linked");
    let (program, sample) = (folder.path().join("cards"), repository::at("samples/survey"));
    let files = ["site.lkb", "book.lkb", "card.txt"].map(|file| sample.join(file));
    let [site, book, text] = files.each_ref().map(|file| fs::read(file).expect("a file of the sample"));
    let due = expected_rows(&site, None, &book, &text);
    let stored = fs::read_to_string(sample.join("cardout.txt")).expect("the sample's rows");
    let without_id = |line: &str| line.split_once(' ').expect("an ID and an answer").1.to_string() + "\n";
    assert_eq!(due.lines().map(without_id).collect::<String>(), stored);
    let (first, cards) = (c_program::library(), c_program::cards_library());
    for archives in [vec![cards.clone()], vec![first.clone(), cards.clone()], vec![cards, first]] {
        c_program::build_with(&repository::at("examples/cards.c"), &archives, &[], &program);
        assert_eq!(run_rows(&program, &files), (due.clone(), String::new()), "{archives:?}");
    }
}

/// Rows of every kind, among them an empty one, a very long one and IDs that a terminal might obey; texts without
/// rows; a last row without a line feed.
#[test]
fn the_cards_example_prints_what_the_model_says() {
    let folder = Folder::new("cards-example");
    let program = folder.path().join("cards");
    c_program::build_with(&repository::at("examples/cards.c"), &[c_program::cards_library()], &[], &program);
    let (site, book) = (published::site(), curves::book());
    let long = format!("long{}1 1 12 400 * * * * * * *", " ".repeat(100_000));
    let rows = [
        "ok 1 1 12 400 * * * * * * *",
        "",
        "  ",
        &long,
        "\u{1b}[1m\u{e9} 1 1 12 1 1 1 1 1 1 1 1",
        "123456789 1",
    ];
    let text = |end: &str| format!("a\n\nc\n{}{end}", rows.join("\n")).into_bytes();
    let foods = foods_file(&published::foods());
    let mut damaged = site.clone();
    damaged[4] ^= 1;
    let texts =
        [text(""), text("\n"), text("\r\n\n"), b"".to_vec(), b"a\nb\nc".to_vec(), b"\n\n\n\n".to_vec()];
    for text in &texts {
        type Files<'a> = (&'a [u8], Option<&'a [u8]>, &'a [u8]);
        let cards: [Files; 5] = [
            (&site, None, &book),
            (&site, Some(&foods), &book),
            (&site, Some(&[]), &book),
            (&damaged, None, &book),
            (&site, None, &book[..8_703]),
        ];
        for (site, foods, book) in cards {
            let mut files =
                vec![folder.write("site", site), folder.write("book", book), folder.write("card", text)];
            files.extend(foods.map(|foods| folder.write("foods", foods)));
            assert_eq!(run_rows(&program, &files), (expected_rows(site, foods, book, text), String::new()));
        }
    }
    assert_eq!(expected_rows(&site, None, &book, &texts[3]), "");
    assert_eq!(expected_rows(&site, None, &book, &texts[5]), "- refused 12\n");
}

/// A file that is missing counts as empty, and is named.
#[test]
fn the_cards_example_tells_of_missing_files() {
    let folder = Folder::new("cards-missing");
    let program = folder.path().join("cards");
    c_program::build_with(&repository::at("examples/cards.c"), &[c_program::cards_library()], &[], &program);
    let site = folder.write("site", &published::site());
    let book = folder.write("book", &curves::book());
    let card = folder.write("card", b"\n\n\nchild 1 1 12 400 * * * * * * *\n");
    let missing = folder.path().join("missing");
    let told = format!("cards: {} cannot be read, and counts as empty\n", missing.display());
    let cases = [
        (vec![&missing, &book, &card], "child refused 1\n"),
        (vec![&site, &missing, &card], "child refused 1\n"),
        (vec![&site, &book, &missing], ""),
        (vec![&site, &book, &card, &missing], "child refused 1\n"),
    ];
    for (files, due) in cases {
        let files: Vec<PathBuf> = files.into_iter().cloned().collect();
        assert_eq!(run_rows(&program, &files), (due.to_string(), told.clone()));
    }
    let output = Command::new(&program).arg(&site).output().expect("the example runs");
    assert_eq!(output.status.code(), Some(2));
    assert_eq!(String::from_utf8_lossy(&output.stderr), "usage: cards SITE BOOK CARD [FOODS]\n");
}

/// What the example of the groups is to say on standard error: a line for each group of the text's rows.
fn expected_groups(site: &[u8], foods: Option<&[u8]>, book: &[u8], text: &[u8]) -> String {
    let rows = rows(text);
    let groups = rows.chunks(GROUP_ROWS).map(|some| {
        let decodes = group(site, foods, book, &some.join(&b'\n')).decodes;
        format!("group: rows {}, blocks of the book decoded {decodes}\n", some.len())
    });
    groups.collect()
}

/// Builds an example of the cards' library alone.
fn build_cards(source: &str, program: &Path) {
    c_program::build_with(&repository::at(source), &[c_program::cards_library()], &[], program);
}

/// The text of a card with this many rows of every kind, one of them very long.
fn card_text(count: usize, end: &str) -> Vec<u8> {
    let long = format!("long{}1 1 2 400 * * * * * * *", " ".repeat(9_000));
    let kinds = [
        "ok 1 1 1 400 * * * * * * *",
        "* 1 1 * 400 * * * * * * *",
        "",
        "\u{1b}[1m\u{e9} 1 1 2 1 1 1 1 1 1 1 1",
        "over 1 1 12 50001 1 * * * * * *",
        "123456789 1",
        &long,
    ];
    let rows: Vec<&str> = (0..count).map(|turn| kinds[turn % kinds.len()]).collect();
    format!("a\n\nc\n{}{end}", rows.join("\n")).into_bytes()
}

/// For the same card the examples of rows and of groups print the same; groups are told on standard error.
#[test]
fn the_group_example_prints_what_the_cards_example_does() {
    let folder = Folder::new("group-example");
    let (cards, groups) = (folder.path().join("cards"), folder.path().join("group"));
    build_cards("examples/cards.c", &cards);
    build_cards("examples/group.c", &groups);
    let (site, book, foods) = (published::site(), curves::book(), foods_file(&published::foods()));
    let mut texts: Vec<Vec<u8>> = [0, 1, 63, 64, 65, 130]
        .into_iter()
        .flat_map(|count| [card_text(count, ""), card_text(count, "\n")])
        .collect();
    texts.extend(["", "a\nb\nc", "a\nb\nc\n", "\n\n\n\n", "a\nb\nc\n "].map(|text| text.as_bytes().to_vec()));
    let longer = |bytes: &[u8]| [bytes, &[0; 600]].concat();
    let (mut damaged, mut spoilt) = (site.clone(), book.clone());
    damaged[4] ^= 1;
    spoilt[6 * 512 + 9] ^= 1;
    type Files<'a> = (&'a [u8], Option<&'a [u8]>, &'a [u8], u32);
    let cases: [Files; 9] = [
        (&site, None, &book, 17),
        (&site, Some(&foods), &book, 17),
        (&site, Some(&foods[..511]), &book, 0),
        (&site, Some(&longer(&foods)), &book, 0),
        (&damaged, None, &book, 0),
        (&site, None, &spoilt, 7),
        (&site, None, &book[..8_703], 0),
        (&site, None, &longer(&book), 0),
        (&longer(&site), None, &book, 0),
    ];
    for text in &texts {
        for (site, foods, book, decodes) in cases {
            let mut files =
                vec![folder.write("site", site), folder.write("book", book), folder.write("card", text)];
            files.extend(foods.map(|foods| folder.write("foods", foods)));
            let (printed, told) = run_rows(&groups, &files);
            assert_eq!(run_rows(&cards, &files), (printed.clone(), String::new()));
            assert_eq!(printed, expected_rows(site, foods, book, text));
            assert_eq!(told, expected_groups(site, foods, book, text));
            assert_eq!(told.lines().count(), rows(text).len().div_ceil(GROUP_ROWS));
            assert!(told.lines().all(|line| line.ends_with(&format!(" decoded {decodes}"))), "{told}");
        }
    }
}

/// The sample's rows, and the library on either side of the other.
#[test]
fn the_group_example_prints_the_sample_however_it_is_linked() {
    let folder = Folder::new("group-linked");
    let (program, sample) = (folder.path().join("group"), repository::at("samples/survey"));
    let files = ["site.lkb", "book.lkb", "card.txt"].map(|file| sample.join(file));
    let [site, book, text] = files.each_ref().map(|file| fs::read(file).expect("a file of the sample"));
    let due = (expected_rows(&site, None, &book, &text), expected_groups(&site, None, &book, &text));
    assert!(due.1.ends_with(", blocks of the book decoded 17\n"), "{}", due.1);
    let (first, cards) = (c_program::library(), c_program::cards_library());
    for archives in [vec![cards.clone()], vec![first.clone(), cards.clone()], vec![cards, first]] {
        c_program::build_with(&repository::at("examples/group.c"), &archives, &[], &program);
        assert_eq!(run_rows(&program, &files), due, "{archives:?}");
    }
}

/// A file that is missing counts as empty, and is named.
#[test]
fn the_group_example_tells_of_missing_files() {
    let folder = Folder::new("group-missing");
    let program = folder.path().join("group");
    build_cards("examples/group.c", &program);
    let site = folder.write("site", &published::site());
    let book = folder.write("book", &curves::book());
    let card = folder.write("card", b"\n\n\nchild 1 1 12 400 * * * * * * *\n");
    let missing = folder.path().join("missing");
    let told = format!("group: {} cannot be read, and counts as empty\n", missing.display());
    let group = "group: rows 1, blocks of the book decoded 0\n";
    let cases = [
        (vec![&missing, &book, &card], "child refused 1\n", group),
        (vec![&site, &missing, &card], "child refused 1\n", group),
        (vec![&site, &book, &missing], "", ""),
        (vec![&site, &book, &card, &missing], "child refused 1\n", group),
    ];
    for (files, due, groups) in cases {
        let files: Vec<PathBuf> = files.into_iter().cloned().collect();
        assert_eq!(run_rows(&program, &files), (due.to_string(), told.clone() + groups));
    }
    let output = Command::new(&program).arg(&site).output().expect("the example runs");
    assert_eq!(output.status.code(), Some(2));
    assert_eq!(String::from_utf8_lossy(&output.stderr), "usage: group SITE BOOK CARD [FOODS]\n");
}
