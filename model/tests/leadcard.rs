//! The program `leadcard`, run in many folders and held to the model byte for byte.

#[path = "support/folder.rs"]
mod folder;
#[path = "support/program.rs"]
mod program;
#[path = "support/repository.rs"]
mod repository;

use folder::Folder;
use jurengate_model::book::{column, RowFields, BOOK_ROWS, ROW_FIELDS};
use jurengate_model::card::{card_printout, field};
use jurengate_model::cards::{book_file, curves, published, site_file};
use jurengate_model::printout::printout;
use jurengate_model::random::{
    self, any_row, break_texts, damaged, fault, field_texts, group_text, joined, row_faults, scratched,
    survey, text_faults, Fault, FieldTexts, Generator, Intake, Range,
};
use jurengate_model::site::{place, AGES, SATURATION_LEAST, SITE_FIELDS};
use program::{make_pipe, pipe, Program};
use std::fs::{self, OpenOptions};
use std::io::{Read, Write};
use std::process::{Command, Stdio};
use std::thread;
use std::time::Duration;

const LEADCARD: Program = Program("leadcard");

/// Three headings.
const HEADINGS: &str = "a survey\noptions\nID FAM BLOCK AGE SOIL DUST WATER AIR OTHER PBB ABSSOIL ABSDUST\n";
/// A row that takes a month.
const ROW: &str = "A1 1 1 1 200 150 * * * * * *";

/// A folder with the files that are there.
fn card(name: &str, site: Option<&[u8]>, book: Option<&[u8]>, text: Option<&[u8]>) -> Folder {
    let folder = Folder::new(name);
    for (file, bytes) in [("site.lkb", site), ("book.lkb", book), ("card.txt", text)] {
        bytes.map(|bytes| folder.write(file, bytes));
    }
    folder
}

/// Runs the program on three files, any of which may be missing, and compares.
fn compare(name: &str, site: Option<&[u8]>, book: Option<&[u8]>, text: Option<&[u8]>) -> String {
    let folder = card(name, site, book, text);
    let due = card_printout(site.unwrap_or_default(), book.unwrap_or_default(), text.unwrap_or_default());
    LEADCARD.compare(folder.path(), &due, name);
    String::from_utf8(due).expect("text")
}

/// A text beside the published site and book.
fn compare_text(name: &str, text: &[u8]) -> String {
    compare(name, Some(&published::site()), Some(&curves::book()), Some(text))
}

/// The lines printed for rows under three headings, each row with its line feed.
fn compare_rows(name: &str, rows: &[Vec<u8>]) -> Vec<String> {
    let lines = rows.iter().flat_map(|row| [row.as_slice(), b"\n"]);
    let text = [HEADINGS.as_bytes()].into_iter().chain(lines).collect::<Vec<_>>().concat();
    let printed = compare_text(name, &text);
    let printed: Vec<String> = printed.lines().map(String::from).collect();
    assert_eq!(printed.len(), rows.len(), "{name}: a line for each row");
    printed
}

fn row(age: usize, soil: &str) -> Vec<u8> {
    format!("A1 1 1 {age} {soil} 150 * * * * * *").into_bytes()
}

fn texts() -> FieldTexts {
    ROW.split(' ').map(|text| text.as_bytes().to_vec()).collect()
}

#[test]
fn missing_files_count_as_empty() {
    let (site, book) = (published::site(), curves::book());
    let text = format!("{HEADINGS}{ROW}\n\n{ROW}");
    for set in 0..8 {
        let there = |bit: usize, bytes| (set >> bit & 1 == 1).then_some(bytes);
        let (site, book) = (there(0, site.as_slice()), there(1, book.as_slice()));
        let text = there(2, text.as_bytes());
        let printed = compare(&format!("missing-{set}"), site, book, text);
        let lines: Vec<&str> = printed.lines().collect();
        match (text, site.and(book)) {
            (None, _) => assert!(lines.is_empty()),
            (Some(_), None) => assert_eq!(lines, ["refused 1"; 3]),
            (Some(_), Some(_)) => assert!(lines[0].contains('.') && lines[1..] == ["refused 12", lines[0]]),
        }
    }
}

#[test]
fn files_that_cannot_be_read_count_as_empty() {
    let text = format!("{HEADINGS}{ROW}\n");
    let (site, book) = (published::site(), curves::book());
    for file in ["site.lkb", "book.lkb"] {
        let folder = card(&format!("folder-{file}"), Some(&site), Some(&book), Some(text.as_bytes()));
        fs::remove_file(folder.path().join(file)).expect("the file goes");
        fs::create_dir(folder.path().join(file)).expect("a folder by the file's name");
        LEADCARD.compare(folder.path(), b"refused 1\n", file);
    }
}

/// A text that cannot be read prints no row, and standard error has the reason.
#[test]
fn a_text_that_cannot_be_read_is_told() {
    let folder = card("folder-card.txt", Some(&published::site()), Some(&curves::book()), None);
    fs::create_dir(folder.path().join("card.txt")).expect("a folder by the file's name");
    let output = LEADCARD.redirected(folder.path(), "");
    assert_eq!(String::from_utf8_lossy(&output.stdout), "");
    assert_eq!(String::from_utf8_lossy(&output.stderr), "leadcard: Is a directory\n");
}

/// A `read` that fails where this many bytes of a text are read; other files are read as they are.
const FAILING_READ: &str = r#"
#define _GNU_SOURCE
#include <errno.h>
#include <sys/syscall.h>
#include <unistd.h>
ssize_t read(int file, void *bytes, size_t count) {
    static size_t left = BYTES;
    if (count != PIECE) return syscall(SYS_read, file, bytes, count);
    if (left == 0) { errno = EIO; return -1; }
    ssize_t got = syscall(SYS_read, file, bytes, count < left ? count : left);
    if (got > 0) left -= (size_t)got;
    return got;
}
"#;

/// What the program prints, and what it tells, in a folder whose text can be read up to this many bytes.
fn with_failing_read(folder: &Folder, bytes: usize) -> (Vec<u8>, String) {
    let (source, library) = (folder.write("read.c", FAILING_READ.as_bytes()), folder.path().join("read.so"));
    let built = Command::new("cc")
        .args(["-O2", "-shared", "-fPIC", "-DPIECE=512", &format!("-DBYTES={bytes}"), "-o"])
        .args([&library, &source])
        .status();
    assert!(built.expect("cc runs").success());
    let output = LEADCARD.command().current_dir(folder.path()).env("LD_PRELOAD", &library).output();
    let output = output.expect("the program runs");
    (output.stdout, String::from_utf8(output.stderr).expect("text"))
}

/// A read that fails within a row: the rows before it are printed, the row that is cut is not, and standard error has the reason.
#[test]
fn a_read_that_fails_cuts_no_row() {
    let (whole, cut) = (format!("{HEADINGS}{ROW}\n"), "A2 1 1 1 200 150 * * * * 30 30");
    let text = format!("{whole}{cut}\n{ROW}\n");
    let (site, book) = (published::site(), curves::book());
    let folder = card("failing-read", Some(&site), Some(&book), Some(text.as_bytes()));
    let first = card_printout(&site, &book, whole.as_bytes());
    for bytes in [whole.len() + cut.len(), whole.len() + cut.len() - 1, whole.len() + 1] {
        let (printed, told) = with_failing_read(&folder, bytes);
        assert_eq!(String::from_utf8_lossy(&printed), String::from_utf8_lossy(&first), "{bytes}");
        assert_eq!(told, "leadcard: Input/output error\n", "{bytes}");
    }
}

/// The same with as many rows before the cut as fill a group, or a row less or more: none of them is lost.
#[test]
fn a_read_that_fails_behind_a_group_loses_no_row() {
    let (site, book) = (published::site(), curves::book());
    for rows in [1, 63, 64, 65, 130] {
        let whole = format!("{HEADINGS}{}", format!("{ROW}\n").repeat(rows));
        let text = format!("{whole}A2 1 1 1 200 150 * * * * 30 30\n{ROW}\n");
        let folder = card(&format!("failing-group-{rows}"), Some(&site), Some(&book), Some(text.as_bytes()));
        let due = card_printout(&site, &book, whole.as_bytes());
        let (printed, told) = with_failing_read(&folder, whole.len() + 20);
        assert_eq!(String::from_utf8_lossy(&printed), String::from_utf8_lossy(&due), "{rows} rows");
        assert_eq!(told, "leadcard: Input/output error\n", "{rows} rows");
    }
}

#[test]
fn short_and_long_files() {
    let (site, book) = (published::site(), curves::book());
    let longer = |bytes: &[u8], more: usize| [bytes, &vec![0; more]].concat();
    let text = format!("{HEADINGS}{ROW}\n");
    let mut cards = vec![(site[..511].to_vec(), book.clone()), (site.clone(), book[..8_703].to_vec())];
    for more in [1, 512, 100_000] {
        cards.extend([(longer(&site, more), book.clone()), (site.clone(), longer(&book, more))]);
    }
    for (site, book) in cards {
        assert_eq!(compare("lengths", Some(&site), Some(&book), Some(text.as_bytes())), "refused 1\n");
    }
}

/// Nothing is printed for a text without rows, whatever its files are.
#[test]
fn texts_without_rows() {
    for text in [
        "",
        "\n",
        "\n\n",
        "\n\n\n",
        "a",
        "a\nb\nc",
        "a\nb\nc\n",
        "a\n\nc",
        ROW,
        &format!("{ROW}\n{ROW}\n{ROW}\n"),
    ] {
        assert_eq!(compare_text("no-rows", text.as_bytes()), "");
        assert_eq!(compare("no-rows-no-files", None, None, Some(text.as_bytes())), "");
    }
}

/// A row ends at a line feed or at the end; nothing after the last line feed is no row.
#[test]
fn ends_of_rows() {
    let cases = [
        ("\n\n\n\n", 1),
        ("\n\n\n\n\n", 2),
        ("a\nb\nc\n \n", 1),
        ("a\nb\nc\n ", 1),
        ("a\nb\nc\n\n\nx", 3),
        ("a\nb\nc\nROW", 1),
        (&format!("{HEADINGS}{ROW}"), 1),
        (&format!("{HEADINGS}{ROW}\n"), 1),
        (&format!("{HEADINGS}{ROW}\n\n"), 2),
        (&format!("{HEADINGS}\n{ROW}\n{ROW}"), 3),
        (&format!("{HEADINGS}{ROW}\r\n{ROW}\r\n"), 2),
        (&format!("{HEADINGS}{ROW}\r{ROW}"), 1),
        (&format!("{HEADINGS}{ROW}\n\0"), 2),
    ];
    for (text, lines) in cases {
        assert_eq!(compare_text("ends", text.as_bytes()).lines().count(), lines, "{text:?}");
    }
}

/// Headings are any three lines: empty, long, rows themselves, of bytes that are no text.
#[test]
fn headings_of_any_kind() {
    let long = "x".repeat(100_000);
    let spaces = " ".repeat(70_000);
    let kinds: [&[u8]; 8] = [
        b"",
        b" ",
        b"\r",
        b"\0\xff\x80",
        ROW.as_bytes(),
        long.as_bytes(),
        spaces.as_bytes(),
        b"1 2 3 4 5 6 7 8 9 10 11 12 13",
    ];
    let blood = compare_text("one-row", format!("{HEADINGS}{ROW}\n").as_bytes());
    for first in kinds {
        for (second, third) in
            [(kinds[0], kinds[0]), (kinds[5], kinds[4]), (kinds[4], kinds[6]), (kinds[3], kinds[7])]
        {
            let text = [first, second, third, ROW.as_bytes()].join(&b'\n');
            assert_eq!(compare_text("headings", &text), blood);
        }
    }
}

#[test]
fn worked_rows() {
    let rows: Vec<Vec<u8>> = [
        "A1 1 1 24 50000 150 * * * * * *",
        "A1 1 1 24 50000.1 150 * * * * * *",
        "A1 1 1 24 50000.001 150 * * * * * *",
        "A1 1 1 24 200 150 10000.1 * * * * *",
        "A1 1 1 24 200 150 * 100.001 * * * *",
        "A1 1 1 24 200 150 * * 1000.001 * * *",
        "A1 1 1 24 0.1234 150 * * * * * *",
        "A1 1 1 24 .5 150 * * * * * *",
        "A1 1 1 24 5. 150 * * * * * *",
        "A1 1 1 000000001 200 150 * * * * * *",
        "A1 1 1 1.0 200 150 * * * * * *",
        "A1 1 1 * 50001 150 * * * * * *",
        "A1 1 1 * x 150 * * * * * *",
        "ABCDEFGHI 1 1 24 200 150 * * * * * *",
        "A1 1 1 24 200 150 * * * -1 * *",
        "A1 1 1 0 200 150 * * * * * *",
        "A1 1 1 85 200 150 * * * * * *",
        "A1 1 1 24 * * * * * * * *",
        "A1 1 1 24 200 150 * * * * 101 *",
        "A1 1 1 24 200 150 * * * * 30.0 *",
    ]
    .map(|row| row.as_bytes().to_vec())
    .to_vec();
    let due = [
        "refused 9",
        "refused 7",
        "refused 12",
        "refused 7",
        "refused 7",
        "refused 7",
        "refused 12",
        "refused 12",
        "refused 12",
        "refused 12",
        "refused 12",
        "---",
        "refused 12",
        "refused 12",
        "refused 12",
        "---",
        "---",
        "---",
        "refused 7",
        "refused 12",
    ];
    assert_eq!(compare_rows("worked", &rows), due);
    let accepted = [
        "* 1 1 24 200 150 * * * * * *",
        "A 1.5 1 24 200 150 * * * 9.9 * *",
        " A 1 1 00000024 200.000 150.0 * * * * * * ",
    ];
    let accepted = accepted.map(|row| row.as_bytes().to_vec());
    let printed = compare_rows("worked-accepted", &accepted);
    assert!(printed.iter().all(|line| *line == printed[0] && line.contains('.')), "{printed:?}");
}

/// Each fault of a row, and sound rows between them: later rows still run.
#[test]
fn every_fault_of_a_row() {
    let mut generator = Generator::new(400);
    let mut rows = Vec::new();
    let mut due = Vec::new();
    for fault in text_faults() {
        let mut row = texts();
        break_texts(&mut row, &[fault]);
        rows.push(joined(&mut generator, &row));
        due.push(fault.number().map_or("---".to_string(), |number| format!("refused {number}")));
    }
    assert_eq!(compare_rows("faults-of-rows", &rows), due);
    let mixed: Vec<Vec<u8>> =
        rows.iter().flat_map(|faulty| [faulty.clone(), ROW.as_bytes().to_vec()]).collect();
    let printed = compare_rows("faults-between", &mixed);
    assert!(printed.iter().skip(1).step_by(2).all(|line| *line == printed[1] && line.contains('.')));
}

/// A child that keeps its birth's red cells and takes up nothing: its blood figure is 85 % of the mother's in every month.
fn constant_child(mother: u32) -> (Vec<u8>, Vec<u8>) {
    let mut fields = [0; SITE_FIELDS];
    fields[place::SATURATION] = SATURATION_LEAST;
    fields[place::MOTHER] = mother;
    let mut row: RowFields = [0; ROW_FIELDS];
    row[column::VB] = 1_000;
    row[column::VP] = 1;
    row[column::BODY] = 10_000;
    row[column::OUT] = 1;
    (site_file(&fields), book_file(&[row; BOOK_ROWS]))
}

/// One decimal, half up, and no mark over 30.
#[test]
fn blood_in_leadlines_decimals() {
    let text = format!("{HEADINGS}A 1 1 84 0 0 * * * * * *\n");
    let cases = [
        (0, "0.0\n"),
        (58, "0.0\n"),
        (59, "0.1\n"),
        (35_295, "30.0\n"),
        (35_296, "30.0\n"),
        (100_000, "85.0\n"),
        (11_705, "9.9\n"),
        (11_706, "10.0\n"),
    ];
    for (mother, due) in cases {
        let (site, book) = constant_child(mother);
        assert_eq!(compare("decimals", Some(&site), Some(&book), Some(text.as_bytes())), due, "{mother}");
    }
}

/// Rows that change nothing, one for each month, have `leadline`'s figures of the same folder.
#[test]
fn rows_that_change_nothing_print_leadlines_figures() {
    let mut fields = published::fields();
    (fields[place::DUST_MODE], fields[place::WATER_MODE]) = (0, 0);
    fields[place::SOIL..place::SOIL + AGES].fill(200_000);
    fields[place::DUST..place::DUST + AGES].fill(150_000);
    let rows: Vec<Vec<u8>> = (1..=84).map(|age| row(age, "200")).collect();
    let text = [HEADINGS.as_bytes(), &rows.join(&b'\n')].concat();
    let (site, book) = (site_file(&fields), curves::book());
    let folder = card("leadline-too", Some(&site), Some(&book), Some(&text));
    let leadline = Program("leadline").printed(folder.path());
    assert_eq!(leadline, printout(&site, &book));
    let leadline = String::from_utf8(leadline).expect("text");
    let figures: Vec<&str> =
        leadline.lines().map(|line| line.split(' ').nth(1).expect("the blood")).collect();
    let due: String = figures.iter().map(|figure| format!("{figure}\n")).collect();
    LEADCARD.compare(folder.path(), due.as_bytes(), "leadline's figures");
}

/// Each number of the files is every row's, before what is wrong with the row itself.
#[test]
fn every_refusal_of_the_files() {
    let mut generator = Generator::new(401);
    let text = format!("{HEADINGS}{ROW}\n\nA1 1 1 * 200 150 * * * * * *\nA1 1 1 1 50001 150 * * * * * *\n");
    let mut faults = vec![
        Fault::SiteLength(511),
        Fault::BookLength(8_703),
        Fault::SiteCheck,
        Fault::SiteEdition,
        Fault::SiteRelabelled,
        Fault::SiteNumber,
        Fault::SiteReserved,
        Fault::SiteField(0),
        Fault::Shares,
        Fault::SaturationLow,
        Fault::PlaceShare(0),
        Fault::PlaceDust(4),
        Fault::PlaceShares,
        Fault::BlockCheck(16),
        Fault::BlockEdition(0),
        Fault::BlockNumber(7),
        Fault::BlockReserved(16),
    ];
    faults.extend(row_faults().into_iter().map(|each| Fault::Row(60, each)));
    for each in faults {
        let (site, book) = damaged(&mut generator, &published::fields(), &curves::rows(), &[each]);
        let printed = compare("file-faults", Some(&site), Some(&book), Some(text.as_bytes()));
        assert_eq!(printed, format!("refused {}\n", each.number()).repeat(4), "{each:?}");
    }
}

/// 9 at age 4 and 22 at birth: each row up to its own age.
#[test]
fn refusals_of_the_child() {
    let mut generator = Generator::new(402);
    let rows: Vec<Vec<u8>> = [1, 48, 49, 84, 0, 85].map(|age| row(age, "200")).to_vec();
    let text = [HEADINGS.as_bytes(), &rows.join(&b'\n')].concat();
    let fault = Fault::Intake(Intake::ConstantWater, 4);
    let (site, book) = damaged(&mut generator, &published::fields(), &curves::rows(), &[fault]);
    let printed = compare("refusal-9", Some(&site), Some(&book), Some(&text));
    let lines: Vec<&str> = printed.lines().collect();
    assert!(lines[0].contains('.') && lines[1].contains('.'), "{printed}");
    assert_eq!(lines[2..], ["refused 9", "refused 9", "---", "---"]);
    let (mut fields, mut rows) = (published::fields(), curves::rows());
    fields[place::MOTHER] = 100_000;
    rows[0][column::CORTICAL] = 50_000;
    let printed = compare("refusal-22", Some(&site_file(&fields)), Some(&book_file(&rows)), Some(&text));
    assert_eq!(printed, "refused 22\n".repeat(4) + "---\n---\n");
}

/// A row of 100 kB of spaces runs; a row of one field of 100 kB, or of 50,000 fields, is 12; the row behind runs.
#[test]
fn long_rows() {
    let spaces = " ".repeat(100_000);
    let rows = [
        ROW.as_bytes().to_vec(),
        ROW.replace(' ', &" ".repeat(9_091)).into_bytes(),
        format!("{spaces}{ROW}").into_bytes(),
        format!("{ROW}{spaces}").into_bytes(),
        spaces.clone().into_bytes(),
        vec![b'1'; 100_000],
        b"1 ".repeat(50_000),
        [ROW.as_bytes(), &b"1".repeat(100_000)].concat(),
        [&b"1".repeat(100_000), &ROW.as_bytes()[2..]].concat(),
        ROW.as_bytes().to_vec(),
    ];
    let printed = compare_rows("long-rows", &rows);
    let blood = printed[0].as_str();
    let wrong = "refused 12";
    assert_eq!(printed, [blood, blood, blood, blood, wrong, wrong, wrong, wrong, wrong, blood]);
    for row in [format!("{spaces}{ROW}{spaces}"), format!("{spaces}{ROW}{spaces}x"), spaces.clone()] {
        compare_text("long-last-row", format!("{HEADINGS}{row}").as_bytes());
    }
}

/// Rows laid over the places where a reader's pieces may end: with each shift another byte stands there.
#[test]
fn rows_over_the_edges_of_pieces() {
    let rows = "A1 1.25 1 1 200.5 150 * * 1.125 * 30 40\n\nA1 1 1 1 200 x * * * * * *\nA1 1 1 * 200 150 * * * * * *\n";
    for edge in [512, 1_024, 4_096, 8_192, 65_536] {
        let shifts: Vec<usize> =
            if edge <= 4_096 { (0..=rows.len()).collect() } else { (0..=rows.len()).step_by(9).collect() };
        for shift in shifts {
            let heading = "h".repeat(edge - shift - 3);
            let text = format!("\n\n{heading}\n{rows}{rows}");
            let printed = compare_text("edges", text.as_bytes());
            assert_eq!(printed.lines().count(), 8, "a row begins {shift} bytes before {edge}");
        }
    }
}

/// Texts of every length around the edges of pieces, without a last line feed and with one.
#[test]
fn texts_that_end_at_the_edges_of_pieces() {
    for edge in [512, 4_096] {
        for length in edge - 2..=edge + 2 {
            for end in ["", "\n"] {
                let spaces = " ".repeat(length - HEADINGS.len() - ROW.len() - end.len());
                for row in [format!("{ROW}{spaces}"), format!("{spaces}{ROW}")] {
                    let text = format!("{HEADINGS}{row}{end}");
                    assert_eq!(text.len(), length);
                    assert!(compare_text("end-at-edge", text.as_bytes()).contains('.'));
                }
            }
        }
    }
}

#[test]
fn carriage_returns_and_tabs_refuse_their_rows() {
    let text = format!("{HEADINGS}{ROW}\n").replace('\n', "\r\n");
    assert_eq!(compare_text("cr-lf", text.as_bytes()), "refused 12\n");
    let text = format!("{HEADINGS}{ROW} \n").replace('\n', "\r\n");
    assert_eq!(compare_text("space-cr-lf", text.as_bytes()), "refused 12\n");
    let text = format!("{HEADINGS}{}\n{ROW}\n", ROW.replace(' ', "\t"));
    assert!(compare_text("tabs", text.as_bytes()).starts_with("refused 12\n"));
}

#[test]
fn random_surveys() {
    let mut generator = Generator::new(403);
    for turn in 0..120 {
        let range = Range::of_turn(turn);
        let (site, book) = (random::site(&mut generator, range), random::book(&mut generator, range));
        let rows = generator.index(30);
        let text = survey(&mut generator, range, rows);
        compare("random", Some(&site), Some(&book), Some(&text));
    }
}

/// Random surveys of more rows than a group has.
#[test]
fn random_surveys_of_several_groups() {
    let mut generator = Generator::new(406);
    for turn in 0..12 {
        let range = Range::of_turn(turn);
        let (site, book) = (random::site(&mut generator, range), random::book(&mut generator, range));
        let rows = generator.between(60, 200) as usize;
        let text = [HEADINGS.as_bytes(), &group_text(&mut generator, range, rows)].concat();
        let printed = compare("random-groups", Some(&site), Some(&book), Some(&text));
        assert_eq!(printed.lines().count(), rows);
    }
}

#[test]
fn random_damage() {
    let mut generator = Generator::new(404);
    for _ in 0..100 {
        let each = fault(&mut generator);
        let (site, book) = damaged(&mut generator, &published::fields(), &curves::rows(), &[each]);
        let text = survey(&mut generator, Range::Near, 4);
        let text = if generator.once_in(3) { scratched(&mut generator, text) } else { text };
        compare("damage", Some(&site), Some(&book), Some(&text));
    }
}

/// Many rows in one text, of every length.
#[test]
fn a_long_survey() {
    let mut generator = Generator::new(405);
    let rows: Vec<Vec<u8>> = (0..3_000)
        .map(|_| {
            if generator.once_in(3) {
                return any_row(&mut generator, Range::Near);
            }
            let mut row = field_texts(&mut generator, Range::Near);
            row[field::AGE] = [b"1", b"2"][generator.index(2)].to_vec();
            joined(&mut generator, &row)
        })
        .collect();
    compare_rows("long-survey", &rows);
}

/// Rows of every kind, this many, the kinds by turns: what they print tells one from its neighbours.
fn mixed_rows(count: usize) -> Vec<Vec<u8>> {
    let kind = |turn: usize| match turn % 7 {
        0 => row(1 + turn % 3, &(100 + 50 * turn).to_string()),
        1 => b"A1 1 1 * 200 150 * * * * * *".to_vec(),
        2 => row(1, &(20_100 - 100 * turn).to_string()),
        3 => Vec::new(),
        4 => row(12, "50000.1"),
        5 => row(1, "50000"),
        _ => row(2, &(40 * turn).to_string()),
    };
    (0..count).map(kind).collect()
}

/// Cards of as many rows as fill groups of 64, or some less or more; with a last line feed and without.
#[test]
fn cards_of_whole_groups_and_of_parts() {
    for count in [0, 1, 2, 63, 64, 65, 127, 128, 129, 200] {
        let printed = compare_rows("groups", &mixed_rows(count));
        assert_eq!(printed.len(), count);
        let mut rows = mixed_rows(count);
        if let Some(last) = rows.last_mut() {
            *last = ROW.as_bytes().to_vec();
        }
        let text = [HEADINGS.as_bytes(), &rows.join(&b'\n')].concat();
        assert_eq!(compare_text("groups-no-end", &text).lines().count(), count);
    }
    // Empty lines alone are rows.
    for count in [63, 64, 65, 128, 200] {
        let text = format!("{HEADINGS}{}", "\n".repeat(count));
        assert_eq!(compare_text("groups-empty", text.as_bytes()), "refused 12\n".repeat(count));
    }
}

/// Rows longer than a piece of what is read at once, on both sides of a group's end, running and refused.
#[test]
fn long_rows_at_the_end_of_a_group() {
    let wide = |length: usize| {
        let spaces = " ".repeat(length - ROW.len());
        [format!("{spaces}{ROW}"), format!("{ROW}{spaces}"), ROW.replacen(' ', &format!(" {spaces}"), 1)]
    };
    for length in [511, 512, 513, 1_024, 1_537, 10_000] {
        for (turn, long) in wide(length).into_iter().enumerate() {
            let mut rows = mixed_rows(130);
            for at in [62, 63, 64, 65, 127, 128] {
                rows[at] = long.clone().into_bytes();
            }
            let printed = compare_rows("long-at-group", &rows);
            let blood = printed[63].clone();
            assert!(blood.contains('.'), "{length}, {turn}: {blood}");
            assert!([62, 64, 65, 127, 128].iter().all(|&at| printed[at] == blood), "{length}, {turn}");
            // Without a last line feed, the group's last row being the card's.
            let text = [HEADINGS.as_bytes(), &rows[..64].join(&b'\n')].concat();
            assert!(compare_text("long-last-of-group", &text).ends_with(&format!("{blood}\n{blood}\n")));
        }
        let mut rows = mixed_rows(130);
        for (at, byte) in [(62, b"1"), (63, b" "), (64, b"1"), (127, b"x"), (128, b" ")] {
            rows[at] = byte.repeat(length);
        }
        let printed = compare_rows("long-refused-at-group", &rows);
        assert!([62, 63, 64, 127, 128].iter().all(|&at| printed[at] == "refused 12"), "{length}");
    }
}

/// Every group of a card with a refused file prints its number, and so does a part of one.
#[test]
fn refused_files_in_every_group() {
    let (site, mut book) = (published::site(), curves::book());
    book[16 * 512 + 100] ^= 1;
    for count in [1, 64, 65, 130] {
        let text = [HEADINGS.as_bytes(), &mixed_rows(count).join(&b'\n'), b"\n"].concat();
        let printed = compare("groups-refused", Some(&site), Some(&book), Some(&text));
        assert_eq!(printed, "refused 3\n".repeat(count));
        let printed = compare("groups-no-book", Some(&site), None, Some(&text));
        assert_eq!(printed, "refused 1\n".repeat(count));
    }
}

/// A text that comes in two parts, cut before, in and behind the line feed that ends a group.
#[test]
fn a_text_cut_at_the_end_of_a_group() {
    let (site, book) = (published::site(), curves::book());
    let rows = mixed_rows(66).join(&b'\n');
    let text = [HEADINGS.as_bytes(), &rows, b"\n"].concat();
    let group = HEADINGS.len() + mixed_rows(64).iter().map(|row| row.len() + 1).sum::<usize>();
    for first in [group - 2, group - 1, group, group + 1] {
        let folder = card(&format!("pipe-group-{first}"), Some(&site), Some(&book), None);
        let writer = pipe(&folder, "card.txt", &text, first);
        LEADCARD.compare(folder.path(), &card_printout(&site, &book, &text), "a group in two parts");
        writer.join().expect("the text was written whole");
    }
}

#[test]
fn a_full_device_is_told_on_standard_error() {
    for (name, rows) in [("full-1", 1), ("full-200", 200)] {
        let text = format!("{HEADINGS}{}", format!("{ROW}\n").repeat(rows));
        let folder = card(name, Some(&published::site()), Some(&curves::book()), Some(text.as_bytes()));
        LEADCARD.meets_a_full_device(folder.path());
    }
}

#[test]
fn a_closed_standard_output_is_told_on_standard_error() {
    let text = format!("{HEADINGS}{ROW}\n{ROW}\n");
    let folder =
        card("closed-output", Some(&published::site()), Some(&curves::book()), Some(text.as_bytes()));
    LEADCARD.meets_a_closed_output(folder.path());
}

/// Nothing to print is told by nobody: a closed standard output does not matter to a text without rows.
#[test]
fn a_closed_standard_output_without_rows_is_no_matter() {
    let folder = card("closed-no-rows", Some(&published::site()), Some(&curves::book()), None);
    let output = LEADCARD.redirected(folder.path(), ">&-");
    assert!(output.status.success() && output.stderr.is_empty(), "{output:?}");
}

/// If standard input is closed, a file is opened as descriptor 0, and read as any other.
#[test]
fn a_closed_standard_input_changes_nothing() {
    let (site, book) = (published::site(), curves::book());
    let text = format!("{HEADINGS}{ROW}\n\n{ROW}");
    for (name, book) in [("closed-input", book.as_slice()), ("closed-input-short", &book[..8_703])] {
        let folder = card(name, Some(&site), Some(book), Some(text.as_bytes()));
        let output = LEADCARD.redirected(folder.path(), "<&-");
        assert!(output.status.success() && output.stderr.is_empty(), "{name}: {output:?}");
        let due = card_printout(&site, book, text.as_bytes());
        assert_eq!(String::from_utf8_lossy(&output.stdout), String::from_utf8_lossy(&due), "{name}");
    }
}

/// A text that comes in parts is read to its end, cut in a heading, a field, a line feed or behind the last one.
#[test]
fn a_text_that_comes_through_a_pipe_in_two_parts() {
    let (site, book) = (published::site(), curves::book());
    let text = format!("{HEADINGS}{ROW}\n\n{ROW}\n");
    let behind = HEADINGS.len() + ROW.len();
    for first in [
        0,
        1,
        8,
        HEADINGS.len(),
        HEADINGS.len() + 1,
        behind,
        behind + 1,
        behind + 2,
        text.len() - 1,
        text.len(),
    ] {
        let folder = card(&format!("pipe-{first}"), Some(&site), Some(&book), None);
        let writer = pipe(&folder, "card.txt", text.as_bytes(), first);
        LEADCARD.compare(folder.path(), &card_printout(&site, &book, text.as_bytes()), "a text in two parts");
        writer.join().expect("the text was written whole");
    }
    let folder = card("pipes", None, None, Some(text.as_bytes()));
    let writers = [pipe(&folder, "site.lkb", &site, 100), pipe(&folder, "book.lkb", &book, 5_000)];
    LEADCARD.compare(folder.path(), &card_printout(&site, &book, text.as_bytes()), "files in two parts");
    writers.into_iter().for_each(|writer| writer.join().expect("the file was written whole"));
}

#[test]
fn the_sample_survey_prints_what_is_stored() {
    let sample = repository::at("samples/survey");
    let due = fs::read(sample.join("cardout.txt")).expect("the sample's rows");
    LEADCARD.compare(&sample, &due, "the sample survey");
}

/// Bytes of resident memory that a process has had at most.
fn peak_memory(process: u32) -> usize {
    let status = fs::read_to_string(format!("/proc/{process}/status")).expect("the process runs");
    let line = status.lines().find(|line| line.starts_with("VmHWM:")).expect("its peak");
    1_024 * line.split_whitespace().nth(1).and_then(|kilobytes| kilobytes.parse::<usize>().ok()).expect("kB")
}

/// Memory that more text may seem to take: none, but that the system counts pages by and by.
const MORE_MEMORY: usize = 1_024 * 1_024;

/// A text of some megabytes takes no more memory than its first hundred kilobytes did, and prints a line for each row.
#[test]
fn memory_stays_flat_over_megabytes() {
    let rows = format!("{ROW}\nA1 1 1 1 200 x * * * * * *\n{}\n", " ".repeat(4_000));
    let (first, more) = (rows.repeat(25), rows.repeat(1_500));
    let folder = card("megabytes", Some(&published::site()), Some(&curves::book()), None);
    let path = make_pipe(&folder, "card.txt");
    let mut child = LEADCARD
        .command()
        .current_dir(folder.path())
        .stdout(Stdio::piped())
        .spawn()
        .expect("the program runs");
    let mut output = child.stdout.take().expect("its output");
    let reader = thread::spawn(move || {
        let mut printed = String::new();
        output.read_to_string(&mut printed).expect("text");
        printed
    });
    let mut pipe = OpenOptions::new().write(true).open(path).expect("the pipe has a reader");
    let mut write = |text: &str| {
        pipe.write_all(text.as_bytes()).expect("the text is taken");
        // What the pipe still holds is read in this time.
        thread::sleep(Duration::from_millis(300));
        peak_memory(child.id())
    };
    let at_first = write(&format!("{HEADINGS}{first}"));
    let (then, long) = (write(&more), write(&" ".repeat(4_000_000)));
    drop(pipe);
    assert!(child.wait().expect("the program ends").success());
    assert!(
        then <= at_first + MORE_MEMORY && long <= at_first + MORE_MEMORY,
        "{at_first}, then {then}, then {long} bytes"
    );
    let printed = reader.join().expect("the lines were read");
    let lines: Vec<&str> = printed.lines().collect();
    assert_eq!(lines.len(), 3 * 1_525 + 1);
    for (index, line) in lines.iter().enumerate() {
        let due = if index % 3 == 0 && index < 3 * 1_525 { lines[0] } else { "refused 12" };
        assert_eq!(*line, due, "row {index}");
    }
    assert!(lines[0].contains('.'));
}

/// A reader that has read enough ends the program, as it ends any other.
#[test]
fn a_reader_that_leaves_ends_the_program() {
    let text = format!("{HEADINGS}{}", format!("{ROW}\n").repeat(20_000));
    let folder = card("left", Some(&published::site()), Some(&curves::book()), Some(text.as_bytes()));
    let mut shell = Command::new("sh");
    shell.args(["-c", "\"$0\" 2>/dev/null | head -n 3"]).arg(LEADCARD.built()).current_dir(folder.path());
    let output = shell.output().expect("the shell runs");
    assert_eq!(output.stdout.iter().filter(|byte| **byte == b'\n').count(), 3);
}
