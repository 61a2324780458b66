//! The script `sample` at the root, run in a copy with the real programs and a stand-in for `rt`.

#[path = "support/folder.rs"]
mod folder;
#[path = "support/repository.rs"]
mod repository;

use folder::Folder;
use jurengate_model::card::card_printout;
use jurengate_model::cards::{curves, published};
use jurengate_model::printout::printout;
use jurengate_model::random::{damaged, row_faults, Fault, Generator, Intake};
use jurengate_model::site::place;
use std::env;
use std::fs;
use std::os::unix::fs::symlink;
use std::process::Command;

/// What `rt run` says if nothing is to prove.
const PROVED: &str =
    "rt: nothing has changed since the last proved build, so nothing is checked now\nrt: running it\n";

/// A copy of the script with what it needs.
struct Copy {
    folder: Folder,
}

/// Exit status, standard output and standard error.
struct Told {
    status: Option<i32>,
    output: Vec<u8>,
    errors: String,
}

impl Copy {
    /// Linked, and not copied: a program that is being written cannot be run.
    fn new(name: &str) -> Copy {
        let folder = Folder::new(name);
        for part in ["card", "target/bin", "crates/leadline/out", "crates/leadcard/out"] {
            fs::create_dir_all(folder.path().join(part)).expect("a folder");
        }
        let link = |part: &str, to: &str| {
            let original = repository::at(part).canonicalize().unwrap_or_else(|why| panic!("{part}: {why}"));
            symlink(original, folder.path().join(to)).expect("a link");
        };
        for part in ["sample", "samples", "build", "target/bin/leadline", "target/bin/leadcard"] {
            link(part, part);
        }
        for program in ["leadline", "leadcard"] {
            link(&format!("target/bin/{program}"), &format!("crates/{program}/out/{program}"));
        }
        let copy = Copy { folder };
        copy.prover(PROVED, 0);
        copy
    }

    /// What the stand-in for `rt` says and ends with.
    fn prover(&self, says: &str, ends: i32) {
        self.folder.write("says", says.as_bytes());
        self.folder.write("ends", ends.to_string().as_bytes());
    }

    fn run(&self, arguments: &[&str]) -> Told {
        let root = self.folder.path();
        let stand_in = repository::at("model/tests/stand-in");
        let path = format!("{}:{}", stand_in.display(), env::var("PATH").unwrap_or_default());
        let output =
            Command::new(root.join("sample")).args(arguments).current_dir(root).env("PATH", path).output();
        let output = output.expect("the script runs");
        let errors = String::from_utf8(output.stderr).expect("text");
        Told { status: output.status.code(), output: output.stdout, errors }
    }

    /// What the stand-in for `rt` was asked last.
    fn asked(&self) -> String {
        fs::read_to_string(self.folder.path().join("asked")).expect("the prover was asked")
    }

    /// Puts files into the folder `card`; one that is not there is taken out.
    fn put(&self, site: Option<&[u8]>, book: Option<&[u8]>) {
        for (file, bytes) in [("card/site.lkb", site), ("card/book.lkb", book)] {
            match bytes {
                Some(bytes) => drop(self.folder.write(file, bytes)),
                None => drop(fs::remove_file(self.folder.path().join(file))),
            }
        }
    }

    /// The words for a survey's text over the files of the folder `card`, and the status; the rows must be the model's.
    fn survey(&self, text: &str) -> (Option<i32>, String) {
        let path = self.folder.write("card/card.txt", text.as_bytes());
        let file = |name: &str| fs::read(path.with_file_name(name)).unwrap_or_default();
        let told = self.run(&["card"]);
        let due = card_printout(&file("site.lkb"), &file("book.lkb"), text.as_bytes());
        assert_eq!(String::from_utf8_lossy(&told.output), String::from_utf8_lossy(&due));
        assert_eq!(self.asked(), "run leadcard\n");
        (told.status, told.errors)
    }

    /// The words for a card that is refused; its printout must be the model's all the same.
    fn words(&self, site: Option<&[u8]>, book: Option<&[u8]>) -> String {
        self.put(site, book);
        let told = self.run(&["card"]);
        assert_eq!(told.output, printout(site.unwrap_or_default(), book.unwrap_or_default()));
        assert_eq!(told.status, Some(3), "{}", told.errors);
        told.errors
    }
}

fn sample(file: &str) -> Vec<u8> {
    fs::read(repository::at("samples").join(file)).unwrap_or_else(|why| panic!("{file}: {why}"))
}

#[test]
fn nothing_is_said_where_nothing_is_to_prove() {
    let copy = Copy::new("silent");
    for arguments in [&[][..], &["samples/default"]] {
        let told = copy.run(arguments);
        assert_eq!((told.status, told.errors.as_str()), (Some(0), ""));
        assert!(told.output == sample("default/printout.txt"));
        assert_eq!(copy.asked(), "run leadline\n");
    }
}

#[test]
fn crates_are_shown_as_they_are_proved() {
    let copy = Copy::new("progress");
    copy.prover("rt: text: begins with what a check kept\nfn a: proved\ncrate numbers: modules loaded=57 checked=0\nlogic=proved functions=0\nrt: running it\n", 0);
    let told = copy.run(&[]);
    assert_eq!(told.status, Some(0));
    assert!(told.output == sample("default/printout.txt"));
    let lines: Vec<&str> = told.errors.lines().collect();
    assert_eq!(lines.len(), 2, "{}", told.errors);
    assert!(lines[0].starts_with("sample: proving and building the program leadline"));
    assert_eq!(lines[1], "sample: numbers is proved");
}

#[test]
fn a_program_that_is_not_proved_is_not_run() {
    let copy = Copy::new("not-proved");
    copy.prover("fn a: this is why\ncrate numbers: modules loaded=57 checked=0\nlogic=not-proved\n", 1);
    let told = copy.run(&[]);
    assert_eq!((told.status, told.output.as_slice()), (Some(1), &b""[..]));
    assert!(
        told.errors.contains("fn a: this is why\n") && told.errors.contains("was not proved"),
        "{}",
        told.errors
    );
    copy.prover(PROVED, 0);
    fs::remove_file(copy.folder.path().join("crates/leadline/out/leadline")).expect("the link was there");
    let told = copy.run(&[]);
    assert_eq!((told.status, told.output.as_slice()), (Some(1), &b""[..]));
    assert!(told.errors.contains("leadline is missing"), "{}", told.errors);
}

#[test]
fn help_and_wrong_usage() {
    let copy = Copy::new("usage");
    let told = copy.run(&["--help"]);
    assert_eq!((told.status, told.errors.as_str()), (Some(0), ""));
    assert!(String::from_utf8_lossy(&told.output).starts_with("usage: ./sample [FOLDER]"));
    for arguments in [&["--hlep"][..], &["nowhere"], &["card", "card"], &[""]] {
        let told = copy.run(arguments);
        assert_eq!((told.status, told.output.as_slice()), (Some(2), &b""[..]), "{arguments:?}");
        assert!(told.errors.contains("./sample --help"), "{}", told.errors);
    }
}

#[test]
fn a_wrong_length_is_told_in_bytes() {
    let copy = Copy::new("lengths");
    let (site, book) = (published::site(), curves::book());
    let words = copy.words(Some(&site[..511]), None);
    assert!(words.contains("refused with number 1 after 0 months"));
    assert!(words.contains("site.lkb has 511 bytes, and 512 are due\n"), "{words}");
    assert!(words.contains("book.lkb is missing; it has 8704 bytes\n"), "{words}");
    let words = copy.words(Some(&site), Some(&[&book[..], &[0]].concat()));
    assert!(words.contains("book.lkb has 8705 bytes, and 8704 are due\n"), "{words}");
    assert!(!words.contains("site.lkb"), "{words}");
}

#[test]
fn every_refusal_has_its_words() {
    let copy = Copy::new("words");
    let row = Fault::Row(60, row_faults()[0]);
    let cases = [
        (Fault::SiteCheck, "  site.lkb has a wrong check"),
        (Fault::BlockCheck(16), "  book.lkb, block 16 (months 80 to 84), has a wrong check"),
        (Fault::SiteEdition, "  site.lkb is of an edition that the engine does not read"),
        (
            Fault::BlockEdition(0),
            "  book.lkb, block 0 (months 0 to 4), is of an edition that the engine does not read",
        ),
        (Fault::SiteNumber, "  site.lkb bears another block's number"),
        (Fault::BlockNumber(7), "  book.lkb, block 7 (months 35 to 39), bears another block's number"),
        (Fault::SiteReserved, "  site.lkb has a byte that is not zero"),
        (Fault::BlockReserved(1), "  book.lkb, block 1 (months 5 to 9), has a byte that is not zero"),
        (Fault::SiteField(0), "  site.lkb has a figure outside its limits"),
        (Fault::PlaceDust(2), "  site.lkb has a figure outside its limits"),
        (
            Fault::PlaceShares,
            "  site.lkb has five places away from home whose shares of the dust are over 100 %",
        ),
        (row, "  book.lkb, block 12 (months 60 to 64), has a row"),
        (
            Fault::Intake(Intake::ConstantWater, 4),
            "  in month 49, at age 4, the lead that comes by air, by water",
        ),
    ];
    let mut generator = Generator::new(23);
    for (fault, due) in cases {
        let (site, book) = damaged(&mut generator, &published::fields(), &curves::rows(), &[fault]);
        let words = copy.words(Some(&site), Some(&book));
        assert!(words.contains(&format!("refused with number {} after", fault.number())), "{words}");
        assert!(words.contains(due), "{words}");
        assert_eq!(words.lines().count(), 3, "what it is, why, and what to do: {words}");
    }
}

/// What is printed is the same with and without a foods block, which is told of.
#[test]
fn foods_are_said_to_be_of_no_use_here() {
    let copy = Copy::new("foods");
    let told = copy.run(&["samples/foods"]);
    assert_eq!(told.status, Some(0));
    assert!(told.output == sample("foods/printout.txt"));
    let due = "sample: foods.lkb in samples/foods is not used: these months have the diet of site.lkb (README.md says how to run the foods)\n";
    assert_eq!(told.errors, due);
    copy.folder.write("card/foods.lkb", b"");
    let words = copy.words(Some(&published::site()), None);
    assert!(
        words.starts_with("sample: foods.lkb in card is not used") && words.contains("refused with number 1"),
        "{words}"
    );
}

#[test]
fn too_much_lead_is_told_with_its_month() {
    let copy = Copy::new("burden");
    let words =
        copy.words(Some(&sample("refused-burden/site.lkb")), Some(&sample("refused-burden/book.lkb")));
    assert!(words.contains("refused with number 22 after 26 months"), "{words}");
    assert!(words.contains("  in month 27, at age 2, the child would hold over 50 mg of lead"), "{words}");
    let mut fields = published::fields();
    fields[place::MOTHER] = 100_000;
    let mut rows = curves::rows();
    rows[0][3..8].fill(50_000);
    let (site, book) = damaged(&mut Generator::new(24), &fields, &rows, &[]);
    let words = copy.words(Some(&site), Some(&book));
    assert!(words.contains("  at birth or in month 1 the child would hold over 50 mg of lead"), "{words}");
}

/// Three headings, and a row that is run, with its AGE and its SOIL.
const HEADINGS: &str = "a survey\n\nID FAM BLOCK AGE SOIL DUST WATER AIR OTHER PBB ABSSOIL ABSDUST\n";

fn row(age: &str, soil: &str) -> String {
    format!("child * * {age} {soil} * * * * * * *\n")
}

/// A copy whose card has sound files.
fn with_sound_files(name: &str) -> Copy {
    let copy = Copy::new(name);
    copy.put(Some(&published::site()), Some(&curves::book()));
    copy
}

/// Whether the words are these lines, each behind the script's name.
fn are_lines(words: &str, due: &[&str]) -> bool {
    words == due.iter().map(|line| format!("sample: {line}\n")).collect::<String>()
}

#[test]
fn a_survey_is_printed_row_by_row() {
    let copy = Copy::new("survey");
    let told = copy.run(&["samples/survey"]);
    assert_eq!(copy.asked(), "run leadcard\n");
    assert_eq!(told.status, Some(3));
    assert!(told.output == sample("survey/cardout.txt"));
    let due = [
        "card.txt in samples/survey: 23 rows, 8 refused, 4 skipped",
        "  --- in lines 14, 15, 16, 17: AGE is missing or not 1 to 84, or SOIL and DUST are both missing",
        "  refused 7 in line 18: a figure is over its limit; look at its unit first",
        "  refused 9 in line 19: the lead that comes by air, by water, by soil or by dust is over 1,000 µg a day",
        "  refused 12 in lines 21, 22, 23, 24, 25: not twelve fields parted by spaces, a field over 8 bytes, or no figure where one is due",
        "  refused 22 in line 20: the child would hold over 50 mg of lead, more than the engine counts",
        "  card.txt has carriage returns, which are no spaces: tr -d '\\r' < card.txt > new.txt takes them out",
        "  README.md has the text's rules, units and limits.",
    ];
    assert!(are_lines(&told.errors, &due), "{}", told.errors);
}

/// Rows that are run need no words, and a skipped one is no refusal; the last row needs no line feed.
#[test]
fn a_survey_ends_with_3_only_if_a_row_was_refused() {
    let copy = with_sound_files("rows");
    let sound = format!("{HEADINGS}{}{}", row("24", "400"), row("84", "0.5").trim_end());
    assert_eq!(copy.survey(&sound), (Some(0), String::new()));
    let (status, words) = copy.survey(&format!("{HEADINGS}{}{}", row("24", "400"), row("85", "400")));
    assert_eq!(status, Some(0));
    let due = [
        "card.txt in card: 2 rows, 0 refused, 1 skipped",
        "  --- in line 5: AGE is missing or not 1 to 84, or SOIL and DUST are both missing",
        "  README.md has the text's rules, units and limits.",
    ];
    assert!(are_lines(&words, &due), "{words}");
    let (status, words) = copy.survey(&format!("{HEADINGS}{}{}", row("24", "50001"), row("24", "400")));
    assert_eq!(status, Some(3));
    assert!(words.contains("2 rows, 1 refused, 0 skipped\n"), "{words}");
    assert!(words.contains("  refused 7 in line 4: a figure is over its limit"), "{words}");
}

/// It is the survey's program that is proved, built and named.
#[test]
fn a_survey_s_program_that_is_not_proved_is_not_run() {
    let copy = Copy::new("survey-not-proved");
    copy.prover("crate lines: modules loaded=57 checked=0\nlogic=not-proved\n", 1);
    let told = copy.run(&["samples/survey"]);
    assert_eq!((told.status, told.output.as_slice()), (Some(1), &b""[..]));
    assert!(told.errors.contains("the program leadcard was not proved"), "{}", told.errors);
    copy.prover(PROVED, 0);
    fs::remove_file(copy.folder.path().join("crates/leadcard/out/leadcard")).expect("the link was there");
    let told = copy.run(&["samples/survey"]);
    assert_eq!((told.status, told.output.as_slice()), (Some(1), &b""[..]));
    assert!(told.errors.contains("leadcard is missing"), "{}", told.errors);
    assert_eq!(copy.run(&[]).status, Some(0), "the months need no leadcard");
}

#[test]
fn many_lines_are_counted_and_tabs_are_told() {
    let copy = with_sound_files("tabs");
    let (status, words) =
        copy.survey(&format!("{HEADINGS}{}", row("24", "400").replace(' ', "\t").repeat(11)));
    assert_eq!(status, Some(3));
    assert!(
        words.contains("  refused 12 in lines 4, 5, 6, 7, 8, 9, 10, 11 and 3 more: not twelve"),
        "{words}"
    );
    assert!(words.contains("  card.txt has tabs, which are no spaces: tr '\\t' ' ' < card.txt"), "{words}");
    assert!(!words.contains("carriage returns"), "{words}");
}

#[test]
fn a_survey_without_rows_is_told() {
    let copy = with_sound_files("no-rows");
    for text in ["", "a\nb\nc", HEADINGS] {
        let (status, words) = copy.survey(text);
        assert_eq!(status, Some(0));
        let due = "card.txt in card has no rows: they begin in line 4, behind the headings";
        assert!(are_lines(&words, &[due]), "{words}");
    }
    let path = copy.folder.path().join("card/card.txt");
    fs::remove_file(&path).expect("the text was there");
    fs::create_dir(&path).expect("a folder by the text's name");
    let told = copy.run(&["card"]);
    assert_eq!((told.status, told.output.as_slice()), (Some(0), &b""[..]));
    let due = "leadcard: Is a directory\nsample: card.txt in card cannot be read: no row is printed\n";
    assert_eq!(told.errors, due);
}

/// A refusal of the files is explained once, as it is without a survey; the site file's 7 is told from a row's own.
#[test]
fn a_survey_over_files_that_are_refused_is_told_once() {
    let copy = Copy::new("survey-files");
    let row_fault = Fault::Row(60, row_faults()[0]);
    let cases = [
        (Fault::SiteCheck, "  site.lkb has a wrong check"),
        (
            Fault::BlockEdition(0),
            "  book.lkb, block 0 (months 0 to 4), is of an edition that the engine does not read",
        ),
        (Fault::BlockNumber(7), "  book.lkb, block 7 (months 35 to 39), bears another block's number"),
        (Fault::SiteReserved, "  site.lkb has a byte that is not zero"),
        (Fault::SiteField(0), "  site.lkb has a figure outside its limits"),
        (
            Fault::PlaceShares,
            "  site.lkb has five places away from home whose shares of the dust are over 100 %",
        ),
        (row_fault, "  book.lkb, block 12 (months 60 to 64), has a row"),
        (Fault::SiteLength(511), "  site.lkb has 511 bytes, and 512 are due"),
    ];
    let text = format!("{HEADINGS}{}{}\n", row("24", "50001"), row("24", "400"));
    let mut generator = Generator::new(25);
    for (fault, due) in cases {
        let (site, book) = damaged(&mut generator, &published::fields(), &curves::rows(), &[fault]);
        copy.put(Some(&site), Some(&book));
        let (status, words) = copy.survey(&text);
        assert_eq!(status, Some(3));
        let first = format!(
            "sample: the card in card was refused with number {}, and so was each of its 3 rows:\n",
            fault.number()
        );
        assert!(words.starts_with(&first) && words.contains(due), "{words}");
        assert_eq!(words.lines().count(), 3, "what it is, why, and what to do: {words}");
    }
}

#[test]
fn foods_are_said_to_be_of_no_use_to_rows() {
    let copy = with_sound_files("survey-foods");
    copy.folder.write("card/foods.lkb", b"");
    let (status, words) = copy.survey(&format!("{HEADINGS}{}", row("24", "400")));
    assert_eq!(status, Some(0));
    let due = "foods.lkb in card is not used: these rows have the diet of site.lkb (README.md says how to run the foods)";
    assert!(are_lines(&words, &[due]), "{words}");
}
