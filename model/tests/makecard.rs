//! The program `makecard`, run as a contractor runs it.

#[path = "support/folder.rs"]
mod folder;
#[path = "support/repository.rs"]
mod repository;
#[path = "support/samples.rs"]
mod samples;

use folder::Folder;
use jurengate_model::cards::{
    book_file, curves, foods_file, published, site_file, site_file_2, site_file_with,
};
use jurengate_model::figures::{read, site_fields, text_of, Card};
use jurengate_model::foods::{food, local};
use jurengate_model::site::{away, place, Place, Places};
use samples::{folders, stored};
use std::fs;
use std::path::Path;
use std::process::{Command, Stdio};

/// Exit status, standard output and standard error.
struct Told {
    status: Option<i32>,
    output: String,
    errors: String,
}

fn makecard(arguments: &[&str], folder: &Folder) -> Told {
    let program = env!("CARGO_BIN_EXE_makecard");
    let output = Command::new(program).args(arguments).current_dir(folder.path()).output();
    let output = output.expect("makecard runs");
    let text = |bytes: Vec<u8>| String::from_utf8(bytes).expect("text");
    Told { status: output.status.code(), output: text(output.stdout), errors: text(output.stderr) }
}

/// What was printed if nothing else is to be said.
fn printed(told: Told) -> String {
    assert_eq!((told.status, told.errors.as_str()), (Some(0), ""));
    told.output
}

/// What standard error has for a text of figures that is taken.
fn warnings(figures: &str, folder: &Folder) -> Vec<String> {
    folder.write("yard.txt", figures.as_bytes());
    let told = makecard(&["yard.txt", "card"], folder);
    assert_eq!(told.status, Some(0), "{}", told.errors);
    let (card, made) = (read(figures).expect("figures").card, folder.path().join("card"));
    assert!(stored(&made, "site.lkb") == site_file_with(&card.site, card.places.as_ref()));
    assert!(fs::read(made.join("foods.lkb")).ok() == card.foods.map(|foods| foods_file(&foods)));
    fs::remove_dir_all(made).expect("the card is taken away");
    told.errors.lines().map(str::to_string).collect()
}

#[test]
fn a_card_goes_into_the_folder_that_is_named_and_made() {
    let folder = Folder::new("named");
    folder.write("yard.txt", b"# the defaults\n");
    let wrote = "wrote cards/yard/site.lkb (512 bytes) and cards/yard/book.lkb (8704 bytes)\n";
    assert_eq!(printed(makecard(&["yard.txt", "cards/yard"], &folder)), wrote);
    let card = folder.path().join("cards/yard");
    assert!(stored(&card, "site.lkb") == published::site());
    assert!(stored(&card, "book.lkb") == curves::book());
    assert!(!folder.path().join("site.lkb").exists() && !card.join("foods.lkb").exists());
}

/// A key of a food makes the third file; a text without one leaves a foods block of another card alone, and says so.
#[test]
fn foods_make_a_third_file() {
    let folder = Folder::new("foods");
    folder.write("yard.txt", b"fish_share = 30\nfish_lead = 0.2\n");
    let wrote =
        "wrote card/site.lkb (512 bytes), card/foods.lkb (512 bytes) and card/book.lkb (8704 bytes)\n";
    assert_eq!(printed(makecard(&["yard.txt", "card"], &folder)), wrote);
    let mut foods = published::foods();
    (foods.local_shares[local::FISH], foods.local_leads[local::FISH]) = (30, 200_000);
    let card = folder.path().join("card");
    let due =
        [("site.lkb", published::site()), ("foods.lkb", foods_file(&foods)), ("book.lkb", curves::book())];
    for (file, bytes) in &due {
        assert!(stored(&card, file) == *bytes, "{file}");
    }
    folder.write("yard.txt", b"");
    let told = makecard(&["yard.txt", "card"], &folder);
    assert_eq!(told.output, "wrote card/site.lkb (512 bytes) and card/book.lkb (8704 bytes)\n");
    let warning = "makecard: warning: card/foods.lkb: not of this card, whose text has no foods; remove it\n";
    assert_eq!((told.status, told.errors.as_str()), (Some(0), warning));
    assert!(stored(&card, "foods.lkb") == due[1].1);
}

/// A key of a place, even of one without a share, makes a site file of edition 2; without one it is of edition 1.
#[test]
fn places_make_a_site_file_of_edition_2() {
    let folder = Folder::new("places");
    let mut places = Places::default();
    places.0[away::DAYCARE] = Place { share: 25, dust: 1_000_001 };
    places.0[away::SECOND_HOME] = Place { share: 5, dust: 0 };
    let cases = [
        ("daycare_share = 25\ndaycare_dust = 1000.001\nsecond_home_share = 5\n", places),
        ("other_share = 0\n", Places::default()),
        ("work_dust = 0\n", Places::default()),
    ];
    for (figures, due) in cases {
        folder.write("yard.txt", figures.as_bytes());
        let wrote = "wrote ./site.lkb (512 bytes) and ./book.lkb (8704 bytes)\n";
        assert_eq!(printed(makecard(&["yard.txt"], &folder)), wrote);
        assert!(stored(folder.path(), "site.lkb") == site_file_2(&published::fields(), &due), "{figures}");
        let shown = printed(makecard(&["--show", "."], &folder));
        let card = Card { places: Some(due), ..Card::published() };
        assert_eq!(
            (shown.as_str(), read(&shown).map(|figures| figures.card)),
            (text_of(&card).as_str(), Ok(card))
        );
    }
    folder.write("yard.txt", b"soil = 200\n");
    printed(makecard(&["yard.txt"], &folder));
    assert!(stored(folder.path(), "site.lkb") == published::site());
}

/// Each key fills its own figure of its own place.
#[test]
fn each_key_of_a_place_fills_its_own_figure() {
    let keys = [
        ("work", away::WORK),
        ("school", away::SCHOOL),
        ("daycare", away::DAYCARE),
        ("second_home", away::SECOND_HOME),
        ("other", away::OTHER),
    ];
    for (name, at) in keys {
        let mut due = Places::default();
        due.0[at] = Place { share: 7, dust: 12_345 };
        let text = format!("{name}_share = 7\n{name}_dust = 12.345\n");
        assert_eq!(read(&text).expect("figures").card.places, Some(due), "{name}");
    }
}

/// A card with places is shown with them, and with what rests beside them.
#[test]
fn a_card_with_places_is_shown_with_them() {
    let folder = Folder::new("shown-places");
    let places = Places::of_figures(&[0, 7_000, 40, 0, 60, 1_250_500, 0, 0, 0, 0]);
    let card = Card { places: Some(places), ..Card::published() };
    folder.write("site.lkb", &site_file_2(&card.site, &places));
    folder.write("book.lkb", &curves::book());
    let shown = printed(makecard(&["--show", "."], &folder));
    let lines = [
        "# work_share = 0  # 0 to 100 %; share of a parent's work in the dust eaten; the five shares at most 100",
        "work_dust = 7  # 0 to 50000 µg/g; lead in dust of a parent's work; needs work_share over 0",
        "school_share = 40  # 0 to 100 %; share of the school in the dust eaten",
        "# school_dust = 0  # 0 to 50000 µg/g; lead in school dust",
        "daycare_dust = 1250.5  # 0 to 50000 µg/g; lead in daycare dust",
        "# air_to_dust = 100  # 0 to 10000 µg/g per µg/m³; dust lead per air lead; needs shares under 100",
    ];
    for line in lines {
        assert!(shown.lines().any(|each| each == line), "{line}: {shown}");
    }
    assert_eq!(read(&shown).map(|figures| figures.card), Ok(card));
}

/// What is wrong with the places of a text and of a file.
#[test]
fn places_outside_their_limits_are_told() {
    let folder = Folder::new("places-outside");
    let all = "work_share, school_share, daycare_share, second_home_share and other_share are";
    let texts = [
        ("work_share = 101\n", "line 1: work_share: 101 is over the limit of 100 %\n".to_string()),
        ("work_share = 1.5\n", "line 1: work_share: `1.5` must be a whole number\n".to_string()),
        (
            "other_dust = 50000.001\n",
            "line 1: other_dust: 50000.001 is over the limit of 50000 µg/g\n".to_string(),
        ),
        ("other_dust = 0.0001\n", "line 1: other_dust: `0.0001` has more than 3 decimals\n".to_string()),
        ("school_dust = 1 2\n", "line 1: school_dust takes one figure, not 2\n".to_string()),
        ("daycare_share = 60\nother_share = 41\n\n", format!("line 2: {all} 101 % together, over 100 %\n")),
        ("daycare = 60\n", "line 1: `daycare` is not a key; did you mean `daycare_share`?\n".to_string()),
    ];
    for (text, due) in texts {
        folder.write("yard.txt", text.as_bytes());
        let told = makecard(&["yard.txt"], &folder);
        let due = format!(
            "makecard: yard.txt: {due}makecard: no card was written; mend the lines above and run it again\n"
        );
        assert_eq!((told.status, told.errors), (Some(1), due));
    }
    let refusals = [
        ([0, 0, 60, 1, 40, 0, 1, 0, 0, 0], format!("refused with 13: the shares of the five places are over 100 % together\n{all} 101 % together, over 100 %\n")),
        ([0, 0, 0, 50_000_001, 101, 0, 0, 0, 0, 0], format!("refused with 7: a figure is outside its limits\nschool_dust: 50000.001 is over the limit of 50000 µg/g\ndaycare_share: 101 is over the limit of 100 %\n{all} 101 % together, over 100 %\n")),
    ];
    for (figures, due) in refusals {
        folder.write("site.lkb", &site_file_2(&published::fields(), &Places::of_figures(&figures)));
        let told = makecard(&["--show", "."], &folder);
        let due: String = due.lines().map(|line| format!("makecard: ./site.lkb: {line}\n")).collect();
        assert_eq!((told.status, told.output.as_str(), told.errors), (Some(1), "", due));
    }
}

#[test]
fn help_is_printed() {
    let folder = Folder::new("help");
    for option in ["--help", "-h"] {
        let help = printed(makecard(&[option], &folder));
        for word in ["FIGURES", "--defaults", "--show FOLDER", "--help", "foods.lkb", "daycare_share"] {
            assert!(help.contains(word), "{word}");
        }
    }
}

#[test]
fn the_printed_defaults_are_the_published_site_with_its_limits() {
    let folder = Folder::new("defaults");
    let defaults = printed(makecard(&["--defaults"], &folder));
    assert_eq!(read(&defaults).map(|figures| figures.card), Ok(Card::published()));
    let lines = [
        "soil = 200  # 0 to 50000 µg/g; lead in soil",
        "# dust = 150  # 0 to 50000 µg/g; lead in house dust; needs dust_mode = 0",
        "# passive_alternate = 20  # 0 to 100 %; passive share of what alternate gives; needs alternate over 0, absorbed_alternate over 0",
        "dust_mode = 1  # 0 to 1; 0 dust as given, 1 from soil and air",
        "saturation = 100  # 1 to 500 µg/day; half-saturation of the gut at 24 months",
        "# work_share = 0  # 0 to 100 %; share of a parent's work in the dust eaten; the five shares at most 100",
        "# daycare_dust = 0  # 0 to 50000 µg/g; lead in daycare dust; needs daycare_share over 0",
        "# meat_grams = 35 64 80 88 98 99 100  # 0 to 10000 g/day; meat, fish and game too",
        "# meat_lead = 0.004447  # 0 to 1 µg/g; lead in meat from the shop",
        "# fish_share = 0  # 0 to 100 %; share of fish in the meat, with game's at most 100",
        "# fish_lead = 0  # 0 to 1 µg/g; lead in fish; needs fish_share over 0",
    ];
    for line in lines {
        assert!(defaults.lines().any(|each| each == line), "{line}");
    }
}

/// Nothing in the printed defaults is worth a warning, nor in the samples.
#[test]
fn no_warning_without_a_reason() {
    let folder = Folder::new("quiet");
    assert!(warnings(&printed(makecard(&["--defaults"], &folder)), &folder).is_empty());
    for sample in folders() {
        let figures = String::from_utf8(stored(&sample, "figures.txt")).expect("text");
        assert!(warnings(&figures, &folder).is_empty(), "{}", sample.display());
    }
    let used = [
        "dust_mode = 0\ndust = 300",
        "alternate = 0",
        "alternate = 9\nabsorbed_alternate = 30",
        "weight_soil = 0\nsoil = 9",
        "fish_share = 30",
        "fish_share = 30\nfish_lead = 0.1",
        "home_fruit_share = 100\nhome_fruit_lead = 0.1\nfresh_fruit_grams = 50",
        "fish_lead = 0",
        "daycare_share = 25",
        "daycare_share = 25\ndaycare_dust = 800",
        "work_dust = 0",
        "school_share = 100\nsoil = 300",
    ];
    for figures in used {
        assert!(warnings(figures, &folder).is_empty(), "{figures}");
    }
}

#[test]
fn a_figure_that_is_not_used_is_warned_of_with_what_to_add() {
    let cases = [
        ("dust = 300", "line 1: dust is not used. For it to count, add the line `dust_mode = 0` (0 dust as given"),
        ("dust = 0", "line 1: dust is not used. For it to count, add the line `dust_mode = 0` ("),
        ("dust_mode = 1\ndust = 3", "line 2: dust is not used. For it to count, change line 1 to `dust_mode = 0` ("),
        ("weight_soil = 100\ndust_mode = 0\ndust = 3", "line 3: dust is not used. For it to count, change line 1 to `weight_soil = N` with N under 100 %"),
        ("dust_mode = 0\ncontribution = 3", "line 2: contribution is not used. For it to count, change line 1 to `dust_mode = 1` ("),
        ("dust_mode = 0\nair_to_dust = 3", "line 2: air_to_dust is not used. For it to count, change line 1 to `dust_mode = 1` ("),
        ("dust_mode = 0\nweight_soil = 0\nsoil = 9", "line 3: soil is not used. For it to count, change line 2 to `weight_soil = N` with N over 0 %"),
        ("flushed = 3", "line 1: flushed is not used. For it to count, add the line `water_mode = 1` ("),
        ("first_draw = 3", "line 1: first_draw is not used. For it to count, add the line `water_mode = 1` ("),
        ("fountain = 3", "line 1: fountain is not used. For it to count, add the line `water_mode = 1` ("),
        ("fountain_share = 3", "line 1: fountain_share is not used. For it to count, add the line `water_mode = 1` ("),
        ("water_mode = 1\nwater = 3", "line 2: water is not used. For it to count, change line 1 to `water_mode = 0` ("),
        ("alternate = 20", "line 1: alternate is not used. For it to count, add the line `absorbed_alternate = N` with N over 0 %"),
        ("absorbed_alternate = 20", "line 1: absorbed_alternate is not used. For it to count, add the line `alternate = N` with N over 0 µg/day"),
        ("absorbed_diet = 0\ndiet = 5", "line 2: diet is not used. For it to count, change line 1 to `absorbed_diet = N` with N over 0 %"),
        ("absorbed_water = 0\nwater = 5", "line 2: water is not used. For it to count, change line 1 to `absorbed_water = N` with N over 0 %"),
        ("air_absorbed = 0\nbreathing = 5", "line 2: breathing is not used. For it to count, change line 1 to `air_absorbed = N` with N over 0 %"),
        ("meat_grams = 5\ndiet = 5", "line 2: diet is not used. For it to count, take out the foods (line 1)"),
        ("nuts_lead = 0\ndiet = 0\n\nmeat_grams = 5", "line 2: diet is not used. For it to count, take out the foods (lines 1 to 4)"),
        ("fish_lead = 0.1", "line 1: fish_lead is not used. For it to count, add the line `fish_share = N` with N over 0 % (share of fish"),
        ("game_share = 0\ngame_lead = 0.1", "line 2: game_lead is not used. For it to count, change line 1 to `game_share = N` with N over 0 %"),
        ("candy_grams = 0\ncandy_lead = 0.1", "line 2: candy_lead is not used. For it to count, change line 1 to `candy_grams = N` with N over 0 g/day (candy)"),
        ("home_vegetable_share = 100\nfresh_vegetable_lead = 0.1", "line 2: fresh_vegetable_lead is not used. For it to count, change line 1 to `home_vegetable_share = N` with N under 100 %"),
        ("fish_share = 60\ngame_share = 40\nmeat_lead = 0.1", "line 3: meat_lead is not used. For it to count, change line 1 to `fish_share = N` so that the two shares are under 100 %"),
        ("daycare_dust = 500", "line 1: daycare_dust is not used. For it to count, add the line `daycare_share = N` with N over 0 % (share of the daycare"),
        ("work_share = 0\nwork_dust = 9", "line 2: work_dust is not used. For it to count, change line 1 to `work_share = N` with N over 0 %"),
        ("weight_soil = 100\nschool_share = 9", "line 2: school_share is not used. For it to count, change line 1 to `weight_soil = N` with N under 100 %"),
        ("dust_mode = 0\ndaycare_share = 60\nwork_share = 40\ndust = 300", "line 4: dust is not used. For it to count, change line 3 to `work_share = N` so that the five shares are under 100 %"),
        ("dust_mode = 0\nother_share = 100\ndust = 300", "line 3: dust is not used. For it to count, change line 2 to `other_share = N` so that the five shares are under 100 %"),
        ("game_share = 100\nmeat_lead = 0.1", "line 2: meat_lead is not used. For it to count, change line 1 to `game_share = N` so that the two shares are under 100 %"),
        ("absorbed_diet = 0\nsauce_grams = 5", "line 2: sauce_grams is not used. For it to count, change line 1 to `absorbed_diet = N` with N over 0 %"),
    ];
    let folder = Folder::new("warnings");
    for (figures, due) in cases {
        let told = warnings(figures, &folder);
        assert_eq!(told.len(), 1, "{figures}: {told:?}");
        assert!(told[0].starts_with(&format!("makecard: warning: yard.txt: {due}")), "{}", told[0]);
    }
}

/// All that is missing is told, and the warnings come in the order of the lines.
#[test]
fn several_warnings_and_several_needs() {
    let told = warnings("flushed = 8\nabsorbed_dust = 0\ndust = 300\n", &Folder::new("several"));
    assert_eq!(told.len(), 2, "{told:?}");
    assert!(told[0].contains("line 1: flushed is not used"));
    assert!(
        told[1].contains("add the line `dust_mode = 0`")
            && told[1].contains("change line 2 to `absorbed_dust = N`")
    );
}

#[test]
fn what_makecard_cannot_use_is_told_and_nothing_is_written() {
    let folder = Folder::new("mistakes");
    folder.write("wrong.txt", b"soil = 200\nsol = 3\n\nwater = many\n");
    folder.write("latin.txt", b"soil = 200 # \xB5g/g\n");
    folder.write("yard.txt", b"");
    let all = "makecard: wrong.txt: line 2: `sol` is not a key; did you mean `soil`?\n\
        makecard: wrong.txt: line 4: water: `many` is not a figure such as 200 or 0.9\n\
        makecard: no card was written; mend the lines above and run it again\n";
    let cases: [(&[&str], i32, &str); 7] = [
        (&["wrong.txt"], 1, all),
        (&["none.txt"], 1, "makecard: none.txt: "),
        (&["latin.txt"], 1, "makecard: latin.txt: this is not UTF-8 text"),
        (&["yard.txt", "wrong.txt"], 1, "makecard: wrong.txt: "),
        (&[], 2, "makecard: a text of figures or an option is due\n\nusage: makecard FIGURES [FOLDER]"),
        (&["--shwo", "."], 2, "makecard: a text of figures or an option is due\n"),
        (&["yard.txt", ".", "more"], 2, "makecard: a text of figures or an option is due\n"),
    ];
    for (arguments, status, due) in cases {
        let told = makecard(arguments, &folder);
        assert_eq!((told.status, told.output.as_str()), (Some(status), ""), "{arguments:?}");
        assert!(told.errors.starts_with(due), "{}", told.errors);
        assert!(!folder.path().join("site.lkb").exists() && !folder.path().join("book.lkb").exists());
    }
}

#[test]
fn a_byte_order_mark_is_understood() {
    let folder = Folder::new("mark");
    let text = "soil = 4000 # µg/g\r\nmother = 4\r\n";
    let words: Vec<u16> = std::iter::once(0xFEFF).chain(text.encode_utf16()).collect();
    let files = [
        format!("\u{FEFF}{text}").into_bytes(),
        words.iter().flat_map(|word| word.to_le_bytes()).collect(),
        words.iter().flat_map(|word| word.to_be_bytes()).collect(),
    ];
    for file in files {
        folder.write("yard.txt", &file);
        printed(makecard(&["yard.txt"], &folder));
        assert!(stored(folder.path(), "site.lkb") == site_file(&site_fields(text).expect("figures")));
    }
    folder.write("yard.txt", b"\xFF\xFEs\0o");
    assert_eq!(makecard(&["yard.txt"], &folder).status, Some(1));
}

fn path(folder: &Path) -> &str {
    folder.to_str().expect("a path")
}

#[test]
fn a_shown_card_is_made_again() {
    let folder = Folder::new("shown");
    for sample in folders() {
        let figures = printed(makecard(&["--show", path(&sample)], &folder));
        folder.write("shown.txt", figures.as_bytes());
        printed(makecard(&["shown.txt", "again"], &folder));
        let again = folder.path().join("again");
        for file in ["site.lkb", "book.lkb", "foods.lkb"] {
            let (made, due) = (fs::read(again.join(file)).ok(), fs::read(sample.join(file)).ok());
            assert!(made == due, "{} {file}", sample.display());
        }
        fs::remove_dir_all(again).expect("the card is taken away");
    }
}

/// The site's diet, which the foods take the place of, is shown as a figure that is not used.
#[test]
fn a_card_with_foods_is_shown_with_them() {
    let folder = Folder::new("shown-foods");
    let mut card = Card { foods: Some(published::foods()), ..Card::published() };
    card.site[place::DIET..place::DIET + 7].fill(5_000_000);
    folder.write("site.lkb", &site_file(&card.site));
    folder.write("book.lkb", &curves::book());
    folder.write("foods.lkb", &foods_file(&published::foods()));
    let shown = printed(makecard(&["--show", "."], &folder));
    assert_eq!(shown, text_of(&card));
    assert_eq!(read(&shown).map(|figures| figures.card), Ok(card));
    let diet = "diet = 5  # 0 to 1000 µg/day; lead eaten in food; needs the foods left out";
    for line in [diet, "nuts_grams = 6 5 5 7 6 10 7  # 0 to 10000 g/day; nuts"] {
        assert!(shown.lines().any(|each| each == line), "{line}");
    }
}

/// A card with another book, or none, is shown with a warning, and the text says so itself.
#[test]
fn another_book_is_told_of() {
    let mut rows = curves::rows();
    rows[84][0] += 1;
    for (name, book) in [("other-book", Some(book_file(&rows))), ("no-book", None)] {
        let folder = Folder::new(name);
        folder.write("site.lkb", &published::site());
        book.map(|book| folder.write("book.lkb", &book));
        let told = makecard(&["--show", "."], &folder);
        assert_eq!(told.status, Some(0));
        assert_eq!(
            told.errors,
            "makecard: warning: ./book.lkb: missing, or not the book that makecard writes\n"
        );
        assert!(told.output.starts_with("# The card's book.lkb is not the book that makecard writes."));
        assert_eq!(site_fields(&told.output), Ok(published::fields()));
    }
}

#[test]
fn a_card_that_is_refused_is_not_shown() {
    let folder = Folder::new("not-shown");
    let told = makecard(&["--show", "."], &folder);
    assert!(told.errors.starts_with("makecard: ./site.lkb: "), "{}", told.errors);
    let mut fields = published::fields();
    fields[place::SOIL + 3] = 60_000_500;
    fields[place::FIRST_DRAW_SHARE] = 90;
    let mut damaged = published::site();
    damaged[4] ^= 1;
    let limits = "makecard: ./site.lkb: refused with 7: a figure is outside its limits\n\
        makecard: ./site.lkb: soil: 60000.5 at age 3 is over the limit of 50000 µg/g\n\
        makecard: ./site.lkb: first_draw_share and fountain_share are 105 % together, over 100 %\n";
    let cases = [
        (published::site()[1..].to_vec(), "makecard: ./site.lkb: refused with 1: its length is wrong, 511 bytes and not 512\n"),
        (damaged, "makecard: ./site.lkb: refused with 3: the check of a block is wrong: it was damaged or changed\n"),
        (site_file(&fields), limits),
    ];
    for (site, due) in cases {
        folder.write("site.lkb", &site);
        let told = makecard(&["--show", "."], &folder);
        assert_eq!((told.status, told.output.as_str(), told.errors.as_str()), (Some(1), "", due));
    }
}

#[test]
fn a_card_whose_foods_are_refused_is_not_shown() {
    let folder = Folder::new("foods-not-shown");
    folder.write("site.lkb", &published::site());
    folder.write("book.lkb", &curves::book());
    let mut shares = published::foods();
    (shares.local_shares, shares.leads[food::NUTS]) = ([0, 101, 60, 41], 1_000_001);
    let mut limits = published::foods();
    limits.grams[6][food::PASTA] = 10_001;
    let cases = [
        (vec![], "refused with 1: its length is wrong, 0 bytes and not 512\n".to_string()),
        (published::site(), "refused with 5: a block is not the one due there\n".to_string()),
        (
            foods_file(&shares),
            "refused with 10: fish and game together, or home-grown vegetable or fruit, are over 100 %\n\
            nuts_lead: 1.000001 is over the limit of 1 µg/g\n\
            home_fruit_share: 101 is over the limit of 100 %\n\
            fish_share and game_share are 101 % together, over 100 %\n"
                .to_string(),
        ),
        (
            foods_file(&limits),
            "refused with 11: an amount of a food, or the lead in it, is over its limit\n\
            pasta_grams: 10001 at age 6 is over the limit of 10000 g/day\n"
                .to_string(),
        ),
    ];
    for (foods, due) in cases {
        folder.write("foods.lkb", &foods);
        let told = makecard(&["--show", "."], &folder);
        let due: String = due.lines().map(|line| format!("makecard: ./foods.lkb: {line}\n")).collect();
        assert_eq!((told.status, told.output.as_str(), told.errors), (Some(1), "", due));
    }
    fs::remove_file(folder.path().join("foods.lkb")).expect("the file was there");
    fs::create_dir(folder.path().join("foods.lkb")).expect("a folder in its place");
    let told = makecard(&["--show", "."], &folder);
    assert!(told.status == Some(1) && told.errors.starts_with("makecard: ./foods.lkb: "), "{}", told.errors);
}

/// A reader that has read enough is no failure.
#[test]
fn a_closed_pipe_is_no_failure() {
    let mut child = Command::new(env!("CARGO_BIN_EXE_makecard"))
        .arg("--defaults")
        .stdout(Stdio::piped())
        .stderr(Stdio::piped())
        .spawn()
        .expect("makecard runs");
    drop(child.stdout.take());
    let output = child.wait_with_output().expect("makecard ends");
    assert_eq!((output.status.code(), output.stderr.as_slice()), (Some(0), &b""[..]));
}
