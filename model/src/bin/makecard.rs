//! Makes `site.lkb`, `book.lkb` and, of foods, `foods.lkb` from plain text figures, and shows the figures of a card.

use jurengate_model::block::{self, word16, BLOCK_BYTES, EDITION_AT};
use jurengate_model::cards::{self, curves};
use jurengate_model::console::{ended, misused, print};
use jurengate_model::figures::{self, Card, Figures};
use jurengate_model::foods::{read_foods, Foods};
use jurengate_model::refusal::Refusal;
use jurengate_model::site::{read_site, Places, EDITION_2, SITE_FIELDS};
use std::ffi::OsString;
use std::fmt::Display;
use std::fs;
use std::io::ErrorKind;
use std::path::Path;
use std::process::ExitCode;

const PROGRAM: &str = "makecard";
const SITE_FILE: &str = "site.lkb";
const FOODS_FILE: &str = "foods.lkb";
const BOOK_FILE: &str = "book.lkb";

const USAGE: &str = "\
usage: makecard FIGURES [FOLDER]   makes site.lkb and book.lkb in FOLDER (default: this one) from the text FIGURES,
                                   and foods.lkb if the text has a key of the foods, as meat_grams
       makecard --defaults         prints a text with every key: its default, limits, unit and meaning
       makecard --show FOLDER      prints the figures of a card as such a text
       makecard --help             prints this

A text has lines `key = figure`, or `key = ` and seven figures for ages 0 to 6; `#` begins a remark. What it leaves out
keeps its published default. The book is always the one of the agency's growth curves and transfer times.
A key of a place away from home, as daycare_share, makes site.lkb of edition 2; without one it is of edition 1.
The foods give the diet in place of the figure `diet`, in the C calls that take them (examples/foods.c); leadline reads
site.lkb and book.lkb alone.
";

/// What goes before the figures of a card whose book `makecard` does not write.
const OTHER_BOOK: &str = "\
# The card's book.lkb is not the book that makecard writes. A card made of this text has the same site.lkb and
# another book.lkb, and may print other months: copy the card's own book.lkb over it.
";

/// What to say, a message a line.
type Messages = Vec<String>;

/// The figures of a text file, or every mistake in it.
fn figures_in(path: &Path) -> Result<Figures, Messages> {
    let shown = path.display();
    let bytes = fs::read(path).map_err(|why| vec![format!("{shown}: {why}")])?;
    let text = figures::text_of_bytes(&bytes)
        .ok_or_else(|| vec![format!("{shown}: this is not UTF-8 text; save it as UTF-8 in your editor")])?;
    figures::read(&text).map_err(|mistakes| {
        let mut told: Messages = mistakes.iter().map(|mistake| format!("{shown}: {mistake}")).collect();
        told.push("no card was written; mend the lines above and run it again".to_string());
        told
    })
}

/// Writes the files into the folder, made if it is missing; answers what was written.
fn make(figures_path: &Path, folder: &Path) -> Result<String, Messages> {
    let figures = figures_in(figures_path)?;
    for each in figures::unused(&figures) {
        warn(&figures_path.display(), &each);
    }
    fs::create_dir_all(folder).map_err(|why| vec![format!("{}: {why}", folder.display())])?;
    let mut wrote = write(&folder.join(SITE_FILE), &site_of(&figures.card))?;
    let foods_path = folder.join(FOODS_FILE);
    if let Some(foods) = &figures.card.foods {
        wrote += &format!(", {}", write(&foods_path, &cards::foods_file(foods))?);
    } else if foods_path.exists() {
        warn(&foods_path.display(), &"not of this card, whose text has no foods; remove it");
    }
    let book = write(&folder.join(BOOK_FILE), &curves::book())?;
    Ok(format!("wrote {wrote} and {book}\n"))
}

/// The site file of a card: of edition 2 if it has places.
fn site_of(card: &Card) -> Vec<u8> {
    cards::site_file_with(&card.site, card.places.as_ref())
}

/// Tells of what does not stop the work.
fn warn(path: &dyn Display, what: &dyn Display) {
    eprintln!("{PROGRAM}: warning: {path}: {what}");
}

/// Writes a file; answers its name and size.
fn write(path: &Path, bytes: &[u8]) -> Result<String, Messages> {
    fs::write(path, bytes).map_err(|why| vec![format!("{}: {why}", path.display())])?;
    Ok(format!("{} ({} bytes)", path.display(), bytes.len()))
}

/// The figures of a card as a text that makes it again.
fn show(folder: &Path) -> Result<String, Messages> {
    let text = figures::text_of(&Card { foods: shown_foods(folder)?, ..shown_site(folder)? });
    let book = folder.join(BOOK_FILE);
    if fs::read(&book).is_ok_and(|book| book == curves::book()) {
        return Ok(text);
    }
    warn(&book.display(), &"missing, or not the book that makecard writes");
    Ok(format!("{OTHER_BOOK}{text}"))
}

/// A card's site file, fields and places.
fn shown_site(folder: &Path) -> Result<Card, Messages> {
    let path = folder.join(SITE_FILE);
    let site = fs::read(&path).map_err(|why| vec![format!("{}: {why}", path.display())])?;
    read_site(&site).map_err(|refusal| reasons(&path, refusal, &site))?;
    Ok(card_of(&site))
}

/// What a site file of 512 bytes says, whatever it is.
fn card_of(site: &[u8]) -> Card {
    let fields: [u32; SITE_FIELDS] = std::array::from_fn(|index| block::field(site, index));
    let has_places = word16(site, EDITION_AT) == EDITION_2.number;
    let figures = || std::array::from_fn(|at| block::field(site, SITE_FIELDS + at));
    Card { site: fields, places: has_places.then(|| Places::of_figures(&figures())), foods: None }
}

/// A card's foods, if it has the file.
fn shown_foods(folder: &Path) -> Result<Option<Foods>, Messages> {
    let path = folder.join(FOODS_FILE);
    match fs::read(&path) {
        Ok(foods) => read_foods(&foods).map(Some).map_err(|refusal| reasons(&path, refusal, &foods)),
        Err(why) if why.kind() == ErrorKind::NotFound => Ok(None),
        Err(why) => Err(vec![format!("{}: {why}", path.display())]),
    }
}

/// Why a site file or a foods block is refused: its length, or each figure outside its limits.
fn reasons(path: &Path, refusal: Refusal, file: &[u8]) -> Messages {
    let mut told = vec![refusal.to_string()];
    match refusal {
        Refusal::Length => told[0] += &format!(", {} bytes and not {BLOCK_BYTES}", file.len()),
        Refusal::SiteLimits | Refusal::PlaceShares => told.extend(figures::outside_site(&card_of(file))),
        Refusal::FoodShares | Refusal::FoodLimits => {
            told.extend(figures::outside_foods(&Foods::of_block(file)));
        }
        _ => (),
    }
    told.iter().map(|reason| format!("{}: {reason}", path.display())).collect()
}

/// What the command line asks for: a text to print, or messages; none if it asks for nothing known.
fn answer(arguments: &[OsString]) -> Option<Result<String, Messages>> {
    let is_option = |word: &OsString| word.to_string_lossy().starts_with('-');
    match arguments {
        [only] if only == "--help" || only == "-h" => Some(Ok(USAGE.to_string())),
        [only] if only == "--defaults" => Some(Ok(figures::text_of(&Card::published()))),
        [option, folder] if option == "--show" => Some(show(Path::new(folder))),
        words if words.iter().any(is_option) => None,
        [figures] => Some(make(Path::new(figures), Path::new("."))),
        [figures, folder] => Some(make(Path::new(figures), Path::new(folder))),
        _ => None,
    }
}

fn main() -> ExitCode {
    let arguments: Vec<OsString> = std::env::args_os().skip(1).collect();
    match answer(&arguments) {
        None => misused(PROGRAM, "a text of figures or an option is due", USAGE),
        Some(Ok(text)) => ended(PROGRAM, print(text)),
        Some(Err(messages)) => {
            for message in messages {
                eprintln!("{PROGRAM}: {message}");
            }
            ExitCode::FAILURE
        }
    }
}
