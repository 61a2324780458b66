//! Random cards, whole and damaged, run by the engine and by the model.
//!
//! Each card's book is read, its foods block if it has one, its site file with the places, which is converted both
//! ways, and the same file scratched; then the card is run in one call and lived
//! again month by month, and some rows of a batch card are run over it, one by one and as a group. The engine must give
//! the model's answers, and the same figures and last state both ways. Seed and number of a card make it, so that other seeds are other cards and one can be repeated alone.

use jurengate_model::block::BLOCK_BYTES;
use jurengate_model::book::{self, BOOK_ROWS, ROW_FIELDS};
use jurengate_model::card;
use jurengate_model::console::{asks_for_help, ended, misused, print, words};
use jurengate_model::convert;
use jurengate_model::engine::{self, RunAnswer};
use jurengate_model::ffi;
use jurengate_model::foods;
use jurengate_model::group::{self, kind, GROUP_ANSWERS};
use jurengate_model::random::{self, Generator};
use jurengate_model::refusal::number_of;
use jurengate_model::site::{self, SITE_FIELDS};
use jurengate_model::state::MONTHS;
use std::fmt::Debug;
use std::process::ExitCode;
use std::time::Instant;

const PROGRAM: &str = "soak";

/// What the command line asks for.
#[derive(Clone, Copy)]
struct Task {
    cards: u32,
    seed: u32,
    first: u32,
}

/// What no word on the command line changes.
const TASK: Task = Task { cards: 10_000, seed: 0, first: 1 };

const USAGE: &str = "\
usage: soak [CARDS [SEED [FIRST]]]   runs CARDS random cards (default 10000) of SEED (default 0), from card FIRST (default 1)
       soak --help                   prints this

The engine and the model run each card; the first mismatch ends it, with the words that repeat that card alone.
Other seeds are other cards.
";

/// Lent lists are filled with this beforehand.
const BEFORE: u32 = 0x5EED_5EED;

/// One past the highest refusal number.
const NUMBERS: usize = 23;

/// Rows that are run over each card by themselves.
const ROWS: usize = 4;

/// What was compared so far.
#[derive(Default)]
struct Tally {
    runs: u64,
    with_foods: u64,
    by_number: [u64; NUMBERS],
    run_months: u64,
    books: u64,
    accepted_books: u64,
    accepted_foods: u64,
    sites: u64,
    with_places: u64,
    conversions: u64,
    accepted_conversions: u64,
    births: u64,
    month_calls: u64,
    rows: u64,
    accepted_rows: u64,
    skipped_rows: u64,
    groups: u64,
    group_rows: u64,
    group_bloods: u64,
}

impl Tally {
    fn report(&self, started: Instant) -> String {
        let mut lines = vec![format!("{} runs: {} accepted", self.runs, self.by_number[0])];
        for (number, runs) in self.by_number.iter().enumerate().skip(1).filter(|(_, runs)| **runs > 0) {
            lines.push(format!("  {runs} refused with {number}"));
        }
        lines.push(format!("{} months compared in runs", self.run_months));
        lines.push(format!("{} books compared, {} of them accepted", self.books, self.accepted_books));
        lines.push(format!(
            "{} foods blocks compared, {} of them accepted",
            self.with_foods, self.accepted_foods
        ));
        lines.push(format!("{} site files compared, {} of them with places", self.sites, self.with_places));
        lines.push(format!(
            "{} conversions compared, {} of them accepted",
            self.conversions, self.accepted_conversions
        ));
        lines.push(format!("{} births and {} month calls compared", self.births, self.month_calls));
        lines.push(format!(
            "{} rows of batch cards compared, {} of them with a blood figure, {} skipped",
            self.rows, self.accepted_rows, self.skipped_rows
        ));
        lines.push(format!(
            "{} groups of rows compared, {} rows in them, {} of them with a blood figure",
            self.groups, self.group_rows, self.group_bloods
        ));
        lines.push(format!("no mismatch, {:.0} s\n", started.elapsed().as_secs_f64()));
        lines.join("\n")
    }
}

/// The answer if it is the one due, else both.
fn held<T: PartialEq + Debug>(what: &str, answer: T, due: T) -> Result<T, String> {
    if answer == due {
        Ok(answer)
    } else {
        Err(format!("{what}: {answer:?}, due {due:?}"))
    }
}

/// A card's files: site, foods if it has them, book.
type Card = (Vec<u8>, Option<Vec<u8>>, Vec<u8>);

/// A random card, one in two with a foods block, one in four with up to three faults.
fn card(generator: &mut Generator) -> Card {
    let range = random::range(generator);
    let faults = if generator.once_in(4) { 1 + generator.index(3) } else { 0 };
    random::card_of_either_kind(generator, range, faults)
}

/// A list's length, mostly the one due.
fn list_length(generator: &mut Generator) -> usize {
    if generator.once_in(20) {
        generator.index(2 * MONTHS)
    } else {
        MONTHS
    }
}

/// The engine's book reader held to the model's.
fn read_book(book: &[u8], tally: &mut Tally) -> Result<(), String> {
    let due = book::read_table(book);
    let due = (number_of(&due), due.unwrap_or([[0; ROW_FIELDS]; BOOK_ROWS]));
    let (number, _) = held("book reader", ffi::read_book(book), due)?;
    tally.books += 1;
    tally.accepted_books += u64::from(number == 0);
    Ok(())
}

/// The engine's foods reader held to the model's.
fn read_foods(block: &[u8], tally: &mut Tally) -> Result<(), String> {
    let due = foods::read_foods(block);
    let due = (number_of(&due), due.unwrap_or_default().figures());
    let (number, _) = held("foods reader", ffi::read_foods(block), due)?;
    tally.with_foods += 1;
    tally.accepted_foods += u64::from(number == 0);
    Ok(())
}

/// The engine's readers of a site file held to the model's.
fn read_site(site: &[u8], tally: &mut Tally) -> Result<(), String> {
    let fields = site::read_site(site);
    let due = (number_of(&fields), fields.unwrap_or([0; SITE_FIELDS]));
    held("site reader", ffi::read_site(site), due)?;
    let places = site::read_places(site);
    let due = (number_of(&places), places.unwrap_or_default());
    let (_, places) = held("reader of the places", ffi::read_places(site), due)?;
    tally.sites += 1;
    tally.with_places += u64::from(places.shares() > 0);
    Ok(())
}

/// A converter of the model and the engine's.
type Converters = (convert::Converter, fn(&[u8], &mut [u8]) -> u32);

/// A site file converted both ways, held to the model's with the whole target, which is mostly of the length due.
fn convert(site: &[u8], generator: &mut Generator, tally: &mut Tally) -> Result<(), String> {
    let ways: [(&str, Converters); 2] = [
        ("to edition 2", (convert::to_edition_2, ffi::site_to_edition_2)),
        ("to edition 1", (convert::to_edition_1, ffi::site_to_edition_1)),
    ];
    for (what, (by_model, by_engine)) in ways {
        let length = if generator.once_in(10) { generator.index(2 * BLOCK_BYTES) } else { BLOCK_BYTES };
        let (mut target, mut due_target) = (vec![BEFORE as u8; length], vec![BEFORE as u8; length]);
        let due = number_of(&by_model(site, &mut due_target));
        let number = held(what, by_engine(site, &mut target), due)?;
        held("the target", target, due_target)?;
        tally.conversions += 1;
        tally.accepted_conversions += u64::from(number == 0);
    }
    Ok(())
}

/// The engine's run held to the model's, the whole lent list too.
fn run((site, foods, book): &Card, list: &mut [u32]) -> Result<RunAnswer, String> {
    let foods = foods.as_deref();
    let mut due = list.to_vec();
    let due_answer = engine::run_foods(site, foods, book, &mut due);
    let answer = held("run", ffi::run_foods(site, foods, book, list), due_answer)?;
    held("the run's list", list.to_vec(), due)?;
    Ok(answer)
}

/// Birth and months up to the first refusal, each call held to the model's, with the
/// figures put into a list as the run does.
fn month_by_month(
    (site, foods, book): &Card,
    list: &mut [u32],
    tally: &mut Tally,
) -> Result<RunAnswer, String> {
    let foods = foods.as_deref();
    let due = engine::birth_foods(site, foods, book);
    let newborn = held("birth", ffi::birth_foods(site, foods, book), due)?;
    tally.births += 1;
    let mut done = RunAnswer { number: newborn.number, state: newborn.state, months: 0 };
    for figure in list {
        if done.number != 0 {
            break;
        }
        let due = engine::month_foods(site, foods, book, &done.state);
        let lived = held("month call", ffi::month_foods(site, foods, book, &done.state), due)?;
        tally.month_calls += 1;
        (done.number, done.state) = (lived.number, lived.state);
        if lived.number == 0 {
            *figure = lived.blood;
            done.months += 1;
        }
    }
    Ok(done)
}

/// Rows over a card, whole and damaged, each held to the model's.
fn rows((site, foods, book): &Card, generator: &mut Generator, tally: &mut Tally) -> Result<(), String> {
    let range = random::range(generator);
    let rows: Vec<Vec<u8>> = (0..ROWS).map(|_| random::any_row(generator, range)).collect();
    let due = card::answers(site, foods.as_deref(), book, rows.iter().map(Vec::as_slice));
    for (row, due) in rows.iter().zip(due) {
        let what = format!("row {:?}", String::from_utf8_lossy(row));
        let answer = held(&what, ffi::card_row(site, foods.as_deref(), book, row), due.into())?;
        tally.rows += 1;
        tally.accepted_rows += u64::from(answer.number == 0 && !answer.skipped);
        tally.skipped_rows += u64::from(answer.skipped);
    }
    Ok(())
}

/// A group of rows over a card, held to the model's with its whole lent list; one in sixteen is a full one.
fn group((site, foods, book): &Card, generator: &mut Generator, tally: &mut Tally) -> Result<(), String> {
    let (range, full) = (random::range(generator), generator.once_in(16));
    let rows = if full { generator.between(62, 67) as usize } else { generator.index(6) };
    let text = random::group_text(generator, range, rows);
    let (mut list, mut due_list) = ([BEFORE; GROUP_ANSWERS], [BEFORE; GROUP_ANSWERS]);
    let due = group::card_group(site, foods.as_deref(), book, &text, &mut due_list);
    let answer = held("group", ffi::card_group(site, foods.as_deref(), book, &text, &mut list), due)?;
    held("the group's answers", list, due_list)?;
    tally.groups += 1;
    tally.group_rows += u64::from(answer.rows);
    let pairs = list.chunks_exact(2).take(answer.rows as usize);
    tally.group_bloods += pairs.filter(|pair| pair[0] == kind::BLOOD).count() as u64;
    Ok(())
}

/// A site file with the length due.
fn sound_length(site: &[u8]) -> Vec<u8> {
    let mut site = site.to_vec();
    site.resize(BLOCK_BYTES, 0);
    site
}

/// One card both ways, and rows over it.
fn soak(seed: u32, number: u32, tally: &mut Tally) -> Result<(), String> {
    let mut generator = Generator::of_card(seed, number);
    let card = card(&mut generator);
    read_book(&card.2, tally)?;
    let scratched = random::scratched_site(&mut generator, sound_length(&card.0));
    for site in [&card.0, &scratched] {
        read_site(site, tally)?;
        convert(site, &mut generator, tally)?;
    }
    if let Some(foods) = &card.1 {
        read_foods(foods, tally)?;
    }
    let mut list = vec![BEFORE; list_length(&mut generator)];
    let whole = run(&card, &mut list)?;
    tally.runs += 1;
    tally.by_number[whole.number as usize] += 1;
    tally.run_months += u64::from(whole.months);
    let mut figures = vec![BEFORE; MONTHS];
    let lived = month_by_month(&card, &mut figures, tally)?;
    // A list of another length has refused the run before its first month.
    if list.len() == MONTHS {
        held("month by month and run", (lived, figures), (whole, list))?;
    }
    rows(&card, &mut generator, tally)?;
    group(&card, &mut generator, tally)
}

/// A word of the command line as a number from `least` up.
fn number(word: &str, least: u32) -> Result<u32, String> {
    let number = word.parse().ok().filter(|&number| number >= least);
    number.ok_or_else(|| format!("`{word}` is no number from {least} to {}", u32::MAX))
}

/// The task that the words of the command line name.
fn task(words: &[String]) -> Result<Task, String> {
    let word = |place: usize, default: u32, least: u32| {
        words.get(place).map_or(Ok(default), |word| number(word, least))
    };
    let task =
        Task { cards: word(0, TASK.cards, 1)?, seed: word(1, TASK.seed, 0)?, first: word(2, TASK.first, 1)? };
    if let Some(word) = words.get(3) {
        return Err(format!("`{word}` is a word too many"));
    }
    if task.first.checked_add(task.cards - 1).is_none() {
        return Err(format!("a seed has {} cards", u32::MAX));
    }
    Ok(task)
}

/// Runs the cards; answers what was compared, or the mismatch.
fn soak_all(task: Task) -> Result<Tally, String> {
    let (seed, mut tally) = (task.seed, Tally::default());
    for number in (0..task.cards).map(|card| task.first + card) {
        soak(seed, number, &mut tally).map_err(|mismatch| {
            format!("mismatch at card {number} of seed {seed} (repeat it with: soak 1 {seed} {number}): {mismatch}")
        })?;
    }
    Ok(tally)
}

fn main() -> ExitCode {
    let words = words();
    if asks_for_help(&words) {
        return ended(PROGRAM, print(USAGE));
    }
    let task = match task(&words) {
        Ok(task) => task,
        Err(what) => return misused(PROGRAM, &what, USAGE),
    };
    let started = Instant::now();
    match soak_all(task) {
        Ok(tally) => ended(PROGRAM, print(tally.report(started))),
        Err(mismatch) => {
            eprintln!("{PROGRAM}: {mismatch}");
            ExitCode::FAILURE
        }
    }
}
