//! The three calls: birth, month and run, on the bytes of the two files and of a foods block, if there is one.

use crate::block::BLOCK_BYTES;
use crate::book::{read_book, Book, Row, BOOK_BYTES};
use crate::foods::read_foods;
use crate::kinetics::{self, birth_compartments, blood_figure, step_uptake, Stepped, DAY_STEPS, MONTH_DAYS};
use crate::refusal::{Refusal, ACCEPTED};
use crate::site::{read_site_file, Site};
use crate::state::{sum, State, BURDEN_LIMIT, MONTHS};
use crate::uptake::day_uptake;

/// What birth answers.
#[derive(Clone, Copy, Debug, PartialEq, Eq)]
pub struct BirthAnswer {
    /// 0 or the refusal number.
    pub number: u32,
    /// The newborn, all zero when refused.
    pub state: State,
}

/// What the month call answers.
#[derive(Clone, Copy, Debug, PartialEq, Eq)]
pub struct MonthAnswer {
    /// 0 or the refusal number.
    pub number: u32,
    /// The month end, or the state handed in when refused.
    pub state: State,
    /// Blood in thousandths of µg/dL, 0 when refused.
    pub blood: u32,
}

/// What the run answers beside the lent list.
#[derive(Clone, Copy, Debug, PartialEq, Eq)]
pub struct RunAnswer {
    /// 0 or the refusal number.
    pub number: u32,
    /// The last month end, all zero without a birth.
    pub state: State,
    /// Months done: that many figures are written.
    pub months: u32,
}

/// The files read, refusals 1, 3 to 8, 10, 11 and 13; `list` stands where 2 is due.
fn read_all(
    site: &[u8],
    foods: Option<&[u8]>,
    book: &[u8],
    list: Result<(), Refusal>,
) -> Result<(Site, Book), Refusal> {
    // A wrong length of the foods block is met where the block is read, after the site.
    if site.len() != BLOCK_BYTES || book.len() != BOOK_BYTES {
        return Err(Refusal::Length);
    }
    list?;
    let mut site = Site::of_file(&read_site_file(site)?);
    if let Some(foods) = foods {
        site = site.with_foods(&read_foods(foods)?);
    }
    Ok((site, read_book(book)?))
}

/// The files of a birth or month call read; the site has the diet that the call goes by.
pub fn read_files(site: &[u8], foods: Option<&[u8]>, book: &[u8]) -> Result<(Site, Book), Refusal> {
    read_all(site, foods, book, Ok(()))
}

/// The newborn of accepted files, or refusal 22.
pub fn newborn(site: &Site, book: &Book) -> Result<State, Refusal> {
    let compartments = birth_compartments(&book.rows[0], site.mother);
    if compartments.iter().sum::<u128>() > BURDEN_LIMIT {
        return Err(Refusal::Burden);
    }
    let compartments = compartments.map(|lead| u64::try_from(lead).expect("under the burden limit"));
    Ok(State { compartments, ..State::default() })
}

/// One step of a month as a watcher sees it.
#[derive(Clone, Copy, Debug)]
pub struct WatchedStep<'a> {
    /// The month's row.
    pub row: &'a Row,
    /// The compartments and ledgers before it.
    pub before: &'a State,
    /// What it absorbs.
    pub uptake: u64,
    /// What it leaves.
    pub stepped: &'a Stepped,
}

/// One step on a state: refusal 22, or the state after it with its ledgers.
fn step_state(
    row: &Row,
    state: &State,
    uptake: u64,
    watch: &mut dyn FnMut(&WatchedStep),
) -> Result<State, Refusal> {
    if sum(&state.compartments) + u128::from(uptake) > BURDEN_LIMIT {
        return Err(Refusal::Burden);
    }
    let stepped = kinetics::step(row, &state.compartments, uptake);
    watch(&WatchedStep { row, before: state, uptake, stepped: &stepped });
    let mut after = State { compartments: stepped.compartments, ..*state };
    for (ledger, exit) in after.ledgers.iter_mut().zip(stepped.exits) {
        *ledger = ledger.checked_add(exit).expect("a state's ledgers have room for a month");
    }
    Ok(after)
}

/// The 180 steps of the month after `state`'s, each shown to `watch`.
pub fn walk_month(
    site: &Site,
    book: &Book,
    state: &State,
    watch: &mut dyn FnMut(&WatchedStep),
) -> Result<(State, u32), Refusal> {
    let month = state.month as usize + 1;
    let row = &book.rows[month];
    let day_uptake = day_uptake(site, book, month)?;
    let mut now = *state;
    for _day in 0..MONTH_DAYS {
        for k in 0..DAY_STEPS {
            now = step_state(row, &now, step_uptake(day_uptake, k), watch)?;
        }
    }
    now.month = month as u64;
    Ok((now, blood_figure(row, &now.compartments)))
}

/// A month without a watcher.
fn step_month(site: &Site, book: &Book, state: &State) -> Result<(State, u32), Refusal> {
    walk_month(site, book, state, &mut |_| {})
}

/// The birth call.
pub fn birth(site: &[u8], book: &[u8]) -> BirthAnswer {
    birth_foods(site, None, book)
}

/// The birth call with a foods block, if there is one.
pub fn birth_foods(site: &[u8], foods: Option<&[u8]>, book: &[u8]) -> BirthAnswer {
    match read_files(site, foods, book).and_then(|(site, book)| newborn(&site, &book)) {
        Ok(state) => BirthAnswer { number: ACCEPTED, state },
        Err(refusal) => BirthAnswer { number: refusal.number(), state: State::default() },
    }
}

/// Refusals 20 and 21.
fn inspect_state(state: &State) -> Result<(), Refusal> {
    if !state.is_state() {
        return Err(Refusal::NoState);
    }
    if state.month == MONTHS as u64 {
        return Err(Refusal::LastMonth);
    }
    Ok(())
}

fn try_month(site: &[u8], foods: Option<&[u8]>, book: &[u8], state: &State) -> Result<(State, u32), Refusal> {
    let (site, book) = read_files(site, foods, book)?;
    inspect_state(state)?;
    step_month(&site, &book, state)
}

/// The month call.
pub fn month(site: &[u8], book: &[u8], state: &State) -> MonthAnswer {
    month_foods(site, None, book, state)
}

/// The month call with a foods block, if there is one.
pub fn month_foods(site: &[u8], foods: Option<&[u8]>, book: &[u8], state: &State) -> MonthAnswer {
    match try_month(site, foods, book, state) {
        Ok((state, blood)) => MonthAnswer { number: ACCEPTED, state, blood },
        Err(refusal) => MonthAnswer { number: refusal.number(), state: *state, blood: 0 },
    }
}

/// The whole run: birth and 84 months, the list filled month by month.
pub fn run(site: &[u8], book: &[u8], blood: &mut [u32]) -> RunAnswer {
    run_foods(site, None, book, blood)
}

/// The whole run with a foods block, if there is one.
pub fn run_foods(site: &[u8], foods: Option<&[u8]>, book: &[u8], blood: &mut [u32]) -> RunAnswer {
    let list = if blood.len() == MONTHS { Ok(()) } else { Err(Refusal::BloodList) };
    let mut done = RunAnswer { number: ACCEPTED, state: State::default(), months: 0 };
    let outcome =
        read_all(site, foods, book, list).and_then(|(site, book)| run_months(&site, &book, blood, &mut done));
    if let Err(refusal) = outcome {
        done.number = refusal.number();
    }
    done
}

/// Birth and the months, `done` and the list kept up to the last month end.
fn run_months(site: &Site, book: &Book, blood: &mut [u32], done: &mut RunAnswer) -> Result<(), Refusal> {
    done.state = newborn(site, book)?;
    for figure in blood.iter_mut() {
        (done.state, *figure) = step_month(site, book, &done.state)?;
        done.months += 1;
    }
    Ok(())
}
