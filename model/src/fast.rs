//! The same rules in plain, quick Rust: the program one would write without a
//! proof in mind. Rows are decoded once into an array, divisors once a month,
//! all sums are 64-bit and the state goes by value.
//!
//! Why 64 bits hold: Mi × D and n × D are at most 5×10^10 × 10^8 = 5×10^18, and
//! since bi/Ei ≤ 1/2, d ≥ D + ai/2, so Mi × D + ai × p ≤ 10^19.

mod card;
mod convert;

pub use card::{card_row, rows_one_by_one};
pub use convert::{to_edition_1, to_edition_2};

use crate::block::{BLOCK_BYTES, BODY_BYTES, EDITION, EDITION_AT, FIELDS_AT, FIELD_BYTES, NUMBER_AT};
use crate::book::{self, column, RowFields, BLOCK_ROWS, BOOK_BYTES, BOOK_ROWS, ROW_FIELDS};
use crate::engine::{BirthAnswer, MonthAnswer, RunAnswer};
use crate::foods::{self, food, local, FOODS, FOODS_FIGURES, FOODS_NUMBER, LOCAL_FOODS};
use crate::refusal::{Refusal, ACCEPTED};
use crate::site::{
    self, place, AGES, PLACES, PLACE_FIGURES, SATURATION_LEAST, SHARES_MOST, SITE_FIELDS, SITE_NUMBER,
};
use crate::state::{self, compartment, State, COMPARTMENTS, LEDGERS, MONTHS, MONTH_LIMIT, TISSUES};
use crate::uptake;

const D: u64 = book::D as u64;
const BURDEN_LIMIT: u64 = state::BURDEN_LIMIT as u64;
const INTAKE_MOST: u64 = uptake::INTAKE_MOST as u64;

/// Highest value of each field that has one per age, but for percentages.
const AGED_MOST: [(usize, u32); 9] = [
    (place::AIR, 100_000_000),
    (place::HOURS_OUT, 24),
    (place::BREATHING, 100_000),
    (place::DIET, 1_000_000_000),
    (place::WATER_AMOUNT, 10_000),
    (place::SOIL, 50_000_000),
    (place::DUST, 50_000_000),
    (place::EATEN, 1_000),
    (place::ALTERNATE, 1_000_000_000),
];

/// Highest value of each single field, but for percentages and shares.
const SINGLE_MOST: [(usize, u32); 9] = [
    (place::AIR_TO_DUST, 10_000),
    (place::DUST_MODE, 1),
    (place::WATER_MODE, 1),
    (place::CONSTANT_WATER, 10_000_000),
    (place::FLUSHED, 10_000_000),
    (place::FIRST_DRAW, 10_000_000),
    (place::FOUNTAIN, 10_000_000),
    (place::SATURATION, 500_000_000),
    (place::MOTHER, 100_000),
];

/// Highest value of each site field, 100 for every percentage and share.
const SITE_MOST: [u32; SITE_FIELDS] = site_most();

const fn site_most() -> [u32; SITE_FIELDS] {
    let mut most = [100; SITE_FIELDS];
    let mut index = 0;
    while index < AGES * AGED_MOST.len() {
        let (from, value) = AGED_MOST[index / AGES];
        most[from + index % AGES] = value;
        index += 1;
    }
    index = 0;
    while index < SINGLE_MOST.len() {
        let (at, value) = SINGLE_MOST[index];
        most[at] = value;
        index += 1;
    }
    most
}

/// Fields, then share and dust figure of each place; those of edition 1 are 0.
type Fields = [u32; SITE_FIELDS + PLACE_FIGURES];
type Figures = [u32; FOODS_FIGURES];
/// Diet by age, pg/day.
type Diets = [u64; AGES];
type Rows = [RowFields; BOOK_ROWS];

/// Where the leads, the local shares and the local leads begin among the figures of a foods block.
const LEADS: usize = AGES * FOODS;
const SHARES: usize = LEADS + FOODS;
const LOCAL_LEADS: usize = SHARES + LOCAL_FOODS;

/// The foods that are eaten whole, no part of them local.
const WHOLE_FOODS: [usize; 10] = [
    food::BEVERAGE,
    food::BREAD,
    food::CANDY,
    food::DAIRY,
    food::FORMULA,
    food::INFANT,
    food::JUICE,
    food::NUTS,
    food::PASTA,
    food::SAUCE,
];

fn word16(bytes: &[u8], at: usize) -> u16 {
    u16::from_le_bytes(bytes[at..at + 2].try_into().unwrap())
}

fn word32(bytes: &[u8], at: usize) -> u32 {
    u32::from_le_bytes(bytes[at..at + 4].try_into().unwrap())
}

fn field(block: &[u8], index: usize) -> u32 {
    word32(block, FIELDS_AT + FIELD_BYTES * index)
}

fn edition(block: &[u8]) -> usize {
    word16(block, EDITION_AT).into()
}

/// The check of a body, or of the block that has it: each word times its position.
#[inline(always)]
fn check_of(block: &[u8]) -> u32 {
    let mut check = 0u32;
    for (position, pair) in (1u32..).zip(block[..BODY_BYTES].chunks_exact(2)) {
        check += position * u32::from(u16::from_le_bytes([pair[0], pair[1]]));
    }
    check
}

/// Refusals 3 to 6 of a block that has edition 1 alone.
fn inspect(block: &[u8; BLOCK_BYTES], number: u16, reserved_at: usize) -> Result<(), Refusal> {
    inspect_editions(block, number, &[reserved_at])
}

/// Refusals 3 to 6, with where the reserved bytes begin in edition 1, in edition 2 and so on.
fn inspect_editions(block: &[u8; BLOCK_BYTES], number: u16, reserved_at: &[usize]) -> Result<(), Refusal> {
    if check_of(block) != word32(block, BODY_BYTES) {
        return Err(Refusal::Check);
    }
    let Some(&reserved_at) = reserved_at.get(edition(block).wrapping_sub(EDITION.into())) else {
        return Err(Refusal::Edition);
    };
    if word16(block, NUMBER_AT) != number {
        return Err(Refusal::Number);
    }
    if block[reserved_at..BODY_BYTES].iter().any(|&byte| byte != 0) {
        return Err(Refusal::Reserved);
    }
    Ok(())
}

fn read_site(block: &[u8; BLOCK_BYTES]) -> Result<Fields, Refusal> {
    inspect_editions(block, SITE_NUMBER, &[site::RESERVED_AT, site::RESERVED_2_AT])?;
    // Where edition 1 has no places yet, its reserved bytes are zeros.
    let fields: Fields = std::array::from_fn(|index| field(block, index));
    let over = fields.iter().zip(&SITE_MOST).any(|(field, most)| field > most);
    if over
        || (0..PLACES).any(|at| share(&fields, at) > 100 || dust(&fields, at) > 50_000_000)
        || fields[place::SATURATION] < SATURATION_LEAST
        || fields[place::FIRST_DRAW_SHARE] + fields[place::FOUNTAIN_SHARE] > SHARES_MOST
    {
        return Err(Refusal::SiteLimits);
    }
    if house(&fields).is_none() {
        return Err(Refusal::PlaceShares);
    }
    Ok(fields)
}

/// The share of a place.
fn share(fields: &Fields, at: usize) -> u32 {
    fields[SITE_FIELDS + 2 * at]
}

/// The dust of a place.
fn dust(fields: &Fields, at: usize) -> u32 {
    fields[SITE_FIELDS + 2 * at + 1]
}

/// What places of at most 100 each leave to the house, if they leave 0 or more.
fn house(fields: &Fields) -> Option<u32> {
    100u32.checked_sub((0..PLACES).map(|at| share(fields, at)).sum())
}

/// The foods reader: refusals 1, 3 to 6, 10 and 11.
pub fn read_foods(foods: &[u8]) -> Result<Figures, Refusal> {
    let block: &[u8; BLOCK_BYTES] = foods.try_into().map_err(|_| Refusal::Length)?;
    inspect(block, FOODS_NUMBER, foods::RESERVED_AT)?;
    let mut figures = [0; FOODS_FIGURES];
    let (grams, fields) = figures.split_at_mut(LEADS);
    for (index, grams) in grams.iter_mut().enumerate() {
        *grams = word16(block, FIELDS_AT + 2 * index).into();
    }
    for (index, field) in fields.iter_mut().enumerate() {
        *field = word32(block, foods::LEADS_AT + FIELD_BYTES * index);
    }
    let share = |local: usize| figures[SHARES + local];
    // Two shares of 32 bits can pass 32 bits together.
    if u64::from(share(local::FISH)) + u64::from(share(local::GAME)) > 100
        || share(local::VEGETABLE) > 100
        || share(local::FRUIT) > 100
    {
        return Err(Refusal::FoodShares);
    }
    let lead_over = |&lead: &u32| lead > 1_000_000;
    if figures[..LEADS].iter().any(|&grams| grams > 10_000)
        || figures[LEADS..SHARES].iter().any(lead_over)
        || figures[LOCAL_LEADS..].iter().any(lead_over)
    {
        return Err(Refusal::FoodLimits);
    }
    Ok(figures)
}

/// What the foods give at an age; at most 1.5×10^11 pg.
fn diet(figures: &Figures, age: usize) -> u64 {
    let at = |index: usize| u64::from(figures[index]);
    let grams = |food: usize| at(FOODS * age + food);
    let lead = |food: usize| at(LEADS + food) * grams(food);
    let share = |local: usize| at(SHARES + local);
    let taken = |local: usize, grams: u64| share(local) * grams * at(LOCAL_LEADS + local) / 100;
    let (vegetable, fruit) = (100 - share(local::VEGETABLE), 100 - share(local::FRUIT));
    let meat = (100 - share(local::FISH) - share(local::GAME)) * lead(food::MEAT) / 100;
    let bought = vegetable * lead(food::CANNED_VEGETABLE) / 200
        + vegetable * lead(food::FRESH_VEGETABLE) / 200
        + fruit * lead(food::CANNED_FRUIT) / 200
        + fruit * lead(food::FRESH_FRUIT) / 200;
    let grown = taken(local::VEGETABLE, grams(food::CANNED_VEGETABLE) + grams(food::FRESH_VEGETABLE))
        + taken(local::FRUIT, grams(food::CANNED_FRUIT) + grams(food::FRESH_FRUIT));
    let caught = taken(local::FISH, grams(food::MEAT)) + taken(local::GAME, grams(food::MEAT));
    let whole = WHOLE_FOODS.iter().map(|&food| lead(food)).sum::<u64>();
    meat + bought + grown + caught + whole
}

/// The row limits.
fn row_fits(row: &RowFields) -> bool {
    let d = D as u32;
    let outflow: u64 = row[column::OUT..column::BACK].iter().map(|&rate| u64::from(rate)).sum();
    (1_000..=60_000).contains(&row[column::VB])
        && (1..row[column::VB]).contains(&row[column::VP])
        && (2_000..=50_000).contains(&row[column::BODY])
        && row[column::KIDNEY..column::OUT].iter().all(|&weight| weight <= 50_000)
        && row[column::OUT] >= 1
        && outflow <= 64 * D
        && row[column::BACK..column::FAECES].iter().all(|&back| back <= d)
        && row[column::FAECES] <= d / 2
        && row[column::SKIN] <= d / 2
        && row[column::BACK + book::FAECES_EXIT] + row[column::FAECES] <= d
        && row[column::BACK + book::SKIN_EXIT] + row[column::SKIN] <= d
}

/// The book decoded and checked; the rows may hold anything before.
fn decode_book(book: &[u8; BOOK_BYTES], rows: &mut Rows) -> Result<(), Refusal> {
    for (number, block) in book.chunks_exact(BLOCK_BYTES).enumerate() {
        let block: &[u8; BLOCK_BYTES] = block.try_into().unwrap();
        inspect(block, number as u16, book::RESERVED_AT)?;
        let block_rows = &mut rows[BLOCK_ROWS * number..BLOCK_ROWS * (number + 1)];
        for (index, row) in block_rows.iter_mut().enumerate() {
            for (column, value) in row.iter_mut().enumerate() {
                *value = field(block, ROW_FIELDS * index + column);
            }
            if !row_fits(row) {
                return Err(Refusal::BookLimits);
            }
        }
    }
    Ok(())
}

fn read_book(book: &[u8; BOOK_BYTES]) -> Result<Box<Rows>, Refusal> {
    let mut rows = Box::new([[0; ROW_FIELDS]; BOOK_ROWS]);
    decode_book(book, &mut rows)?;
    Ok(rows)
}

/// The files of a call, read.
struct Card {
    fields: Fields,
    diets: Diets,
    rows: Box<Rows>,
}

/// The files, with the run's list length looked at where refusal 2 is due.
fn read(site: &[u8], foods: Option<&[u8]>, book: &[u8], list: usize) -> Result<Card, Refusal> {
    let (Ok(site), Ok(book)) = (site.try_into(), book.try_into()) else {
        return Err(Refusal::Length);
    };
    if list != MONTHS {
        return Err(Refusal::BloodList);
    }
    let (fields, diets) = read_yard(site, foods)?;
    Ok(Card { fields, diets, rows: read_book(book)? })
}

/// All that is read before the book: the site, and the diets that it or the foods give.
fn read_yard(site: &[u8; BLOCK_BYTES], foods: Option<&[u8]>) -> Result<(Fields, Diets), Refusal> {
    let fields = read_site(site)?;
    let diets = match foods {
        None => std::array::from_fn(|age| fields[place::DIET + age].into()),
        Some(foods) => {
            let figures = read_foods(foods)?;
            std::array::from_fn(|age| diet(&figures, age))
        }
    };
    Ok((fields, diets))
}

/// T of a month, or refusal 9.
fn day_uptake(f: &Fields, diets: &Diets, rows: &Rows, month: usize) -> Result<u64, Refusal> {
    let age = (month - 1) / 12;
    let diet = diets[age];
    let at = |index: usize| u64::from(f[index]);
    let aged = |from: usize| at(from + age);
    let (out, weight_soil) = (aged(place::HOURS_OUT), at(place::WEIGHT_SOIL));
    let hours = 100 * out + (24 - out) * at(place::INDOOR);
    let air = aged(place::AIR) * hours * aged(place::BREATHING) / 2_400_000;
    let water = if f[place::WATER_MODE] == 0 {
        aged(place::WATER_AMOUNT) * at(place::CONSTANT_WATER)
    } else {
        let (first, fountain) = (at(place::FIRST_DRAW_SHARE), at(place::FOUNTAIN_SHARE));
        let mixed = at(place::FLUSHED) * (100 - first - fountain)
            + at(place::FIRST_DRAW) * first
            + at(place::FOUNTAIN) * fountain;
        aged(place::WATER_AMOUNT) * mixed / 100
    };
    let house_dust = if f[place::DUST_MODE] == 0 {
        aged(place::DUST)
    } else {
        (10 * at(place::CONTRIBUTION) * aged(place::SOIL) + at(place::AIR_TO_DUST) * aged(place::AIR)) / 1000
    };
    let soil_eaten = aged(place::SOIL) * aged(place::EATEN) * weight_soil / 100;
    // At most 1.05×10^9 × 1,000 × 100 × 100.
    let eaten_as_dust = aged(place::EATEN) * (100 - weight_soil);
    let mut dust_eaten = house_dust * eaten_as_dust * u64::from(house(f).unwrap_or(0)) / 10_000;
    for at in 0..PLACES {
        dust_eaten += u64::from(dust(f, at)) * eaten_as_dust * u64::from(share(f, at)) / 10_000;
    }
    if air.max(water).max(soil_eaten).max(dust_eaten).max(diet) > INTAKE_MOST {
        return Err(Refusal::Intake);
    }
    let weight = |month: usize| u64::from(rows[month][column::BODY]);
    let saturation = at(place::SATURATION) * weight(month) / weight(uptake::SATURATION_MONTH);
    let eaten = [diet, water, dust_eaten, soil_eaten, aged(place::ALTERNATE)];
    let q: [u64; 5] = std::array::from_fn(|medium| at(place::ABSORBED + medium) * eaten[medium] / 100);
    let total = saturation + q.iter().sum::<u64>();
    let mut uptake = aged(place::AIR_ABSORBED) * air / 100;
    for (medium, q) in q.iter().enumerate() {
        let passive = at(place::PASSIVE + medium) * q / 100;
        // The product is at most 10^9 × 1.25×10^10.
        uptake += passive + (q - passive) * saturation / total;
    }
    Ok(uptake)
}

/// Rates and divisors of a month.
struct Rates {
    out: [u64; TISSUES],
    back: [u64; TISSUES],
    e: [u64; TISSUES],
    d: u64,
    urine: u64,
    faeces: u64,
    skin: u64,
}

fn rates(row: &RowFields) -> Rates {
    let at = |index: usize| u64::from(row[index]);
    let (urine, faeces, skin) = (at(column::URINE), at(column::FAECES), at(column::SKIN));
    let exit = [0, faeces, 0, skin, 0, 0];
    let (mut out, mut back, mut e) = ([0; TISSUES], [0; TISSUES], [0; TISSUES]);
    let mut d = D + urine;
    for i in 0..TISSUES {
        out[i] = at(column::OUT + i);
        back[i] = at(column::BACK + i);
        e[i] = D + back[i] + exit[i];
        d += out[i] - out[i] * back[i] / e[i];
    }
    Rates { out, back, e, d, urine, faeces, skin }
}

/// One step; burden plus uptake is already known to be in bounds.
fn step(
    r: &Rates,
    old: [u64; COMPARTMENTS],
    burden: u64,
    uptake: u64,
) -> ([u64; COMPARTMENTS], [u64; LEDGERS]) {
    let mut n = old[compartment::PLASMA] + uptake;
    for i in 0..TISSUES {
        n += r.back[i] * old[i + 1] / r.e[i];
    }
    let p = n * D / r.d;
    let mut new = [0; COMPARTMENTS];
    let mut elsewhere = 0;
    for i in 0..TISSUES {
        new[i + 1] = (old[i + 1] * D + r.out[i] * p) / r.e[i];
        elsewhere += new[i + 1];
    }
    let exits =
        [r.urine * p / D, r.faeces * new[compartment::LIVER] / D, r.skin * new[compartment::OTHER] / D];
    new[compartment::PLASMA] = burden + uptake - elsewhere - exits[0] - exits[1] - exits[2];
    (new, exits)
}

/// The 180 steps of the month after `state`'s.
fn step_month(f: &Fields, diets: &Diets, rows: &Rows, mut state: State) -> Result<(State, u32), Refusal> {
    let month = state.month as usize + 1;
    let row = &rows[month];
    let t = day_uptake(f, diets, rows, month)?;
    let shares: [u64; 6] = std::array::from_fn(|k| t * (k as u64 + 1) / 6 - t * k as u64 / 6);
    let rates = rates(row);
    for _day in 0..30 {
        for uptake in shares {
            let burden: u64 = state.compartments.iter().sum();
            if burden + uptake > BURDEN_LIMIT {
                return Err(Refusal::Burden);
            }
            let (compartments, exits) = step(&rates, state.compartments, burden, uptake);
            state.compartments = compartments;
            for (ledger, exit) in state.ledgers.iter_mut().zip(exits) {
                *ledger += exit;
            }
        }
    }
    state.month = month as u64;
    Ok((state, blood(row, &state)))
}

fn blood(row: &RowFields, state: &State) -> u32 {
    let (vb, vp) = (u64::from(row[column::VB]), u64::from(row[column::VP]));
    let plasma = state.compartments[compartment::PLASMA] * vp / (73 * vb / 100 + vp);
    ((state.compartments[compartment::RED_CELLS] + plasma) / vb) as u32
}

fn newborn(f: &Fields, rows: &Rows) -> Result<State, Refusal> {
    let at = |index: usize| u64::from(rows[0][index]);
    let pb = 85 * u64::from(f[place::MOTHER]) / 100;
    let total = pb * at(column::VB);
    // total × b1 is at most 5.1×10^9 × 10^8.
    let plasma = total * at(column::BACK) / (at(column::OUT) + at(column::BACK));
    let compartments = [
        plasma,
        total - plasma,
        130 * pb * at(column::LIVER) / 10,
        106 * pb * at(column::KIDNEY) / 10,
        160 * pb * at(column::OTHER) / 10,
        512 * pb * at(column::TRABECULAR) / 10,
        789 * pb * at(column::CORTICAL) / 10,
    ];
    if compartments.iter().sum::<u64>() > BURDEN_LIMIT {
        return Err(Refusal::Burden);
    }
    Ok(State { compartments, ..State::default() })
}

/// Refusals 20 and 21; the numbers may be anything.
fn inspect_state(state: &State) -> Result<(), Refusal> {
    let sum = |numbers: &[u64]| numbers.iter().map(|&n| u128::from(n)).sum::<u128>();
    let burden = sum(&state.compartments);
    let limit = u128::from(BURDEN_LIMIT);
    if state.month > MONTHS as u64
        || burden > limit
        || burden + sum(&state.ledgers) > limit + u128::from(state.month) * MONTH_LIMIT
    {
        return Err(Refusal::NoState);
    }
    if state.month == MONTHS as u64 {
        return Err(Refusal::LastMonth);
    }
    Ok(())
}

/// The birth call.
pub fn birth(site: &[u8], book: &[u8]) -> BirthAnswer {
    birth_foods(site, None, book)
}

/// The birth call with a foods block, if there is one.
pub fn birth_foods(site: &[u8], foods: Option<&[u8]>, book: &[u8]) -> BirthAnswer {
    match read(site, foods, book, MONTHS).and_then(|card| newborn(&card.fields, &card.rows)) {
        Ok(state) => BirthAnswer { number: ACCEPTED, state },
        Err(refusal) => BirthAnswer { number: refusal.number(), state: State::default() },
    }
}

/// The month call.
pub fn month(site: &[u8], book: &[u8], state: &State) -> MonthAnswer {
    month_foods(site, None, book, state)
}

/// The month call with a foods block, if there is one.
pub fn month_foods(site: &[u8], foods: Option<&[u8]>, book: &[u8], state: &State) -> MonthAnswer {
    let outcome = read(site, foods, book, MONTHS).and_then(|Card { fields, diets, rows }| {
        inspect_state(state)?;
        step_month(&fields, &diets, &rows, *state)
    });
    match outcome {
        Ok((state, blood)) => MonthAnswer { number: ACCEPTED, state, blood },
        Err(refusal) => MonthAnswer { number: refusal.number(), state: *state, blood: 0 },
    }
}

/// The whole run.
pub fn run(site: &[u8], book: &[u8], blood: &mut [u32]) -> RunAnswer {
    run_foods(site, None, book, blood)
}

/// The whole run with a foods block, if there is one.
pub fn run_foods(site: &[u8], foods: Option<&[u8]>, book: &[u8], blood: &mut [u32]) -> RunAnswer {
    let mut done = RunAnswer { number: ACCEPTED, state: State::default(), months: 0 };
    let outcome = read(site, foods, book, blood.len()).and_then(|Card { fields, diets, rows }| {
        done.state = newborn(&fields, &rows)?;
        for figure in blood.iter_mut() {
            (done.state, *figure) = step_month(&fields, &diets, &rows, done.state)?;
            done.months += 1;
        }
        Ok(())
    });
    if let Err(refusal) = outcome {
        done.number = refusal.number();
    }
    done
}
