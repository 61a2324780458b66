//! Random sites and books, the same in every run; `foods` has random foods blocks, `survey` rows of batch cards, `yards` sites of
//! either edition, `damage` faults, `states` random states.

mod damage;
mod foods;
mod generator;
mod states;
mod survey;
mod yards;

pub use damage::{
    break_intake, break_row, damaged, damaged_with_foods, fault, fault_with_foods, file_faults, row_faults,
    Fault, Intake, RowFault, Turn, INTAKES,
};
pub use foods::{all_eaten, break_diet, eat_alone, foods, foods_fault, foods_faults, Eaten, FoodsFault};
pub use generator::Generator;
pub use states::{any_numbers, any_state, burdened, no_state, state};
pub use survey::{
    any_row, break_texts, field_texts, group_row, group_text, joined, just_over, over, scratched, survey,
    survey_row, text_fault, text_faults, FieldTexts, TextFault, AGES_OUTSIDE, NO_FIGURES,
};
pub use yards::{places, scratched_site, yard, Yard};

use crate::book::{column, RowFields, BOOK_ROWS, ROW_FIELDS};
use crate::cards::{self, curves, published};
use crate::site::{self, place, AGES, SITE_FIELDS};

/// D as a row field holds it.
const D: u32 = 100_000_000;
/// Highest sum of the rates out of plasma.
const OUTFLOW_MOST: u64 = 64 * D as u64;

/// How far random figures go from the published ones.
#[derive(Clone, Copy, Debug, PartialEq, Eq)]
pub enum Range {
    /// Near the published figures; most runs are accepted to the end.
    Near,
    /// Every figure of any size within its limit, intakes kept to 10^9.
    Wide,
    /// Limits met exactly, intakes and burden free to be refused.
    Limits,
}

impl Range {
    /// The three ranges.
    pub const ALL: [Range; 3] = [Range::Near, Range::Wide, Range::Limits];

    /// The three by turns.
    pub fn of_turn(turn: usize) -> Range {
        Range::ALL[turn % Range::ALL.len()]
    }
}

/// Any of the three ranges.
pub fn range(generator: &mut Generator) -> Range {
    Range::of_turn(generator.index(Range::ALL.len()))
}

/// The fields of a random site that 7 lets pass, without places.
pub fn site_fields(generator: &mut Generator, range: Range) -> [u32; SITE_FIELDS] {
    let mut fields = match range {
        Range::Near => near_site(generator),
        Range::Wide => wide_site(generator),
        Range::Limits => limit_site(generator),
    };
    let rest = u64::from(site::SHARES_MOST - fields[place::FIRST_DRAW_SHARE]);
    if u64::from(fields[place::FOUNTAIN_SHARE]) > rest {
        fields[place::FOUNTAIN_SHARE] = generator.at_limits(rest) as u32;
    }
    fields
}

/// A random site file of either edition that is read without refusal.
pub fn site(generator: &mut Generator, range: Range) -> Vec<u8> {
    yard(generator, range).file()
}

/// The published site with every figure scaled by up to two, modes free.
fn near_site(generator: &mut Generator) -> [u32; SITE_FIELDS] {
    let mut fields = published::fields();
    for (index, field) in fields.iter_mut().enumerate() {
        let scaled = u64::from(*field) * generator.between(0, 200) / 100;
        *field = scaled.clamp(site::least(index).into(), site::most(index).into()) as u32;
    }
    fields[place::DUST_MODE] = generator.index(2) as u32;
    fields[place::WATER_MODE] = generator.index(2) as u32;
    fields
}

/// Figures of any size, scaled down if an intake would pass 10^9.
fn wide_site(generator: &mut Generator) -> [u32; SITE_FIELDS] {
    let mut fields: [u32; SITE_FIELDS] = std::array::from_fn(|index| {
        let least = u64::from(site::least(index));
        (least + generator.sized(u64::from(site::most(index)) - least)) as u32
    });
    for age in 0..AGES {
        limit_amount(&mut fields, place::BREATHING + age, place::AIR + age, 1_000);
        let water = (place::CONSTANT_WATER..=place::FOUNTAIN).map(|i| fields[i]).max().unwrap_or(0);
        limit_amount_by(&mut fields, place::WATER_AMOUNT + age, water, 1);
        limit_amount(&mut fields, place::EATEN + age, place::SOIL + age, 1);
        limit_amount(&mut fields, place::EATEN + age, place::DUST + age, 1);
        let mixed = (1000 * u64::from(fields[place::SOIL + age])
            + u64::from(fields[place::AIR_TO_DUST]) * u64::from(fields[place::AIR + age]))
            / 1000;
        limit_amount_by(&mut fields, place::EATEN + age, mixed.min(u32::MAX.into()) as u32, 1);
    }
    fields
}

/// Lowers an amount so that amount × concentration / `over` stays within 10^9.
fn limit_amount(fields: &mut [u32; SITE_FIELDS], amount: usize, concentration: usize, over: u64) {
    let concentration = fields[concentration];
    limit_amount_by(fields, amount, concentration, over);
}

fn limit_amount_by(fields: &mut [u32; SITE_FIELDS], amount: usize, concentration: u32, over: u64) {
    let most = 1_000_000_000 * over / u64::from(concentration.max(1));
    fields[amount] = u64::from(fields[amount]).min(most) as u32;
}

/// Limits exactly, or one inside them.
fn limit_site(generator: &mut Generator) -> [u32; SITE_FIELDS] {
    std::array::from_fn(|index| {
        let least = u64::from(site::least(index));
        (least + generator.at_limits(u64::from(site::most(index)) - least)) as u32
    })
}

/// A random row that 8 lets pass.
pub fn row(generator: &mut Generator, range: Range, month: usize) -> RowFields {
    match range {
        Range::Near => near_row(generator, month),
        Range::Wide => drawn_row(generator, Generator::sized),
        Range::Limits => drawn_row(generator, Generator::at_limits),
    }
}

/// The realistic row of the month, every figure within a fifth of it.
fn near_row(generator: &mut Generator, month: usize) -> RowFields {
    let mut row = curves::row(month);
    for value in &mut row {
        *value = (u64::from(*value) * generator.between(80, 120) / 100) as u32;
    }
    row[column::BODY] = row[column::BODY].max(2_000);
    row[column::VP] = row[column::VP].min(row[column::VB] - 1);
    row
}

/// A row drawn within its limits by `draw`, which picks a number up to a limit.
fn drawn_row(generator: &mut Generator, draw: fn(&mut Generator, u64) -> u64) -> RowFields {
    let mut row = [0; ROW_FIELDS];
    row[column::VB] = 1_000 + draw(generator, 59_000) as u32;
    row[column::VP] = 1 + draw(generator, u64::from(row[column::VB]) - 2) as u32;
    row[column::BODY] = 2_000 + draw(generator, 48_000) as u32;
    for weight in &mut row[column::KIDNEY..=column::CORTICAL] {
        *weight = draw(generator, 50_000) as u32;
    }
    draw_outflow(generator, &mut row, draw);
    for back in &mut row[column::BACK..column::FAECES] {
        *back = draw(generator, D.into()) as u32;
    }
    for (exit, back) in [(column::FAECES, column::BACK + 1), (column::SKIN, column::BACK + 3)] {
        row[exit] = draw(generator, u64::from(D / 2)) as u32;
        row[back] = draw(generator, u64::from(D - row[exit])) as u32;
    }
    row
}

/// a1 to a6 and au, in any order so that each may take most of the 64 D.
fn draw_outflow(generator: &mut Generator, row: &mut RowFields, draw: fn(&mut Generator, u64) -> u64) {
    let mut rest = OUTFLOW_MOST - 1;
    let first = generator.index(7);
    for turn in 0..7 {
        let rate = &mut row[column::OUT + (first + turn) % 7];
        *rate = draw(generator, rest.min(u32::MAX.into())) as u32;
        rest -= u64::from(*rate);
    }
    row[column::OUT] = row[column::OUT].saturating_add(1);
}

/// The rows of a random book.
pub fn rows(generator: &mut Generator, range: Range) -> Vec<RowFields> {
    (0..BOOK_ROWS).map(|month| row(generator, range, month)).collect()
}

/// A random book that is read without refusal.
pub fn book(generator: &mut Generator, range: Range) -> Vec<u8> {
    cards::book_file(&rows(generator, range))
}

/// The two files of a random card with this many faults in them.
pub fn card(generator: &mut Generator, range: Range, faults: usize) -> (Vec<u8>, Vec<u8>) {
    let (yard, rows) = (yard(generator, range), rows(generator, range));
    let faults: Vec<Fault> = (0..faults).map(|_| fault(generator)).collect();
    damaged(generator, yard, &rows, &faults)
}

/// The files of a random card with a foods block, with this many faults in them: site, foods, book.
pub fn card_with_foods(
    generator: &mut Generator,
    range: Range,
    faults: usize,
) -> (Vec<u8>, Vec<u8>, Vec<u8>) {
    let (yard, rows) = (yard(generator, range), rows(generator, range));
    let foods = foods(generator, range);
    let faults: Vec<Fault> = (0..faults).map(|_| fault_with_foods(generator)).collect();
    damaged_with_foods(generator, yard, &foods, &rows, &faults)
}

/// The files of a random card with this many faults in them, in one of two with a foods block: site, foods, book.
pub fn card_of_either_kind(
    generator: &mut Generator,
    range: Range,
    faults: usize,
) -> (Vec<u8>, Option<Vec<u8>>, Vec<u8>) {
    if generator.once_in(2) {
        let (site, foods, book) = card_with_foods(generator, range, faults);
        (site, Some(foods), book)
    } else {
        let (site, book) = card(generator, range, faults);
        (site, None, book)
    }
}

/// A mother's blood lead and a row 0 whose newborn has exactly this burden, pg.
/// Beside whole multiples of the child's blood lead PB, the burden has only what the
/// last digits of kidney, trabecular and cortical weight leave of PB; so mothers are
/// tried until those digits reach it.
pub fn newborn_of(generator: &mut Generator, burden: u64) -> (u32, RowFields) {
    let first = generator.between(40_000, 100_000) as u32;
    (first..=100_000)
        .chain(40_000..first)
        .find_map(|mother| Some((mother, row_for(mother, burden)?)))
        .expect("some mother's child has this burden")
}

/// A row 0 that makes up the burden with this mother, if one does.
fn row_for(mother: u32, burden: u64) -> Option<RowFields> {
    let blood = 85 * u64::from(mother) / 100;
    let weights = (0..5).flat_map(|k| (0..5).flat_map(move |t| (0..10).map(move |c| (k, t, c))));
    for (kidney, trabecular, cortical) in weights {
        let rest =
            burden - 106 * blood * kidney / 10 - 512 * blood * trabecular / 10 - 789 * blood * cortical / 10;
        let (wholes, left) = (rest / blood, rest % blood);
        if left == 0 {
            // Ten grams of cortical bone weigh 789 PB; they take what blood cannot hold.
            let tens = (wholes - 1_000) / 789;
            let mut row = curves::row(0);
            row[column::VB] = (wholes - 789 * tens) as u32;
            row[column::VP] = row[column::VB] / 2;
            (row[column::LIVER], row[column::OTHER]) = (0, 0);
            row[column::KIDNEY] = kidney as u32;
            row[column::TRABECULAR] = trabecular as u32;
            row[column::CORTICAL] = (cortical + 10 * tens) as u32;
            return Some(row);
        }
    }
    None
}

/// Rows that let no lead out of the body, so that the burden rises by the uptake alone.
pub fn closed_rows(generator: &mut Generator, range: Range) -> Vec<RowFields> {
    let mut rows = rows(generator, range);
    for row in &mut rows {
        for exit in [column::URINE, column::FAECES, column::SKIN] {
            row[exit] = 0;
        }
    }
    rows
}
