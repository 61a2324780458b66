//! Random foods blocks, and their faults.

use super::damage::{break_bit, break_reserved, break_word, length_off, PAST_INTAKE};
use super::{Generator, Range};
use crate::block::{BLOCK_BYTES, EDITION_AT, NUMBER_AT};
use crate::foods::{
    food, local, Foods, FOODS, GRAMS_MOST, LEAD_MOST, LOCAL_FOODS, LOCAL_SHARES_MOST, RESERVED_AT,
};
use crate::site::AGES;
use crate::uptake::INTAKE_MOST;

/// Typical figures: amounts of a meal, g/day, and the lead of market foods, pg/g.
const TYPICAL_GRAMS: u64 = 250;
const TYPICAL_LEAD: u64 = 10_000;
const TYPICAL_SHARE: u64 = 50;

/// A random foods block that 10 and 11 let pass.
pub fn foods(generator: &mut Generator, range: Range) -> Foods {
    match range {
        Range::Near => near_foods(generator),
        Range::Wide => wide_foods(generator),
        Range::Limits => limit_foods(generator),
    }
}

/// Amounts and leads such as a dietitian's sheet has.
fn near_foods(generator: &mut Generator) -> Foods {
    let mut figure = |most: u64| generator.between(0, most);
    Foods {
        grams: std::array::from_fn(|_| std::array::from_fn(|_| figure(TYPICAL_GRAMS) as u16)),
        leads: std::array::from_fn(|_| figure(TYPICAL_LEAD) as u32),
        local_shares: std::array::from_fn(|_| figure(TYPICAL_SHARE) as u32),
        local_leads: std::array::from_fn(|_| figure(TYPICAL_LEAD) as u32),
    }
}

/// Figures of any size, amounts scaled down where the diet would pass 10^9.
fn wide_foods(generator: &mut Generator) -> Foods {
    let mut foods = drawn_foods(generator, Generator::sized);
    (0..AGES).for_each(|age| limit_diet(&mut foods, age));
    foods
}

/// Limits exactly, or one inside them; the diet is free to be refused from some age on. Now and then no food at all.
fn limit_foods(generator: &mut Generator) -> Foods {
    if generator.once_in(10) {
        return Foods::default();
    }
    let mut foods = drawn_foods(generator, Generator::at_limits);
    let free_from = generator.index(AGES + 1);
    (0..free_from).for_each(|age| limit_diet(&mut foods, age));
    foods
}

/// Figures drawn within their limits by `draw`, which picks a number up to a limit.
fn drawn_foods(generator: &mut Generator, draw: fn(&mut Generator, u64) -> u64) -> Foods {
    let mut figure = |most: u64| draw(generator, most);
    let mut local_shares = [0; LOCAL_FOODS];
    local_shares[local::VEGETABLE] = figure(LOCAL_SHARES_MOST) as u32;
    local_shares[local::FRUIT] = figure(LOCAL_SHARES_MOST) as u32;
    local_shares[local::FISH] = figure(LOCAL_SHARES_MOST) as u32;
    local_shares[local::GAME] = figure(LOCAL_SHARES_MOST - u64::from(local_shares[local::FISH])) as u32;
    Foods {
        grams: std::array::from_fn(|_| std::array::from_fn(|_| figure(GRAMS_MOST.into()) as u16)),
        leads: std::array::from_fn(|_| figure(LEAD_MOST.into()) as u32),
        local_shares,
        local_leads: std::array::from_fn(|_| figure(LEAD_MOST.into()) as u32),
    }
}

/// Halves the amounts of an age until its diet is within 10^9.
fn limit_diet(foods: &mut Foods, age: usize) {
    while foods.diet(age) > INTAKE_MOST {
        foods.grams[age].iter_mut().for_each(|grams| *grams /= 2);
    }
}

/// What a term of the diet is eaten as.
#[derive(Clone, Copy, Debug, PartialEq, Eq)]
pub enum Eaten {
    /// One of the fifteen foods.
    Food(usize),
    /// One of the four local foods.
    Local(usize),
}

/// All that a term of the diet can be eaten as.
pub fn all_eaten() -> Vec<Eaten> {
    (0..FOODS).map(Eaten::Food).chain((0..LOCAL_FOODS).map(Eaten::Local)).collect()
}

/// The local foods that take from a food's amount.
fn locals_of(food: usize) -> &'static [usize] {
    match food {
        food::CANNED_VEGETABLE | food::FRESH_VEGETABLE => &[local::VEGETABLE],
        food::CANNED_FRUIT | food::FRESH_FRUIT => &[local::FRUIT],
        food::MEAT => &[local::FISH, local::GAME],
        _ => &[],
    }
}

/// The foods whose amounts a local food is a part of.
fn parts_of(local: usize) -> &'static [usize] {
    match local {
        local::VEGETABLE => &[food::CANNED_VEGETABLE, food::FRESH_VEGETABLE],
        local::FRUIT => &[food::CANNED_FRUIT, food::FRESH_FRUIT],
        _ => &[food::MEAT],
    }
}

/// Raises the diet of an age to 10^9 + 1, all of it eaten in this way.
pub fn break_diet(foods: &mut Foods, eaten: Eaten, age: usize) {
    let (grams, lead) = PAST_INTAKE[1];
    eat_alone(foods, eaten, age, grams as u16, lead);
}

/// Makes the diet of an age grams × lead, all of it eaten in this way; the age's other amounts are 0.
pub fn eat_alone(foods: &mut Foods, eaten: Eaten, age: usize, grams: u16, lead: u32) {
    foods.grams[age] = [0; FOODS];
    match eaten {
        Eaten::Food(food) => {
            let locals = locals_of(food);
            locals.iter().for_each(|&local| foods.local_shares[local] = 0);
            foods.leads[food] = lead;
            // Canned and fresh take half of what is not home-grown.
            let is_halved = locals == [local::VEGETABLE] || locals == [local::FRUIT];
            foods.grams[age][food] = if is_halved { 2 * grams } else { grams };
        }
        Eaten::Local(local) => {
            let parts = parts_of(local);
            locals_of(parts[0]).iter().for_each(|&other| foods.local_shares[other] = 0);
            foods.local_shares[local] = LOCAL_SHARES_MOST as u32;
            foods.local_leads[local] = lead;
            // Canned and fresh together, or the meat.
            parts.iter().for_each(|&food| foods.grams[age][food] = grams / parts.len() as u16);
            foods.grams[age][parts[0]] += grams % parts.len() as u16;
        }
    }
}

/// One thing wrong with a foods block.
#[derive(Clone, Copy, Debug, PartialEq, Eq)]
pub enum FoodsFault {
    /// A block of this length.
    Length(usize),
    /// A bit of its check, or of its body, turned.
    Check,
    /// Another edition.
    Edition,
    /// Another number.
    Number,
    /// A reserved byte.
    Reserved,
    /// The share of home-grown vegetable 101.
    VegetableShare,
    /// The share of home-grown fruit 101.
    FruitShare,
    /// The shares of fish and game together 101.
    MeatShares,
    /// The shares of fish and game together 2^32, which is 0 in 32 bits.
    WrappedMeatShares,
    /// The amount of a food at an age one over its limit.
    Grams(usize, usize),
    /// The lead of a food one over its limit.
    Lead(usize),
    /// The lead of a local food one over its limit.
    LocalLead(usize),
    /// The diet of an age over 10^9.
    Diet(Eaten, usize),
}

impl FoodsFault {
    /// The number that a run with this fault alone is refused with.
    pub fn number(self) -> u32 {
        match self {
            FoodsFault::Length(_) => 1,
            FoodsFault::Check => 3,
            FoodsFault::Edition => 4,
            FoodsFault::Number => 5,
            FoodsFault::Reserved => 6,
            FoodsFault::Diet(..) => 9,
            FoodsFault::VegetableShare
            | FoodsFault::FruitShare
            | FoodsFault::MeatShares
            | FoodsFault::WrappedMeatShares => 10,
            FoodsFault::Grams(..) | FoodsFault::Lead(_) | FoodsFault::LocalLead(_) => 11,
        }
    }

    /// Puts a fault into what the figures say.
    pub(super) fn break_figures(self, foods: &mut Foods) {
        match self {
            FoodsFault::VegetableShare => foods.local_shares[local::VEGETABLE] = 101,
            FoodsFault::FruitShare => foods.local_shares[local::FRUIT] = 101,
            FoodsFault::MeatShares => {
                (foods.local_shares[local::FISH], foods.local_shares[local::GAME]) = (50, 51)
            }
            FoodsFault::WrappedMeatShares => {
                (foods.local_shares[local::FISH], foods.local_shares[local::GAME]) = (u32::MAX, 1)
            }
            FoodsFault::Grams(age, food) => foods.grams[age][food] = GRAMS_MOST + 1,
            FoodsFault::Lead(food) => foods.leads[food] = LEAD_MOST + 1,
            FoodsFault::LocalLead(local) => foods.local_leads[local] = LEAD_MOST + 1,
            FoodsFault::Diet(eaten, age) => break_diet(foods, eaten, age),
            _ => {}
        }
    }

    /// Puts a fault into edition, number and reserved bytes, and seals the block.
    pub(super) fn break_frame(self, generator: &mut Generator, block: &mut [u8]) {
        match self {
            FoodsFault::Edition => break_word(generator, block, EDITION_AT),
            FoodsFault::Number => break_word(generator, block, NUMBER_AT),
            FoodsFault::Reserved => break_reserved(generator, block, RESERVED_AT),
            _ => {}
        }
    }

    /// Turns a bit without sealing the block.
    pub(super) fn break_check(self, generator: &mut Generator, block: &mut [u8]) {
        if self == FoodsFault::Check {
            break_bit(generator, block);
        }
    }

    /// Gives the block another length.
    pub(super) fn break_length(self, block: &mut Vec<u8>) {
        if let FoodsFault::Length(length) = self {
            block.resize(length, 0);
        }
    }
}

/// Every fault that the foods reader meets.
pub fn foods_faults() -> Vec<FoodsFault> {
    use FoodsFault::*;
    let mut faults = vec![Check, Edition, Number, Reserved];
    faults.extend([0, 1, 4, RESERVED_AT, 508, 511, 513, 1024].map(Length));
    faults.extend([VegetableShare, FruitShare, MeatShares, WrappedMeatShares]);
    faults.extend((0..AGES).flat_map(|age| (0..FOODS).map(move |food| Grams(age, food))));
    faults.extend((0..FOODS).map(Lead));
    faults.extend((0..LOCAL_FOODS).map(LocalLead));
    faults
}

/// A fault of any kind.
pub fn foods_fault(generator: &mut Generator) -> FoodsFault {
    let (age, food, local) = (generator.index(AGES), generator.index(FOODS), generator.index(LOCAL_FOODS));
    match generator.index(13) {
        0 => FoodsFault::Length(length_off(generator, BLOCK_BYTES)),
        1 => FoodsFault::Check,
        2 => FoodsFault::Edition,
        3 => FoodsFault::Number,
        4 => FoodsFault::Reserved,
        5 => FoodsFault::VegetableShare,
        6 => FoodsFault::FruitShare,
        7 => FoodsFault::MeatShares,
        8 => FoodsFault::WrappedMeatShares,
        9 => FoodsFault::Grams(age, food),
        10 => FoodsFault::Lead(food),
        11 => FoodsFault::LocalLead(local),
        _ => {
            let eaten = all_eaten();
            FoodsFault::Diet(eaten[generator.index(eaten.len())], age)
        }
    }
}
