//! The foods block (request 1): grams of fifteen foods by age, the lead in them, four local foods,
//! and the diet intake that they give (E-4d to E-5v).

use crate::block::{self, word16, word32, Edition, BLOCK_BYTES, EDITION, FIELDS_AT, FIELD_BYTES};
use crate::refusal::Refusal;
use crate::site::AGES;

/// The foods block's number.
pub const FOODS_NUMBER: u16 = 1;
/// Foods with an amount of their own.
pub const FOODS: usize = 15;
/// Foods that take a share of others' amounts.
pub const LOCAL_FOODS: usize = 4;
/// Figures in a foods block: grams by age and food, leads, local shares, local leads.
pub const FOODS_FIGURES: usize = AGES * FOODS + FOODS + 2 * LOCAL_FOODS;
/// Terms of the diet, E-5d to E-5v.
pub const DIET_TERMS: usize = 19;

/// Bytes of an amount.
pub const GRAMS_BYTES: usize = 2;
/// Where the amounts begin, the fifteen of age 0 first.
pub const GRAMS_AT: usize = FIELDS_AT;
/// Where the leads of the fifteen begin.
pub const LEADS_AT: usize = GRAMS_AT + GRAMS_BYTES * AGES * FOODS;
/// Where the shares of the local foods begin.
pub const LOCAL_SHARES_AT: usize = LEADS_AT + FIELD_BYTES * FOODS;
/// Where the leads of the local foods begin.
pub const LOCAL_LEADS_AT: usize = LOCAL_SHARES_AT + FIELD_BYTES * LOCAL_FOODS;
/// Where the reserved bytes begin.
pub const RESERVED_AT: usize = LOCAL_LEADS_AT + FIELD_BYTES * LOCAL_FOODS;

/// Highest amount of a food, g/day.
pub const GRAMS_MOST: u16 = 10_000;
/// Highest lead of a food, pg/g.
pub const LEAD_MOST: u32 = 1_000_000;
/// Highest share, and highest sum of the shares that the same amount is parted by, hundredths.
pub const LOCAL_SHARES_MOST: u64 = 100;

/// Where each food stands among the fifteen, in the order of E-4d to E-4r.
pub mod food {
    /// Beverages (E-4d).
    pub const BEVERAGE: usize = 0;
    /// Bread (E-4e).
    pub const BREAD: usize = 1;
    /// Canned fruit (E-4f).
    pub const CANNED_FRUIT: usize = 2;
    /// Canned vegetable (E-4g).
    pub const CANNED_VEGETABLE: usize = 3;
    /// Candy (E-4h).
    pub const CANDY: usize = 4;
    /// Dairy products (E-4i).
    pub const DAIRY: usize = 5;
    /// Fresh fruit (E-4j).
    pub const FRESH_FRUIT: usize = 6;
    /// Fresh vegetable (E-4k).
    pub const FRESH_VEGETABLE: usize = 7;
    /// Infant formula (E-4l).
    pub const FORMULA: usize = 8;
    /// Infant food (E-4m).
    pub const INFANT: usize = 9;
    /// Juices (E-4n).
    pub const JUICE: usize = 10;
    /// Meat (E-4o), the amount that local fish and game are parts of.
    pub const MEAT: usize = 11;
    /// Nuts (E-4p).
    pub const NUTS: usize = 12;
    /// Pasta (E-4q).
    pub const PASTA: usize = 13;
    /// Sauces (E-4r).
    pub const SAUCE: usize = 14;
}

/// Where each local food stands among the four, in the order of the request.
pub mod local {
    /// Home-grown vegetable, a part of the canned and fresh vegetable.
    pub const VEGETABLE: usize = 0;
    /// Home-grown fruit, a part of the canned and fresh fruit.
    pub const FRUIT: usize = 1;
    /// Fish, a part of the meat.
    pub const FISH: usize = 2;
    /// Game, a part of the meat.
    pub const GAME: usize = 3;
}

/// What a foods block holds.
#[derive(Clone, Copy, Debug, Default, PartialEq, Eq)]
pub struct Foods {
    /// Amounts by age and food, g/day.
    pub grams: [[u16; FOODS]; AGES],
    /// Lead of each food, pg/g.
    pub leads: [u32; FOODS],
    /// Shares of home-grown vegetable and fruit, fish and game, hundredths.
    pub local_shares: [u32; LOCAL_FOODS],
    /// Lead of each local food, pg/g.
    pub local_leads: [u32; LOCAL_FOODS],
}

impl Foods {
    /// The figures of a block of 512 bytes, whatever they are.
    pub fn of_block(block: &[u8]) -> Foods {
        let field = |from: usize, index: usize| word32(block, from + FIELD_BYTES * index);
        let grams = |age: usize, food: usize| word16(block, GRAMS_AT + GRAMS_BYTES * (FOODS * age + food));
        Foods {
            grams: std::array::from_fn(|age| std::array::from_fn(|food| grams(age, food))),
            leads: std::array::from_fn(|food| field(LEADS_AT, food)),
            local_shares: std::array::from_fn(|local| field(LOCAL_SHARES_AT, local)),
            local_leads: std::array::from_fn(|local| field(LOCAL_LEADS_AT, local)),
        }
    }

    /// Puts the figures into a block of 512 bytes without sealing it.
    pub fn put(&self, block: &mut [u8]) {
        let grams = self.grams.as_flattened().iter().flat_map(|grams| grams.to_le_bytes());
        let fields = self.leads.iter().chain(&self.local_shares).chain(&self.local_leads);
        let bytes = grams.chain(fields.flat_map(|field| field.to_le_bytes()));
        for (place, byte) in block[GRAMS_AT..RESERVED_AT].iter_mut().zip(bytes) {
            *place = byte;
        }
    }

    /// The 128 figures in the block's order, as the engine's reader answers them.
    pub fn figures(&self) -> [u32; FOODS_FIGURES] {
        let grams = self.grams.as_flattened().iter().map(|&grams| u32::from(grams));
        let fields = self.leads.iter().chain(&self.local_shares).chain(&self.local_leads);
        let mut figures = [0; FOODS_FIGURES];
        for (place, figure) in figures.iter_mut().zip(grams.chain(fields.copied())) {
            *place = figure;
        }
        figures
    }

    /// Refusal 10: each amount is parted by shares of at most 100 together.
    pub fn shares_fit(&self) -> bool {
        let share = |local: usize| u64::from(self.local_shares[local]);
        let meat = share(local::FISH) + share(local::GAME);
        [meat, share(local::VEGETABLE), share(local::FRUIT)].iter().all(|&shares| shares <= LOCAL_SHARES_MOST)
    }

    /// Refusal 11: amounts at every age and all leads, in use or not.
    pub fn within_limits(&self) -> bool {
        let grams = self.grams.as_flattened().iter().all(|&grams| grams <= GRAMS_MOST);
        let leads = self.leads.iter().chain(&self.local_leads).all(|&lead| lead <= LEAD_MOST);
        grams && leads
    }

    /// The terms of the diet at an age, pg/day, each with its label and at most one floor;
    /// for figures that 10 lets pass.
    pub fn diet_terms(&self, age: usize) -> [(&'static str, u128); DIET_TERMS] {
        use food::*;
        let grams = |food: usize| u128::from(self.grams[age][food]);
        let local_share = |local: usize| u128::from(self.local_shares[local]);
        // What the local foods are parts of, g/day.
        let fruit = grams(CANNED_FRUIT) + grams(FRESH_FRUIT);
        let vegetable = grams(CANNED_VEGETABLE) + grams(FRESH_VEGETABLE);
        // E-4d to E-4r.
        let lead = |food: usize| u128::from(self.leads[food]) * grams(food);
        let local_lead = |local: usize, grams: u128| u128::from(self.local_leads[local]) * grams;
        // E-5a to E-5c, in hundredths.
        let meat_share = 100 - local_share(local::FISH) - local_share(local::GAME);
        let vegetable_share = 100 - local_share(local::VEGETABLE);
        let fruit_share = 100 - local_share(local::FRUIT);
        [
            ("E-5d InMeat", meat_share * lead(MEAT) / 100),
            ("E-5e InCanVeg", vegetable_share * lead(CANNED_VEGETABLE) / 200),
            ("E-5f InFrVeg", vegetable_share * lead(FRESH_VEGETABLE) / 200),
            ("E-5g InCanFruit", fruit_share * lead(CANNED_FRUIT) / 200),
            ("E-5h InFrFruit", fruit_share * lead(FRESH_FRUIT) / 200),
            ("E-5i InHomeFruit", local_share(local::FRUIT) * local_lead(local::FRUIT, fruit) / 100),
            ("E-5j InHomeVeg", local_share(local::VEGETABLE) * local_lead(local::VEGETABLE, vegetable) / 100),
            ("E-5k InFish", local_share(local::FISH) * local_lead(local::FISH, grams(MEAT)) / 100),
            ("E-5l InGame", local_share(local::GAME) * local_lead(local::GAME, grams(MEAT)) / 100),
            ("E-5m InDairy", lead(DAIRY)),
            ("E-5n InJuice", lead(JUICE)),
            ("E-5o InNuts", lead(NUTS)),
            ("E-5p InBread", lead(BREAD)),
            ("E-5q InPasta", lead(PASTA)),
            ("E-5r InBeverage", lead(BEVERAGE)),
            ("E-5s InCandy", lead(CANDY)),
            ("E-5t InSauce", lead(SAUCE)),
            ("E-5u InFormula", lead(FORMULA)),
            ("E-5v InInfant", lead(INFANT)),
        ]
    }

    /// The diet intake at an age, pg/day: the 19 terms together, infant food once and candy among them.
    pub fn diet(&self, age: usize) -> u128 {
        self.diet_terms(age).iter().map(|(_, lead)| lead).sum()
    }
}

/// The foods reader: refusals 1, 3 to 6, 10 and 11 in that order, then the figures.
pub fn read_foods(foods: &[u8]) -> Result<Foods, Refusal> {
    if foods.len() != BLOCK_BYTES {
        return Err(Refusal::Length);
    }
    block::inspect(foods, FOODS_NUMBER, &[Edition { number: EDITION, reserved_at: RESERVED_AT }])?;
    let figures = Foods::of_block(foods);
    if !figures.shares_fit() {
        return Err(Refusal::FoodShares);
    }
    if !figures.within_limits() {
        return Err(Refusal::FoodLimits);
    }
    Ok(figures)
}
