//! The refusal numbers of document 01, "Calls and refusal numbers", and of requests 1, 2 and 7.

use std::fmt;

/// Why a call was refused; the discriminant is the paper's number.
#[derive(Clone, Copy, Debug, PartialEq, Eq)]
pub enum Refusal {
    /// A wrong length: site, foods, book, writer's body or target.
    Length = 1,
    /// The blood list is not 84 long.
    BloodList = 2,
    /// A block's check is wrong.
    Check = 3,
    /// A block's edition is not 1, and not 2 either in a site file; or a converter's site file has not the one due.
    Edition = 4,
    /// A block's number is not the one due there.
    Number = 5,
    /// A reserved byte is not zero.
    Reserved = 6,
    /// A site field, the sum of the two water shares, or a share or dust figure of a place is outside its limits.
    SiteLimits = 7,
    /// A book row is outside its limits.
    BookLimits = 8,
    /// An air, water, soil or dust intake of this month's age, or its diet from foods, is over 10^9.
    Intake = 9,
    /// The shares of fish and game together, or that of home-grown vegetable or fruit, are over 100.
    FoodShares = 10,
    /// An amount of a food is over 10,000, or a lead over 1,000,000.
    FoodLimits = 11,
    /// A card row has not twelve fields, or one that is over 8 bytes or no figure where one is due.
    CardRow = 12,
    /// The shares of the five places are over 100 together.
    PlaceShares = 13,
    /// A share of a place is above 0, which edition 1 has no room for.
    ShareAbove0 = 14,
    /// What was handed in is no state.
    NoState = 20,
    /// The state's month is 84 already.
    LastMonth = 21,
    /// Burden plus uptake is over 5×10^10, at birth or at some step.
    Burden = 22,
}

/// The number of an accepted call.
pub const ACCEPTED: u32 = 0;

impl Refusal {
    /// The paper's number.
    pub fn number(self) -> u32 {
        self as u32
    }
}

impl fmt::Display for Refusal {
    fn fmt(&self, f: &mut fmt::Formatter) -> fmt::Result {
        let why = match self {
            Refusal::Length => "its length is wrong",
            Refusal::BloodList => "the list of blood figures is not 84 long",
            Refusal::Check => "the check of a block is wrong: it was damaged or changed",
            Refusal::Edition => "the edition of a block is not one that is due there",
            Refusal::Number => "a block is not the one due there",
            Refusal::Reserved => "a reserved byte is not zero",
            Refusal::SiteLimits => "a figure is outside its limits",
            Refusal::BookLimits => "a row of the book is outside its limits",
            Refusal::Intake => "an intake of air, water, soil, dust or foods is over its limit",
            Refusal::FoodShares => "fish and game together, or home-grown vegetable or fruit, are over 100 %",
            Refusal::FoodLimits => "an amount of a food, or the lead in it, is over its limit",
            Refusal::CardRow => "a row has not twelve fields, or one that is too long or no figure",
            Refusal::PlaceShares => "the shares of the five places are over 100 % together",
            Refusal::ShareAbove0 => "a share of a place is above 0, and edition 1 has no places",
            Refusal::NoState => "what was handed in is no state",
            Refusal::LastMonth => "the state's month is 84 already",
            Refusal::Burden => "the lead in the body is over its limit",
        };
        write!(f, "refused with {}: {why}", self.number())
    }
}

/// 0 for an accepted result, the refusal's number for a refused one.
pub fn number_of<T>(result: &Result<T, Refusal>) -> u32 {
    match result {
        Ok(_) => ACCEPTED,
        Err(refusal) => refusal.number(),
    }
}
