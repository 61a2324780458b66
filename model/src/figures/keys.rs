//! The keys of the text format: what each fills on a card, in which unit, within which limits.

use super::Card;
use crate::cards::published;
use crate::foods::{food, local, GRAMS_MOST, LEAD_MOST, LOCAL_SHARES_MOST};
use crate::leaflet::leaflet;
use crate::site::{away, place, AGES, PLACE_DUST_MOST, PLACE_SHARES_MOST};

/// What a key fills on a card.
#[derive(Clone, Copy, Debug, PartialEq, Eq)]
pub enum Place {
    /// Site fields, the first of which this is.
    Site(usize),
    /// The share of one of the five places away from home.
    AwayShare(usize),
    /// The dust of one of the five places away from home.
    AwayDust(usize),
    /// The grams of one of the fifteen foods, by age.
    Grams(usize),
    /// The lead of one of the fifteen foods.
    Lead(usize),
    /// The share of one of the four local foods.
    Share(usize),
    /// The lead of one of the four local foods.
    LocalLead(usize),
}

use Place::{AwayDust, AwayShare, Grams, Lead, LocalLead, Share, Site};

/// A key of the text format.
#[derive(Clone, Copy, Debug)]
pub struct Key {
    /// The key as written.
    pub name: &'static str,
    /// Its unit as people write it; none for a mode.
    pub unit: &'static str,
    /// What it says.
    pub meaning: &'static str,
    /// What it fills.
    pub place: Place,
    /// Figures it has: 7 for one per age, else 1.
    pub(super) count: usize,
    /// Decimals that the card can keep.
    pub(super) decimals: usize,
}

/// A site key with one figure.
const fn single(
    name: &'static str,
    unit: &'static str,
    meaning: &'static str,
    from: usize,
    decimals: usize,
) -> Key {
    Key { name, unit, meaning, place: Site(from), count: 1, decimals }
}

/// The share of a place away from home.
const fn away_share(name: &'static str, meaning: &'static str, at: usize) -> Key {
    Key { name, unit: "%", meaning, place: AwayShare(at), count: 1, decimals: 0 }
}

/// The dust of a place away from home.
const fn away_dust(name: &'static str, meaning: &'static str, at: usize) -> Key {
    Key { name, unit: "µg/g", meaning, place: AwayDust(at), count: 1, decimals: 3 }
}

/// A food's grams.
const fn grams(name: &'static str, meaning: &'static str, food: usize) -> Key {
    Key { name, unit: "g/day", meaning, place: Grams(food), count: AGES, decimals: 0 }
}

/// The lead in a food.
const fn lead(name: &'static str, meaning: &'static str, place: Place) -> Key {
    Key { name, unit: "µg/g", meaning, place, count: 1, decimals: 6 }
}

/// A local food's share.
const fn share(name: &'static str, meaning: &'static str, local: usize) -> Key {
    Key { name, unit: "%", meaning, place: Share(local), count: 1, decimals: 0 }
}

impl Key {
    /// The same key with a figure per age.
    const fn by_age(self) -> Key {
        Key { count: AGES, ..self }
    }
}

/// Every key, in the order of the site file, its places last, then of the foods block.
pub const KEYS: [Key; 82] = [
    single("air", "µg/m³", "lead in outdoor air", place::AIR, 6).by_age(),
    single("hours_out", "h/day", "hours out of doors", place::HOURS_OUT, 0).by_age(),
    single("breathing", "m³/day", "air breathed", place::BREATHING, 3).by_age(),
    single("air_absorbed", "%", "share of breathed lead absorbed", place::AIR_ABSORBED, 0).by_age(),
    single("diet", "µg/day", "lead eaten in food", place::DIET, 6).by_age(),
    single("water_amount", "L/day", "water drunk", place::WATER_AMOUNT, 3).by_age(),
    single("soil", "µg/g", "lead in soil", place::SOIL, 3).by_age(),
    single("dust", "µg/g", "lead in house dust", place::DUST, 3).by_age(),
    single("eaten", "mg/day", "soil and dust eaten", place::EATEN, 0).by_age(),
    single("alternate", "µg/day", "lead eaten otherwise, as paint", place::ALTERNATE, 6).by_age(),
    single("indoor", "%", "indoor air lead, of outdoor", place::INDOOR, 0),
    single("weight_soil", "%", "share of soil in soil and dust eaten", place::WEIGHT_SOIL, 0),
    single("contribution", "%", "contribution of soil to dust", place::CONTRIBUTION, 0),
    single("air_to_dust", "µg/g per µg/m³", "dust lead per air lead", place::AIR_TO_DUST, 0),
    single("dust_mode", "", "0 dust as given, 1 from soil and air", place::DUST_MODE, 0),
    single("water_mode", "", "0 one figure, 1 three sources", place::WATER_MODE, 0),
    single("water", "µg/L", "lead in water", place::CONSTANT_WATER, 3),
    single("flushed", "µg/L", "lead in flushed water", place::FLUSHED, 3),
    single("first_draw", "µg/L", "lead in first-draw water", place::FIRST_DRAW, 3),
    single("fountain", "µg/L", "lead in fountain water", place::FOUNTAIN, 3),
    single(
        "first_draw_share",
        "%",
        "first-draw share, with the fountain's at most 100",
        place::FIRST_DRAW_SHARE,
        0,
    ),
    single("fountain_share", "%", "fountain share; the rest is flushed", place::FOUNTAIN_SHARE, 0),
    single("absorbed_diet", "%", "share of food lead absorbed", place::ABSORBED, 0),
    single("absorbed_water", "%", "share of water lead absorbed", place::ABSORBED + 1, 0),
    single("absorbed_dust", "%", "share of dust lead absorbed", place::ABSORBED + 2, 0),
    single("absorbed_soil", "%", "share of soil lead absorbed", place::ABSORBED + 3, 0),
    single("absorbed_alternate", "%", "share of alternate lead absorbed", place::ABSORBED + 4, 0),
    single("passive_diet", "%", "passive share of what food gives", place::PASSIVE, 0),
    single("passive_water", "%", "passive share of what water gives", place::PASSIVE + 1, 0),
    single("passive_dust", "%", "passive share of what dust gives", place::PASSIVE + 2, 0),
    single("passive_soil", "%", "passive share of what soil gives", place::PASSIVE + 3, 0),
    single("passive_alternate", "%", "passive share of what alternate gives", place::PASSIVE + 4, 0),
    single("saturation", "µg/day", "half-saturation of the gut at 24 months", place::SATURATION, 6),
    single("mother", "µg/dL", "mother's blood lead at birth", place::MOTHER, 3),
    away_share(
        "work_share",
        "share of a parent's work in the dust eaten; the five shares at most 100",
        away::WORK,
    ),
    away_dust("work_dust", "lead in dust of a parent's work", away::WORK),
    away_share("school_share", "share of the school in the dust eaten", away::SCHOOL),
    away_dust("school_dust", "lead in school dust", away::SCHOOL),
    away_share("daycare_share", "share of the daycare in the dust eaten", away::DAYCARE),
    away_dust("daycare_dust", "lead in daycare dust", away::DAYCARE),
    away_share("second_home_share", "share of a second home in the dust eaten", away::SECOND_HOME),
    away_dust("second_home_dust", "lead in dust of a second home", away::SECOND_HOME),
    away_share(
        "other_share",
        "share of another place in the dust eaten; the rest is house dust",
        away::OTHER,
    ),
    away_dust("other_dust", "lead in dust of another place", away::OTHER),
    grams("beverage_grams", "beverages", food::BEVERAGE),
    grams("bread_grams", "bread", food::BREAD),
    grams("canned_fruit_grams", "canned fruit, home-grown too", food::CANNED_FRUIT),
    grams("canned_vegetable_grams", "canned vegetable, home-grown too", food::CANNED_VEGETABLE),
    grams("candy_grams", "candy", food::CANDY),
    grams("dairy_grams", "dairy products", food::DAIRY),
    grams("fresh_fruit_grams", "fresh fruit, home-grown too", food::FRESH_FRUIT),
    grams("fresh_vegetable_grams", "fresh vegetable, home-grown too", food::FRESH_VEGETABLE),
    grams("formula_grams", "infant formula", food::FORMULA),
    grams("infant_food_grams", "infant food other than formula", food::INFANT),
    grams("juice_grams", "juice", food::JUICE),
    grams("meat_grams", "meat, fish and game too", food::MEAT),
    grams("nuts_grams", "nuts", food::NUTS),
    grams("pasta_grams", "pasta", food::PASTA),
    grams("sauce_grams", "sauce", food::SAUCE),
    lead("beverage_lead", "lead in beverages", Lead(food::BEVERAGE)),
    lead("bread_lead", "lead in bread", Lead(food::BREAD)),
    lead("canned_fruit_lead", "lead in canned fruit from the shop", Lead(food::CANNED_FRUIT)),
    lead("canned_vegetable_lead", "lead in canned vegetable from the shop", Lead(food::CANNED_VEGETABLE)),
    lead("candy_lead", "lead in candy", Lead(food::CANDY)),
    lead("dairy_lead", "lead in dairy products", Lead(food::DAIRY)),
    lead("fresh_fruit_lead", "lead in fresh fruit from the shop", Lead(food::FRESH_FRUIT)),
    lead("fresh_vegetable_lead", "lead in fresh vegetable from the shop", Lead(food::FRESH_VEGETABLE)),
    lead("formula_lead", "lead in infant formula", Lead(food::FORMULA)),
    lead("infant_food_lead", "lead in infant food other than formula", Lead(food::INFANT)),
    lead("juice_lead", "lead in juice", Lead(food::JUICE)),
    lead("meat_lead", "lead in meat from the shop", Lead(food::MEAT)),
    lead("nuts_lead", "lead in nuts", Lead(food::NUTS)),
    lead("pasta_lead", "lead in pasta", Lead(food::PASTA)),
    lead("sauce_lead", "lead in sauce", Lead(food::SAUCE)),
    share("home_vegetable_share", "home-grown share of the vegetable, canned and fresh", local::VEGETABLE),
    share("home_fruit_share", "home-grown share of the fruit, canned and fresh", local::FRUIT),
    share("fish_share", "share of fish in the meat, with game's at most 100", local::FISH),
    share("game_share", "share of game in the meat; the rest is from the shop", local::GAME),
    lead("home_vegetable_lead", "lead in home-grown vegetable", LocalLead(local::VEGETABLE)),
    lead("home_fruit_lead", "lead in home-grown fruit", LocalLead(local::FRUIT)),
    lead("fish_lead", "lead in fish", LocalLead(local::FISH)),
    lead("game_lead", "lead in game", LocalLead(local::GAME)),
];

/// Where the key of a place stands in `KEYS`.
pub(super) fn index_of(place: Place) -> usize {
    KEYS.iter().position(|key| key.place == place).expect("the first place of a key")
}

/// The key of a place.
pub(super) fn key_of(place: Place) -> &'static Key {
    &KEYS[index_of(place)]
}

impl Key {
    /// Whether it is a figure of a place away from home.
    pub fn is_of_places(&self) -> bool {
        matches!(self.place, AwayShare(_) | AwayDust(_))
    }

    /// Whether it is a figure of the foods block.
    pub fn is_of_foods(&self) -> bool {
        !matches!(self.place, Site(_)) && !self.is_of_places()
    }

    /// Its figures on a card; those of foods that a card lacks are the published ones, those of places 0.
    pub fn of(&self, card: &Card) -> Vec<u32> {
        let places = || card.places.unwrap_or_default().0;
        let foods = || card.foods.unwrap_or_else(published::foods);
        match self.place {
            Site(from) => card.site[from..from + self.count].to_vec(),
            AwayShare(at) => vec![places()[at].share],
            AwayDust(at) => vec![places()[at].dust],
            Grams(food) => foods().grams.map(|at_age| at_age[food].into()).to_vec(),
            Lead(food) => vec![foods().leads[food]],
            Share(local) => vec![foods().local_shares[local]],
            LocalLead(local) => vec![foods().local_leads[local]],
        }
    }

    /// Puts its figures, within their limits, on a card; a place's give the card places, a food's a foods block.
    pub fn put(&self, card: &mut Card, figures: &[u32]) {
        match self.place {
            Site(from) => card.site[from..from + self.count].copy_from_slice(figures),
            AwayShare(at) => card.places_due().0[at].share = figures[0],
            AwayDust(at) => card.places_due().0[at].dust = figures[0],
            Grams(food) => {
                for (at_age, grams) in card.foods_due().grams.iter_mut().zip(figures) {
                    at_age[food] = u16::try_from(*grams).expect("grams within their limit");
                }
            }
            Lead(food) => card.foods_due().leads[food] = figures[0],
            Share(local) => card.foods_due().local_shares[local] = figures[0],
            LocalLead(local) => card.foods_due().local_leads[local] = figures[0],
        }
    }

    /// The lowest of its figures; all ages have the same.
    pub(super) fn least(&self) -> u32 {
        match self.place {
            Site(_) => leaflet().line(self.name).least,
            _ => 0,
        }
    }

    /// The highest of its figures. The leaflet has the 94 fields alone: the limits of places and foods are the model's.
    pub(super) fn most(&self) -> u32 {
        match self.place {
            Site(_) => leaflet().line(self.name).most,
            AwayShare(_) => PLACE_SHARES_MOST,
            AwayDust(_) => PLACE_DUST_MOST,
            Grams(_) => GRAMS_MOST.into(),
            Lead(_) | LocalLead(_) => LEAD_MOST,
            Share(_) => LOCAL_SHARES_MOST as u32,
        }
    }

    /// A figure of a card as people write it, without needless zeros.
    pub fn shown(&self, value: u32) -> String {
        let scale = 10u32.pow(self.decimals as u32);
        let (whole, part) = (value / scale, value % scale);
        if part == 0 {
            return whole.to_string();
        }
        let text = format!("{whole}.{part:0width$}", width = self.decimals);
        text.trim_end_matches('0').to_string()
    }

    /// The same with its unit.
    pub(super) fn with_unit(&self, value: u32) -> String {
        format!("{} {}", self.shown(value), self.unit).trim_end().to_string()
    }
}
