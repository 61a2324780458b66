//! Every place of a site file, its places away from home, a foods block, a row, a state and a card's row by its name, as the model has it.

use jurengate_model::book::column;
use jurengate_model::card::field;
use jurengate_model::foods::{food, local, FOODS as FOOD_COUNT, LOCAL_FOODS};
use jurengate_model::site::{away, place, AGES};
use jurengate_model::state::{compartment, ledger, COMPARTMENTS};

/// A name, the first place that it stands for, and how many.
pub type Place = (&'static str, usize, usize);

/// The fields of a site file: a field for each age, then those that stand singly.
pub const SITE: [Place; 34] = [
    ("air", place::AIR, AGES),
    ("hours_out", place::HOURS_OUT, AGES),
    ("breathing", place::BREATHING, AGES),
    ("air_absorbed", place::AIR_ABSORBED, AGES),
    ("diet", place::DIET, AGES),
    ("water_amount", place::WATER_AMOUNT, AGES),
    ("soil", place::SOIL, AGES),
    ("dust", place::DUST, AGES),
    ("eaten", place::EATEN, AGES),
    ("alternate", place::ALTERNATE, AGES),
    ("indoor", place::INDOOR, 1),
    ("weight_soil", place::WEIGHT_SOIL, 1),
    ("contribution", place::CONTRIBUTION, 1),
    ("air_to_dust", place::AIR_TO_DUST, 1),
    ("dust_mode", place::DUST_MODE, 1),
    ("water_mode", place::WATER_MODE, 1),
    ("water", place::CONSTANT_WATER, 1),
    ("flushed", place::FLUSHED, 1),
    ("first_draw", place::FIRST_DRAW, 1),
    ("fountain", place::FOUNTAIN, 1),
    ("first_draw_share", place::FIRST_DRAW_SHARE, 1),
    ("fountain_share", place::FOUNTAIN_SHARE, 1),
    ("absorbed_diet", place::ABSORBED, 1),
    ("absorbed_water", place::ABSORBED + 1, 1),
    ("absorbed_dust", place::ABSORBED + 2, 1),
    ("absorbed_soil", place::ABSORBED + 3, 1),
    ("absorbed_alternate", place::ABSORBED + 4, 1),
    ("passive_diet", place::PASSIVE, 1),
    ("passive_water", place::PASSIVE + 1, 1),
    ("passive_dust", place::PASSIVE + 2, 1),
    ("passive_soil", place::PASSIVE + 3, 1),
    ("passive_alternate", place::PASSIVE + 4, 1),
    ("saturation", place::SATURATION, 1),
    ("mother", place::MOTHER, 1),
];

/// The figures of the places away from home: a share and a dust figure each.
#[allow(dead_code)] // not every file of tests has them
pub const AWAY: [Place; 10] = [
    ("work_share", 2 * away::WORK, 1),
    ("work_dust", 2 * away::WORK + 1, 1),
    ("school_share", 2 * away::SCHOOL, 1),
    ("school_dust", 2 * away::SCHOOL + 1, 1),
    ("daycare_share", 2 * away::DAYCARE, 1),
    ("daycare_dust", 2 * away::DAYCARE + 1, 1),
    ("second_home_share", 2 * away::SECOND_HOME, 1),
    ("second_home_dust", 2 * away::SECOND_HOME + 1, 1),
    ("other_share", 2 * away::OTHER, 1),
    ("other_dust", 2 * away::OTHER + 1, 1),
];

/// Where the leads of the fifteen foods, the local shares and the local leads begin among the figures.
const LEADS: usize = AGES * FOOD_COUNT;
const SHARES: usize = LEADS + FOOD_COUNT;
const LOCAL_LEADS: usize = SHARES + LOCAL_FOODS;

/// The figures of a foods block: grams, of which those of an age stand fifteen places behind the age before, then
/// those that stand singly.
pub const FOODS: [Place; 38] = [
    ("beverage_grams", food::BEVERAGE, AGES),
    ("bread_grams", food::BREAD, AGES),
    ("canned_fruit_grams", food::CANNED_FRUIT, AGES),
    ("canned_vegetable_grams", food::CANNED_VEGETABLE, AGES),
    ("candy_grams", food::CANDY, AGES),
    ("dairy_grams", food::DAIRY, AGES),
    ("fresh_fruit_grams", food::FRESH_FRUIT, AGES),
    ("fresh_vegetable_grams", food::FRESH_VEGETABLE, AGES),
    ("formula_grams", food::FORMULA, AGES),
    ("infant_food_grams", food::INFANT, AGES),
    ("juice_grams", food::JUICE, AGES),
    ("meat_grams", food::MEAT, AGES),
    ("nuts_grams", food::NUTS, AGES),
    ("pasta_grams", food::PASTA, AGES),
    ("sauce_grams", food::SAUCE, AGES),
    ("beverage_lead", LEADS + food::BEVERAGE, 1),
    ("bread_lead", LEADS + food::BREAD, 1),
    ("canned_fruit_lead", LEADS + food::CANNED_FRUIT, 1),
    ("canned_vegetable_lead", LEADS + food::CANNED_VEGETABLE, 1),
    ("candy_lead", LEADS + food::CANDY, 1),
    ("dairy_lead", LEADS + food::DAIRY, 1),
    ("fresh_fruit_lead", LEADS + food::FRESH_FRUIT, 1),
    ("fresh_vegetable_lead", LEADS + food::FRESH_VEGETABLE, 1),
    ("formula_lead", LEADS + food::FORMULA, 1),
    ("infant_food_lead", LEADS + food::INFANT, 1),
    ("juice_lead", LEADS + food::JUICE, 1),
    ("meat_lead", LEADS + food::MEAT, 1),
    ("nuts_lead", LEADS + food::NUTS, 1),
    ("pasta_lead", LEADS + food::PASTA, 1),
    ("sauce_lead", LEADS + food::SAUCE, 1),
    ("home_vegetable_share", SHARES + local::VEGETABLE, 1),
    ("home_fruit_share", SHARES + local::FRUIT, 1),
    ("fish_share", SHARES + local::FISH, 1),
    ("game_share", SHARES + local::GAME, 1),
    ("home_vegetable_lead", LOCAL_LEADS + local::VEGETABLE, 1),
    ("home_fruit_lead", LOCAL_LEADS + local::FRUIT, 1),
    ("fish_lead", LOCAL_LEADS + local::FISH, 1),
    ("game_lead", LOCAL_LEADS + local::GAME, 1),
];

/// The numbers of a row.
pub const ROW: [Place; 23] = [
    ("blood_volume", column::VB, 1),
    ("plasma_volume", column::VP, 1),
    ("body_weight", column::BODY, 1),
    ("kidney", column::KIDNEY, 1),
    ("liver", column::LIVER, 1),
    ("other", column::OTHER, 1),
    ("trabecular", column::TRABECULAR, 1),
    ("cortical", column::CORTICAL, 1),
    ("to_red_cells", column::OUT, 1),
    ("to_liver", column::OUT + 1, 1),
    ("to_kidney", column::OUT + 2, 1),
    ("to_other", column::OUT + 3, 1),
    ("to_trabecular", column::OUT + 4, 1),
    ("to_cortical", column::OUT + 5, 1),
    ("to_urine", column::URINE, 1),
    ("from_red_cells", column::BACK, 1),
    ("from_liver", column::BACK + 1, 1),
    ("from_kidney", column::BACK + 2, 1),
    ("from_other", column::BACK + 3, 1),
    ("from_trabecular", column::BACK + 4, 1),
    ("from_cortical", column::BACK + 5, 1),
    ("faeces", column::FAECES, 1),
    ("skin", column::SKIN, 1),
];

/// The words of a state: the month, the compartments, the ledgers.
#[allow(dead_code)] // the format has no state
pub const STATE: [Place; 11] = [
    ("month", 0, 1),
    ("plasma", 1 + compartment::PLASMA, 1),
    ("red_cells", 1 + compartment::RED_CELLS, 1),
    ("liver", 1 + compartment::LIVER, 1),
    ("kidney", 1 + compartment::KIDNEY, 1),
    ("other", 1 + compartment::OTHER, 1),
    ("trabecular", 1 + compartment::TRABECULAR, 1),
    ("cortical", 1 + compartment::CORTICAL, 1),
    ("urine", 1 + COMPARTMENTS + ledger::URINE, 1),
    ("faeces", 1 + COMPARTMENTS + ledger::FAECES, 1),
    ("skin", 1 + COMPARTMENTS + ledger::SKIN, 1),
];

/// The fields of a row of a batch card.
#[allow(dead_code)] // not every file of tests has cards
pub const CARD: [Place; 12] = [
    ("id", field::ID, 1),
    ("fam", field::FAM, 1),
    ("block", field::BLOCK, 1),
    ("age", field::AGE, 1),
    ("soil", field::SOIL, 1),
    ("dust", field::DUST, 1),
    ("water", field::WATER, 1),
    ("air", field::AIR, 1),
    ("other", field::OTHER, 1),
    ("pbb", field::PBB, 1),
    ("abssoil", field::ABSSOIL, 1),
    ("absdust", field::ABSDUST, 1),
];
