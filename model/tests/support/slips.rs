//! What can be wrong with a call that has a foods block, each slip with its place in the order of refusals.

use crate::unabsorbed;
use jurengate_model::book::{column, BOOK_BLOCKS};
use jurengate_model::cards::{curves, published};
use jurengate_model::foods::{food, local};
use jurengate_model::random::{
    self, damaged_with_foods, Eaten, Fault, FoodsFault, Generator, Intake, Range, RowFault, Turn,
};
use jurengate_model::site::{place, AGES, SITE_FIELDS};
use jurengate_model::state::{State, BURDEN_LIMIT, MONTHS};

/// The month of the state that a month call gets: the call lives month 25, the first of age 2.
const MONTH: u64 = 24;
/// The age that this month call looks at.
const AGE: usize = 2;

/// One thing wrong with a call.
#[derive(Clone, Copy, Debug, PartialEq, Eq)]
pub enum Slip {
    /// With its files.
    File(Fault),
    /// The run's list has another length.
    List,
    /// The newborn is over the burden limit.
    Birth,
    /// The state is none.
    NoState,
    /// The state's month is 84.
    LastMonth,
    /// The state has no room for the month's uptake.
    FullBurden,
}

impl Slip {
    /// The number that a call with this slip alone is refused with.
    pub fn number(self) -> u32 {
        match self {
            Slip::File(fault) => fault.number(),
            Slip::List => 2,
            Slip::NoState => 20,
            Slip::LastMonth => 21,
            Slip::Birth | Slip::FullBurden => 22,
        }
    }

    /// The months that a run does before it.
    pub fn months(self) -> u32 {
        match self {
            Slip::File(Fault::Intake(_, age) | Fault::Foods(FoodsFault::Diet(_, age))) => 12 * age as u32,
            _ => 0,
        }
    }

    /// Where it stands in the order of refusals: by its turn, then by its number.
    fn order(self) -> (Turn, u32) {
        let turn = match self {
            Slip::File(fault) => fault.order().0,
            Slip::List => Turn::Lengths,
            Slip::Birth | Slip::NoState | Slip::LastMonth => Turn::State,
            Slip::FullBurden => Turn::Age(AGE),
        };
        (turn, self.number())
    }
}

/// A fault of each kind in the files: of lengths, of each block's frame, of what it says.
fn file_slips() -> Vec<Slip> {
    use FoodsFault::*;
    let mut faults = vec![Fault::SiteLength(0), Fault::SiteLength(511), Fault::BookLength(8_703)];
    faults.extend([Fault::SiteCheck, Fault::SiteEdition, Fault::SiteNumber, Fault::SiteReserved]);
    faults.extend([Fault::SiteRelabelled, Fault::PlaceShare(0), Fault::PlaceDust(4), Fault::PlaceShares]);
    faults.extend([Fault::SiteField(place::AIR), Fault::SiteField(place::DIET + AGE)]);
    faults.extend([Fault::Shares, Fault::SaturationLow]);
    let foods = [Length(0), Length(511), Length(513), Check, Edition, Number, Reserved];
    faults.extend(foods.map(Fault::Foods));
    faults.extend([VegetableShare, FruitShare, MeatShares, WrappedMeatShares].map(Fault::Foods));
    let figures = [Grams(0, food::BEVERAGE), Grams(6, food::SAUCE), Lead(food::MEAT), LocalLead(local::GAME)];
    faults.extend(figures.map(Fault::Foods));
    for block in [0, BOOK_BLOCKS - 1] {
        faults.extend([Fault::BlockCheck(block), Fault::BlockEdition(block)]);
        faults.extend([Fault::BlockNumber(block), Fault::BlockReserved(block)]);
    }
    faults.extend([Fault::Row(0, RowFault::BodyHigh), Fault::Row(84, RowFault::Outflow)]);
    faults.into_iter().map(Slip::File).collect()
}

/// Intakes over 10^9 at an age, by the site and by the foods.
fn intake_slips(age: usize) -> [Slip; 4] {
    let diet = |eaten: Eaten| Fault::Foods(FoodsFault::Diet(eaten, age));
    let faults = [
        Fault::Intake(Intake::Air, age),
        Fault::Intake(Intake::GivenDust, age),
        diet(Eaten::Food(food::CANDY)),
        diet(Eaten::Local(local::GAME)),
    ];
    faults.map(Slip::File)
}

/// Every kind of slip of a month call.
pub fn month_slips() -> Vec<Slip> {
    let state = vec![Slip::NoState, Slip::LastMonth, Slip::FullBurden];
    [file_slips(), intake_slips(AGE).to_vec(), state].concat()
}

/// Every kind of slip of a run, intakes at the first age and at the last.
pub fn run_slips() -> Vec<Slip> {
    let intakes = [intake_slips(0), intake_slips(AGES - 1)].concat();
    [file_slips(), intakes, vec![Slip::List, Slip::Birth]].concat()
}

/// The slip that is answered: the first of the order.
pub fn first(slips: &[Slip]) -> Slip {
    *slips.iter().min_by_key(|slip| slip.order()).expect("one slip at least")
}

/// Each slip alone, and every two.
pub fn ones_and_twos(slips: &[Slip]) -> Vec<Vec<Slip>> {
    let mut all = Vec::new();
    for (index, &one) in slips.iter().enumerate() {
        all.push(vec![one]);
        all.extend(slips[index + 1..].iter().map(|&other| vec![one, other]));
    }
    all
}

/// What a call is handed.
pub struct Handed {
    pub site: Vec<u8>,
    pub foods: Vec<u8>,
    pub book: Vec<u8>,
    pub state: State,
    pub list_length: usize,
}

/// A month call with these slips; without them it would be accepted.
pub fn month_call(generator: &mut Generator, slips: &[Slip]) -> Handed {
    handed(generator, slips, published::fields())
}

/// A run with these slips; without them it would be accepted. Nothing is absorbed, so that it comes to its last age.
pub fn run_call(generator: &mut Generator, slips: &[Slip]) -> Handed {
    handed(generator, slips, unabsorbed::fields())
}

fn handed(generator: &mut Generator, slips: &[Slip], mut fields: [u32; SITE_FIELDS]) -> Handed {
    let mut rows = curves::rows();
    if slips.contains(&Slip::Birth) {
        fields[place::MOTHER] = 100_000;
        rows[0][column::CORTICAL] = 50_000;
    }
    let faults: Vec<Fault> = slips.iter().filter_map(|slip| file_fault(*slip)).collect();
    let foods = random::foods(generator, Range::Near);
    let (site, foods, book) = damaged_with_foods(generator, &fields, &foods, &rows, &faults);
    let list_length = if slips.contains(&Slip::List) { MONTHS - 1 } else { MONTHS };
    Handed { site, foods, book, state: state(slips), list_length }
}

fn file_fault(slip: Slip) -> Option<Fault> {
    match slip {
        Slip::File(fault) => Some(fault),
        _ => None,
    }
}

fn state(slips: &[Slip]) -> State {
    let mut state = State { month: MONTH, compartments: [1_000_000; 7], ledgers: [1_000; 3] };
    let full = [BURDEN_LIMIT as u64, 0, 0, 0, 0, 0, 0];
    if slips.contains(&Slip::LastMonth) {
        state.month = MONTHS as u64;
    }
    if slips.contains(&Slip::FullBurden) {
        state.compartments = full;
    }
    if slips.contains(&Slip::NoState) {
        state.compartments = full.map(|lead| lead + 1);
    }
    state
}
