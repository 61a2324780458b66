//! The foods block of request 1: its worked figure, its bytes, its refusals and their order, and the diet it brings.

#[path = "support/slips.rs"]
mod slips;
#[path = "support/unabsorbed.rs"]
mod unabsorbed;

use jurengate_model::block::{word32, BLOCK_BYTES, BODY_BYTES};
use jurengate_model::cards::{self, curves, foods_file, published};
use jurengate_model::engine::{
    birth, birth_foods, month, month_foods, read_files, run, run_foods, BirthAnswer, MonthAnswer, RunAnswer,
};
use jurengate_model::foods::{food, local, read_foods, Foods, FOODS, LOCAL_FOODS};
use jurengate_model::random::{
    self, all_eaten, damaged_with_foods, eat_alone, foods_faults, Eaten, Fault, FoodsFault, Generator, Range,
};
use jurengate_model::refusal::{number_of, Refusal};
use jurengate_model::site::{place, AGES, SITE_FIELDS};
use jurengate_model::state::{State, MONTHS};
use jurengate_model::uptake::intakes;
use slips::{first, month_call, month_slips, ones_and_twos, run_call, run_slips, Slip};
use std::collections::BTreeSet;

/// The worked figure: one age's grams of the fifteen foods, then their leads, in the order E-4d to E-4r.
const GRAMS: [u16; FOODS] = [63, 32, 10, 4, 6, 171, 36, 34, 124, 20, 53, 35, 6, 40, 1];
const LEADS: [u32; FOODS] = [7, 11, 13, 17, 19, 3, 23, 29, 5, 33, 37, 41, 43, 47, 53];
/// Shares and leads of home-grown vegetable and fruit, fish and game.
const LOCAL_SHARES: [u32; LOCAL_FOODS] = [37, 25, 30, 15];
const LOCAL_LEADS: [u32; LOCAL_FOODS] = [61, 67, 71, 73];

/// The worked figure's terms and their sum, pg/day.
const TERMS: [(&str, u128); 19] = [
    ("E-5d InMeat", 789),
    ("E-5e InCanVeg", 21),
    ("E-5f InFrVeg", 310),
    ("E-5g InCanFruit", 48),
    ("E-5h InFrFruit", 310),
    ("E-5i InHomeFruit", 770),
    ("E-5j InHomeVeg", 857),
    ("E-5k InFish", 745),
    ("E-5l InGame", 383),
    ("E-5m InDairy", 513),
    ("E-5n InJuice", 1_961),
    ("E-5o InNuts", 258),
    ("E-5p InBread", 352),
    ("E-5q InPasta", 1_880),
    ("E-5r InBeverage", 441),
    ("E-5s InCandy", 114),
    ("E-5t InSauce", 53),
    ("E-5u InFormula", 620),
    ("E-5v InInfant", 660),
];
const DIET: u128 = 11_085;

/// What the lent list holds before a run.
const BEFORE: u32 = 0xDEAD_BEEF;

/// The worked figure at age 0, nothing eaten at the others.
fn worked() -> Foods {
    let mut grams = [[0; FOODS]; AGES];
    grams[0] = GRAMS;
    Foods { grams, leads: LEADS, local_shares: LOCAL_SHARES, local_leads: LOCAL_LEADS }
}

/// A run over a list whose old content is known.
fn run_list(site: &[u8], foods: Option<&[u8]>, book: &[u8]) -> (RunAnswer, [u32; MONTHS]) {
    let mut blood = [BEFORE; MONTHS];
    let answer = run_foods(site, foods, book, &mut blood);
    (answer, blood)
}

#[test]
fn the_worked_figures_terms_and_diet() {
    assert_eq!(worked().diet_terms(0), TERMS);
    assert_eq!(worked().diet(0), DIET);
    assert!((1..AGES).all(|age| worked().diet(age) == 0));
}

/// Works out the readings that docs/DECISIONS.md 48 and 49 refuse: with the worked figure the model has none of them.
#[test]
fn refused_readings_give_other_diets() {
    let grams = |food: usize| u128::from(GRAMS[food]);
    let lead = |food: usize| u128::from(LEADS[food]);
    let bought = |local: usize| 100 - u128::from(LOCAL_SHARES[local]);
    let halved = [
        (food::CANNED_VEGETABLE, food::FRESH_VEGETABLE, local::VEGETABLE),
        (food::FRESH_VEGETABLE, food::CANNED_VEGETABLE, local::VEGETABLE),
        (food::CANNED_FRUIT, food::FRESH_FRUIT, local::FRUIT),
        (food::FRESH_FRUIT, food::CANNED_FRUIT, local::FRUIT),
    ];
    let half_of = |food: usize, local: usize| bought(local) * lead(food) * grams(food) / 200;
    let rest = DIET - halved.iter().map(|&(food, _, local)| half_of(food, local)).sum::<u128>();
    // Canned and fresh each half of the grams of both.
    let evened = halved
        .map(|(food, other, local)| bought(local) * lead(food) * (grams(food) + grams(other)) / 200)
        .iter()
        .sum::<u128>();
    let whole =
        halved.map(|(food, _, local)| bought(local) * lead(food) * grams(food) / 100).iter().sum::<u128>();
    let infant_twice = DIET + lead(food::INFANT) * grams(food::INFANT);
    let no_candy = DIET - lead(food::CANDY) * grams(food::CANDY);
    let refused = [rest + evened, rest + whole, infant_twice, no_candy, one_floor_diet()];
    assert_eq!(refused, [11_566, 11_777, 11_745, 10_971, 11_089]);
    assert!(!refused.contains(&worked().diet(0)));
}

/// The worked figure's diet with one floor for the whole sum.
fn one_floor_diet() -> u128 {
    let grams = |food: usize| u128::from(GRAMS[food]);
    let lead = |food: usize| u128::from(LEADS[food]) * grams(food);
    let share = |local: usize| u128::from(LOCAL_SHARES[local]);
    let local = |local: usize, grams: u128| share(local) * u128::from(LOCAL_LEADS[local]) * grams;
    let split = [food::MEAT, food::CANNED_VEGETABLE, food::FRESH_VEGETABLE];
    let split = [&split[..], &[food::CANNED_FRUIT, food::FRESH_FRUIT]].concat();
    let whole = (0..FOODS).filter(|food| !split.contains(food)).map(lead).sum::<u128>();
    let hundredths = (100 - share(local::FISH) - share(local::GAME)) * lead(food::MEAT)
        + local(local::VEGETABLE, grams(food::CANNED_VEGETABLE) + grams(food::FRESH_VEGETABLE))
        + local(local::FRUIT, grams(food::CANNED_FRUIT) + grams(food::FRESH_FRUIT))
        + local(local::FISH, grams(food::MEAT))
        + local(local::GAME, grams(food::MEAT));
    let halves = (100 - share(local::VEGETABLE))
        * (lead(food::CANNED_VEGETABLE) + lead(food::FRESH_VEGETABLE))
        + (100 - share(local::FRUIT)) * (lead(food::CANNED_FRUIT) + lead(food::FRESH_FRUIT));
    (200 * whole + 2 * hundredths + halves) / 200
}

/// The diet of one gram with this lead, of which one hundredth is bought, or grown, caught or hunted.
fn a_hundredth(eaten: Eaten, lead: u32) -> u128 {
    let mut foods = Foods::default();
    match eaten {
        Eaten::Food(food) => {
            (foods.grams[0][food], foods.leads[food]) = (1, lead);
            foods.local_shares = [99, 99, 60, 39];
        }
        Eaten::Local(local) => {
            let food = [food::CANNED_VEGETABLE, food::FRESH_FRUIT, food::MEAT, food::MEAT][local];
            foods.grams[0][food] = 1;
            (foods.local_shares[local], foods.local_leads[local]) = (1, lead);
        }
    }
    foods.diet(0)
}

/// Each food that is split has its own floor, over 100 or 200, and no earlier one.
#[test]
fn a_hundredth_of_a_split_food_is_floored_once() {
    let halved = [food::CANNED_VEGETABLE, food::FRESH_VEGETABLE, food::CANNED_FRUIT, food::FRESH_FRUIT]
        .map(Eaten::Food);
    for eaten in halved {
        assert_eq!([199, 200, 399, 400].map(|lead| a_hundredth(eaten, lead)), [0, 1, 1, 2], "{eaten:?}");
    }
    for eaten in [Eaten::Food(food::MEAT)].into_iter().chain((0..LOCAL_FOODS).map(Eaten::Local)) {
        assert_eq!([99, 100, 199, 200].map(|lead| a_hundredth(eaten, lead)), [0, 1, 1, 2], "{eaten:?}");
    }
}

#[test]
fn the_worked_figures_check() {
    let check = |foods: &Foods| word32(&foods_file(foods), BODY_BYTES);
    assert_eq!(check(&worked()), 109_834);
    assert_eq!(check(&Foods::default()), 3);
}

/// A block laid out by the request's bytes, no two figures alike.
#[test]
fn every_figure_stands_in_its_bytes() {
    let mut block = vec![0; BLOCK_BYTES];
    (block[0], block[2]) = (1, 1);
    let mut due = Foods { local_shares: [97, 98, 51, 49], ..Foods::default() };
    for age in 0..AGES {
        for food in 0..FOODS {
            let grams = (9_000 - 20 * age - food) as u16;
            due.grams[age][food] = grams;
            block[4 + 30 * age + 2 * food..][..2].copy_from_slice(&grams.to_le_bytes());
        }
    }
    let mut put = |at: usize, value: u32| block[at..at + 4].copy_from_slice(&value.to_le_bytes());
    for food in 0..FOODS {
        due.leads[food] = 900_000 - food as u32;
        put(214 + 4 * food, due.leads[food]);
    }
    for local in 0..LOCAL_FOODS {
        due.local_leads[local] = 800_000 - local as u32;
        put(274 + 4 * local, due.local_shares[local]);
        put(290 + 4 * local, due.local_leads[local]);
    }
    cards::seal(&mut block);
    assert_eq!(read_foods(&block), Ok(due));
    assert_eq!(foods_file(&due), block);
    let figures = due.figures();
    assert_eq!((figures[0], figures[104], figures[105], figures[119]), (9_000, 8_866, 900_000, 899_986));
    assert_eq!(figures[120..], [97, 98, 51, 49, 800_000, 799_999, 799_998, 799_997]);
}

#[test]
fn what_is_written_is_read_back() {
    let mut generator = Generator::new(61);
    for turn in 0..3_000 {
        let foods = random::foods(&mut generator, Range::of_turn(turn));
        assert_eq!(read_foods(&foods_file(&foods)), Ok(foods));
    }
}

/// Any sealed bytes: what is accepted has the bytes of its figures and no others.
#[test]
fn an_accepted_block_is_the_block_of_its_figures() {
    let mut generator = Generator::new(62);
    let mut accepted = 0;
    for turn in 0..20_000 {
        let mut block = foods_file(&random::foods(&mut generator, Range::of_turn(turn)));
        let at = generator.index(BODY_BYTES);
        block[at] = generator.any() as u8;
        cards::seal(&mut block);
        if let Ok(foods) = read_foods(&block) {
            assert_eq!(foods_file(&foods), block);
            accepted += 1;
        }
    }
    assert!(accepted > 2_000, "{accepted} blocks");
}

/// What the reader answers to the worked figure with a change.
fn read_changed(change: impl FnOnce(&mut Foods)) -> Result<Foods, Refusal> {
    let mut foods = worked();
    change(&mut foods);
    read_foods(&foods_file(&foods))
}

#[test]
fn amounts_and_leads_are_limited_exactly() {
    for age in 0..AGES {
        for food in 0..FOODS {
            assert!(read_changed(|foods| foods.grams[age][food] = 10_000).is_ok());
            for over in [10_001, u16::MAX] {
                assert_eq!(read_changed(|foods| foods.grams[age][food] = over), Err(Refusal::FoodLimits));
            }
        }
    }
    for over in [1_000_001, u32::MAX] {
        for food in 0..FOODS {
            assert!(read_changed(|foods| foods.leads[food] = 1_000_000).is_ok());
            assert_eq!(read_changed(|foods| foods.leads[food] = over), Err(Refusal::FoodLimits));
        }
        for local in 0..LOCAL_FOODS {
            assert!(read_changed(|foods| foods.local_leads[local] = 1_000_000).is_ok());
            assert_eq!(read_changed(|foods| foods.local_leads[local] = over), Err(Refusal::FoodLimits));
        }
    }
}

#[test]
fn shares_are_limited_exactly() {
    let number = |shares: [u32; LOCAL_FOODS]| {
        let read = read_changed(|foods| foods.local_shares = shares);
        number_of(&read)
    };
    for accepted in [[0; 4], [100, 100, 0, 100], [100, 100, 100, 0], [100, 100, 51, 49], [0, 100, 1, 98]] {
        assert_eq!(number(accepted), 0, "{accepted:?}");
    }
    let wrapping =
        [[0, 0, u32::MAX, 1], [0, 0, 1, u32::MAX], [0, 0, u32::MAX, u32::MAX], [0, 0, 1 << 31, 1 << 31]];
    let over =
        [[101, 0, 0, 0], [0, 101, 0, 0], [0, 0, 101, 0], [0, 0, 0, 101], [0, 0, 50, 51], [0, 0, 100, 1]];
    let widest = [[u32::MAX, 0, 0, 0], [0, u32::MAX, 0, 0]];
    for refused in [&wrapping[..], &over[..], &widest[..]].concat() {
        assert_eq!(number(refused), 10, "{refused:?}");
    }
}

/// Canned and fresh grams may be more than 10,000 together: the limit is of what the block holds.
#[test]
fn sums_of_amounts_have_no_limit() {
    let read = read_changed(|foods| foods.grams[3] = [10_000; FOODS]);
    let foods = read.expect("each amount is within its limit");
    assert_eq!(foods.diet_terms(3)[5], ("E-5i InHomeFruit", 25 * 20_000 * 67 / 100));
}

/// A card with the published site and book and this foods fault.
fn damaged_foods(generator: &mut Generator, fault: FoodsFault) -> (Vec<u8>, Vec<u8>, Vec<u8>) {
    let foods = random::foods(generator, Range::Near);
    damaged_with_foods(generator, &published::fields(), &foods, &curves::rows(), &[Fault::Foods(fault)])
}

#[test]
fn every_foods_fault_has_its_number_in_all_calls() {
    let mut generator = Generator::new(63);
    let state = birth(&published::site(), &curves::book()).state;
    for fault in foods_faults() {
        let (site, foods, book) = damaged_foods(&mut generator, fault);
        let (number, foods) = (fault.number(), Some(foods.as_slice()));
        assert_eq!(number_of(&read_foods(foods.unwrap())), number, "{fault:?}");
        let unborn = BirthAnswer { number, state: State::default() };
        assert_eq!(birth_foods(&site, foods, &book), unborn, "{fault:?}");
        let refused = MonthAnswer { number, state, blood: 0 };
        assert_eq!(month_foods(&site, foods, &book, &state), refused, "{fault:?}");
        let (answer, blood) = run_list(&site, foods, &book);
        assert_eq!(answer, RunAnswer { number, state: State::default(), months: 0 }, "{fault:?}");
        assert_eq!(blood, [BEFORE; MONTHS]);
        assert_eq!(run(&site, &book, &mut [0; MONTHS]).number, 0, "without the block nothing is wrong");
    }
}

#[test]
fn of_every_two_slips_of_a_month_the_earlier_in_the_order_is_answered() {
    let mut generator = Generator::new(64);
    for slips in ones_and_twos(&month_slips()) {
        let call = month_call(&mut generator, &slips);
        let answer = month_foods(&call.site, Some(&call.foods), &call.book, &call.state);
        let refused = MonthAnswer { number: first(&slips).number(), state: call.state, blood: 0 };
        assert_eq!(answer, refused, "{slips:?}");
    }
}

#[test]
fn of_every_two_slips_of_a_run_the_earlier_in_the_order_is_answered() {
    let mut generator = Generator::new(65);
    for slips in ones_and_twos(&run_slips()) {
        let call = run_call(&mut generator, &slips);
        let mut blood = vec![BEFORE; call.list_length];
        let answer = run_foods(&call.site, Some(&call.foods), &call.book, &mut blood);
        let due = first(&slips);
        assert_eq!((answer.number, answer.months), (due.number(), due.months()), "{slips:?}");
        let written = blood.iter().filter(|&&figure| figure != BEFORE).count();
        assert_eq!(written, due.months() as usize, "{slips:?}");
        // Birth has no list and meets no intake.
        if !slips.contains(&Slip::List) && due.number() != 9 {
            let unborn = BirthAnswer { number: due.number(), state: State::default() };
            assert_eq!(birth_foods(&call.site, Some(&call.foods), &call.book), unborn, "{slips:?}");
        }
    }
}

/// Without slips both calls are accepted, so that each refusal above is the slips' own.
#[test]
fn a_call_without_slips_is_accepted() {
    let mut generator = Generator::new(66);
    let call = month_call(&mut generator, &[]);
    assert_eq!(month_foods(&call.site, Some(&call.foods), &call.book, &call.state).number, 0);
    let call = run_call(&mut generator, &[]);
    assert_eq!(run_list(&call.site, Some(&call.foods), &call.book).0.months, 84);
}

#[test]
fn an_empty_foods_block_is_a_wrong_length_and_not_an_absent_one() {
    let (mut site, book) = (published::site(), curves::book());
    assert_eq!(birth_foods(&site, None, &book).number, 0);
    assert_eq!(birth_foods(&site, Some(&[]), &book).number, 1);
    cards::put_field(&mut site, place::DIET, 1_000_000_001);
    assert_eq!(birth_foods(&site, Some(&[]), &book).number, 3, "the site's check comes before");
    cards::seal(&mut site);
    assert_eq!(birth_foods(&site, Some(&[]), &book).number, 7, "the site's fields come before");
    assert_eq!(birth_foods(&site, Some(&[]), &book[1..]).number, 1, "the book's length comes first");
}

/// A random site whose diet figures are what the foods bring, and the foods.
fn same_diets(generator: &mut Generator, range: Range) -> ([u32; SITE_FIELDS], Foods) {
    let (mut fields, mut foods) = (random::site_fields(generator, range), random::foods(generator, range));
    for age in 0..AGES {
        if foods.diet(age) > 1_000_000_000 {
            foods.grams[age] = [0; FOODS];
        }
        fields[place::DIET + age] = foods.diet(age) as u32;
    }
    (fields, foods)
}

#[test]
fn foods_that_bring_the_sites_diet_change_nothing() {
    let mut generator = Generator::new(67);
    let mut whole = 0;
    for turn in 0..150 {
        let range = Range::of_turn(turn);
        let (fields, foods) = same_diets(&mut generator, range);
        let (site, foods) = (cards::site_file(&fields), foods_file(&foods));
        let book = random::book(&mut generator, range);
        assert_eq!(birth_foods(&site, Some(&foods), &book), birth(&site, &book));
        let state = random::any_state(&mut generator);
        assert_eq!(month_foods(&site, Some(&foods), &book, &state), month(&site, &book, &state));
        let without = run_list(&site, None, &book);
        assert_eq!(run_list(&site, Some(&foods), &book), without);
        whole += usize::from(without.0.months == 84);
    }
    assert!(whole > 50, "{whole} whole runs");
}

/// Birth takes nothing from the foods but their refusals: accepted foods change no birth, whatever diet they bring.
#[test]
fn accepted_foods_of_any_diet_change_no_birth() {
    let mut generator = Generator::new(72);
    let mut met = BTreeSet::new();
    for turn in 0..300 {
        let range = Range::of_turn(turn);
        let (site, book) = (random::site(&mut generator, range), random::book(&mut generator, range));
        let foods = random::foods(&mut generator, Range::of_turn(turn / 3));
        let without = birth(&site, &book);
        assert_eq!(birth_foods(&site, Some(&foods_file(&foods)), &book), without);
        met.insert((without.number, (0..AGES).any(|age| foods.diet(age) > 1_000_000_000)));
    }
    assert_eq!(met, BTreeSet::from([(0, false), (0, true), (22, false), (22, true)]));
}

#[test]
fn the_sites_own_diet_is_checked_and_not_used() {
    let mut generator = Generator::new(68);
    let (foods, book) = (foods_file(&random::foods(&mut generator, Range::Near)), curves::book());
    let mut fields = published::fields();
    let before = run_list(&cards::site_file(&fields), Some(&foods), &book);
    assert_eq!(before.0.months, 84);
    assert_ne!(before, run_list(&cards::site_file(&fields), None, &book), "the foods bring another diet");
    fields[place::DIET..place::DIET + AGES].fill(1_000_000_000);
    assert_eq!(run_list(&cards::site_file(&fields), Some(&foods), &book), before);
    fields[place::DIET + 6] += 1;
    assert_eq!(run_list(&cards::site_file(&fields), Some(&foods), &book).0.number, 7);
}

/// Every way to eat it, at every age: 10^9 pg is accepted, one pg more ends the run there.
#[test]
fn a_diet_over_the_limit_ends_the_run_at_its_age() {
    let (site, book) = (cards::site_file(&unabsorbed::fields()), curves::book());
    for eaten in all_eaten() {
        for age in 0..AGES {
            let mut foods = Foods::default();
            eat_alone(&mut foods, eaten, age, 1_000, 1_000_000);
            assert_eq!(foods.diet(age), 1_000_000_000, "{eaten:?}");
            assert_eq!(run_list(&site, Some(&foods_file(&foods)), &book).0.number, 0, "{eaten:?} at {age}");
            random::break_diet(&mut foods, eaten, age);
            assert_eq!(foods.diet(age), 1_000_000_001, "{eaten:?}");
            let (answer, blood) = run_list(&site, Some(&foods_file(&foods)), &book);
            let months = 12 * age;
            assert_eq!((answer.number, answer.months as usize), (9, months), "{eaten:?} at {age}");
            assert_eq!(answer.state.month as usize, months);
            assert!(blood[months..].iter().all(|&figure| figure == BEFORE));
        }
    }
}

/// The foods of one age alone: months up to 24 are accepted, 25 is refused and keeps the state.
#[test]
fn a_run_is_refused_with_9_at_month_25_by_its_foods_alone() {
    let (site, book) = (published::site(), curves::book());
    let mut foods = worked();
    random::break_diet(&mut foods, Eaten::Food(food::CANDY), 2);
    let foods = foods_file(&foods);
    let (answer, blood) = run_list(&site, Some(&foods), &book);
    assert_eq!((answer.number, answer.months, answer.state.month), (9, 24, 24));
    assert!(blood[..24].iter().all(|&figure| figure != BEFORE) && blood[24..] == [BEFORE; 60]);
    assert_eq!(run_list(&site, None, &book).0.months, 84);
    let refused = MonthAnswer { number: 9, state: answer.state, blood: 0 };
    assert_eq!(month_foods(&site, Some(&foods), &book, &answer.state), refused);
    assert_eq!(month(&site, &book, &answer.state).number, 0);
    let later = State { month: 36, ..answer.state };
    assert_eq!(month_foods(&site, Some(&foods), &book, &later).number, 0, "age 3 eats nothing");
}

#[test]
fn the_months_diet_is_that_of_its_age() {
    let mut generator = Generator::new(69);
    for turn in 0..300 {
        let (fields, foods) = same_diets(&mut generator, Range::of_turn(turn));
        let (site, _) =
            read_files(&cards::site_file(&fields), Some(&foods_file(&foods)), &curves::book()).unwrap();
        for age in 0..AGES {
            let Ok(taken) = intakes(&site, age) else { continue };
            assert_eq!(taken.eaten[0], foods.diet(age));
        }
    }
}

#[test]
fn a_run_with_foods_is_birth_and_months_with_foods() {
    let mut generator = Generator::new(70);
    let mut numbers = [0; 23];
    for turn in 0..90 {
        let (site, foods, book) = random::card_with_foods(&mut generator, Range::of_turn(turn), 0);
        let (whole, blood) = run_list(&site, Some(&foods), &book);
        let newborn = birth_foods(&site, Some(&foods), &book);
        let (mut number, mut state, mut months) = (newborn.number, newborn.state, 0);
        while number == 0 && months < MONTHS {
            let answer = month_foods(&site, Some(&foods), &book, &state);
            (number, state) = (answer.number, answer.state);
            if number == 0 {
                assert_eq!(blood[months], answer.blood);
                months += 1;
            }
        }
        assert_eq!((whole.number, whole.state, whole.months as usize), (number, state, months));
        numbers[number as usize] += 1;
    }
    assert!(numbers[0] > 30 && numbers[9] > 5 && numbers[22] > 5, "{numbers:?}");
}

#[test]
fn random_foods_are_what_they_are_called() {
    let mut generator = Generator::new(71);
    let (mut empty, mut refused_from) = (0, [0; AGES + 1]);
    for turn in 0..3_000 {
        let range = Range::of_turn(turn);
        let foods = random::foods(&mut generator, range);
        let over = (0..AGES).position(|age| foods.diet(age) > 1_000_000_000);
        assert!(over.is_none() || range == Range::Limits, "{range:?}");
        refused_from[over.unwrap_or(AGES)] += 1;
        empty += usize::from(foods == Foods::default());
    }
    assert!(empty > 50 && refused_from.iter().all(|&count| count > 50), "{empty}, {refused_from:?}");
}
