//! The engine's calls with a foods block held to the model (feature `engine`).

#[path = "support/comparison.rs"]
mod comparison;
#[path = "support/slips.rs"]
mod slips;
#[path = "support/unabsorbed.rs"]
mod unabsorbed;

use comparison::{list_length, Comparison, BEFORE};
use jurengate_model::block::{BLOCK_BYTES, BODY_BYTES};
use jurengate_model::cards::{self, curves, foods_file, published};
use jurengate_model::demand3::month_uptake;
use jurengate_model::ffi;
use jurengate_model::foods::{food, Foods, FOODS, LOCAL_FOODS, LOCAL_SHARES_AT};
use jurengate_model::kinetics::step_uptake;
use jurengate_model::random::{
    self, all_eaten, damaged_with_foods, eat_alone, foods_faults, Eaten, Fault, FoodsFault, Generator, Range,
};
use jurengate_model::site::{place, AGES, SITE_FIELDS};
use jurengate_model::state::{State, BURDEN_LIMIT, MONTHS};
use jurengate_model::uptake::age_of;
use slips::{first, month_call, month_slips, ones_and_twos, run_call, run_slips};
use std::collections::BTreeSet;

/// A foods block like a dietitian's sheet.
fn typical_foods() -> Foods {
    random::foods(&mut Generator::new(200), Range::Near)
}

#[test]
fn a_whole_childhood() {
    let mut comparison = Comparison::new("a childhood with foods");
    let (site, foods, book) = (published::site(), foods_file(&typical_foods()), curves::book());
    let foods = Some(foods.as_slice());
    let whole = comparison.run_foods(&site, foods, &book, MONTHS);
    assert_eq!((whole.number, whole.months), (0, 84));
    let mut state = comparison.birth_foods(&site, foods, &book).state;
    for _ in 0..MONTHS {
        state = comparison.month_foods(&site, foods, &book, &state).state;
    }
    assert_eq!(state, whole.state);
    assert_ne!(state, comparison.run(&site, &book, MONTHS).state, "the foods bring another diet");
    assert_eq!(comparison.month_foods(&site, foods, &book, &state).number, 21);
}

/// A block whose figures all differ, so that no two can be exchanged unseen.
#[test]
fn each_figure_stands_in_its_place() {
    let foods = Foods {
        grams: std::array::from_fn(|age| std::array::from_fn(|food| (9_000 - FOODS * age - food) as u16)),
        leads: std::array::from_fn(|food| 900_000 - food as u32),
        local_shares: [97, 98, 51, 49],
        local_leads: std::array::from_fn(|local| 800_000 - local as u32),
    };
    let (number, figures) = ffi::read_foods(&foods_file(&foods));
    assert_eq!((number, figures), (0, foods.figures()));
    assert_eq!(BTreeSet::from(figures).len(), figures.len());
}

#[test]
fn random_foods_are_written_and_read_back() {
    let mut comparison = Comparison::new("foods written and read");
    let mut generator = Generator::new(201);
    for turn in 0..6_000 {
        let foods = random::foods(&mut generator, Range::of_turn(turn));
        let mut written = vec![0; BLOCK_BYTES];
        assert_eq!(ffi::write_block(&foods_file(&foods)[..BODY_BYTES], &mut written), 0);
        assert_eq!(ffi::read_foods(&written), (0, foods.figures()));
        assert_eq!(comparison.read_foods(&written), 0);
    }
}

/// Every figure at its limit and around it, at the ends of its width, and at what its neighbours leave.
#[test]
fn figures_at_and_past_their_limits() {
    let mut comparison = Comparison::new("figures at their limits");
    let mut met = BTreeSet::new();
    let mut read = |foods: &Foods| met.insert(comparison.read_foods(&foods_file(foods)));
    for place in 0..AGES * FOODS {
        for grams in [0, 1, 255, 256, 9_999, 10_000, 10_001, 1 << 15, u16::MAX] {
            let mut foods = typical_foods();
            foods.grams.as_flattened_mut()[place] = grams;
            read(&foods);
        }
    }
    for place in 0..FOODS + LOCAL_FOODS {
        for lead in [0, 1, 65_536, 999_999, 1_000_000, 1_000_001, 1 << 31, u32::MAX] {
            let mut foods = typical_foods();
            *foods.leads.iter_mut().chain(&mut foods.local_leads).nth(place).unwrap() = lead;
            read(&foods);
        }
    }
    let shares = [0, 1, 49, 50, 51, 99, 100, 101, 1 << 31, u32::MAX - 100, u32::MAX];
    for first in shares {
        for second in shares {
            for local_shares in [[first, second, 0, 0], [0, 0, first, second], [100, 100, first, second]] {
                read(&Foods { local_shares, ..typical_foods() });
            }
        }
    }
    assert_eq!(met, BTreeSet::from([0, 10, 11]));
}

#[test]
fn blocks_of_every_length() {
    let mut comparison = Comparison::new("foods of every length");
    let (site, book) = (published::site(), curves::book());
    let bytes = [foods_file(&typical_foods()), foods_file(&typical_foods())].concat();
    for length in 0..=bytes.len() {
        let number = comparison.read_foods(&bytes[..length]);
        assert_eq!(number, if length == BLOCK_BYTES { 0 } else { 1 });
        comparison.birth_foods(&site, Some(&bytes[..length]), &book);
    }
    assert_eq!(comparison.run_foods(&site, Some(&[]), &book, MONTHS).number, 1);
}

#[test]
fn any_bytes() {
    let mut comparison = Comparison::new("foods of any bytes");
    let mut generator = Generator::new(202);
    let (site, book) = (published::site(), curves::book());
    let mut met = BTreeSet::new();
    for turn in 0..3_000 {
        let mut foods: Vec<u8> = (0..BLOCK_BYTES).map(|_| generator.any() as u8).collect();
        // Framed as a foods block, from some byte on.
        if turn % 3 > 0 {
            let framed = foods_file(&random::foods(&mut generator, Range::Limits));
            let from = generator.index(LOCAL_SHARES_AT);
            foods[from..].copy_from_slice(&framed[from..]);
            foods[..4].copy_from_slice(&framed[..4]);
        }
        if turn % 3 != 1 {
            cards::seal(&mut foods);
        }
        met.insert(comparison.read_foods(&foods));
        met.insert(comparison.birth_foods(&site, Some(&foods), &book).number);
    }
    assert_eq!(met, BTreeSet::from([0, 3, 4, 11]));
}

#[test]
fn random_whole_runs() {
    let mut comparison = Comparison::new("whole runs with foods");
    let mut generator = Generator::new(203);
    for turn in 0..600 {
        let (site, foods, book) = random::card_with_foods(&mut generator, Range::of_turn(turn), 0);
        let length = list_length(&mut generator);
        comparison.run_foods(&site, Some(&foods), &book, length);
    }
    assert!(comparison.accepted > 200, "runs to the end");
}

#[test]
fn random_months_from_any_state() {
    let mut comparison = Comparison::new("months with foods from any state");
    let mut generator = Generator::new(204);
    for turn in 0..6_000 {
        let (site, foods, book) = random::card_with_foods(&mut generator, Range::of_turn(turn), 0);
        comparison.birth_foods(&site, Some(&foods), &book);
        comparison.month_foods(&site, Some(&foods), &book, &random::any_state(&mut generator));
    }
    assert!(comparison.accepted > 6_000, "births and months");
}

#[test]
fn every_single_fault() {
    let mut comparison = Comparison::new("single faults of foods");
    let mut generator = Generator::new(205);
    let ages = |eaten: Eaten| (0..AGES).map(move |age| FoodsFault::Diet(eaten, age));
    let diets = all_eaten().into_iter().flat_map(ages);
    for fault in foods_faults().into_iter().chain(diets) {
        let (fields, rows) = (unabsorbed::fields(), curves::rows());
        let (site, foods, book) =
            damaged_with_foods(&mut generator, &fields, &typical_foods(), &rows, &[Fault::Foods(fault)]);
        comparison.all_foods(&site, &foods, &book, &random::any_state(&mut generator));
        let (answer, refused) =
            (ffi::run_foods(&site, Some(&foods), &book, &mut [0; MONTHS]), fault.number());
        assert_eq!(answer.number, refused, "{fault:?}");
    }
}

#[test]
fn several_faults_at_once() {
    let mut comparison = Comparison::new("several faults with foods");
    let mut generator = Generator::new(206);
    let mut met = BTreeSet::new();
    for turn in 0..3_000 {
        let faults = generator.between(1, 4) as usize;
        let (site, foods, book) = random::card_with_foods(&mut generator, Range::of_turn(turn), faults);
        let length = list_length(&mut generator);
        let state = random::any_state(&mut generator);
        met.insert(comparison.read_foods(&foods));
        met.insert(comparison.birth_foods(&site, Some(&foods), &book).number);
        met.insert(comparison.month_foods(&site, Some(&foods), &book, &state).number);
        met.insert(comparison.run_foods(&site, Some(&foods), &book, length).number);
    }
    assert_eq!(met, BTreeSet::from([0, 1, 2, 3, 4, 5, 6, 7, 8, 9, 10, 11, 13, 20, 21, 22]));
}

#[test]
fn every_two_slips() {
    let mut comparison = Comparison::new("every two slips");
    let mut generator = Generator::new(207);
    for slips in ones_and_twos(&month_slips()) {
        let call = month_call(&mut generator, &slips);
        let answer = comparison.month_foods(&call.site, Some(&call.foods), &call.book, &call.state);
        assert_eq!((answer.number, answer.state), (first(&slips).number(), call.state), "{slips:?}");
    }
    for slips in ones_and_twos(&run_slips()) {
        let call = run_call(&mut generator, &slips);
        let answer = comparison.run_foods(&call.site, Some(&call.foods), &call.book, call.list_length);
        let due = first(&slips);
        assert_eq!((answer.number, answer.months), (due.number(), due.months()), "{slips:?}");
        comparison.birth_foods(&call.site, Some(&call.foods), &call.book);
    }
}

/// Eaten in each of its ways at each age: 10^9 pg, and one pg more.
#[test]
fn diets_at_and_past_the_limit() {
    let mut comparison = Comparison::new("diets at the limit");
    let (site, book) = (cards::site_file(&unabsorbed::fields()), curves::book());
    for eaten in all_eaten() {
        for age in 0..AGES {
            let mut foods = Foods::default();
            eat_alone(&mut foods, eaten, age, 1_000, 1_000_000);
            let within = comparison.run_foods(&site, Some(&foods_file(&foods)), &book, MONTHS);
            random::break_diet(&mut foods, eaten, age);
            let over = comparison.run_foods(&site, Some(&foods_file(&foods)), &book, MONTHS);
            assert_eq!((within.number, over.number, over.months), (0, 9, 12 * age as u32));
        }
    }
}

/// A site that brings nothing but its diet, all of it taken up.
fn diet_alone() -> [u32; SITE_FIELDS] {
    let mut fields = [0; SITE_FIELDS];
    (fields[place::ABSORBED], fields[place::PASSIVE]) = (100, 100);
    fields[place::SATURATION] = 1_000_000;
    fields
}

/// A month brings thirty days of the foods' diet, to the pg: each term's floor shows.
#[test]
fn a_month_brings_the_diet_of_its_age_to_the_pg() {
    let mut comparison = Comparison::new("diets to the pg");
    let mut generator = Generator::new(208);
    let (site, book) = (cards::site_file(&diet_alone()), curves::book());
    for turn in 0..6_000 {
        let foods = random::foods(&mut generator, Range::of_turn(turn));
        let before = State { month: generator.between(0, 83), ..State::default() };
        let answer = comparison.month_foods(&site, Some(&foods_file(&foods)), &book, &before);
        let diet = foods.diet(age_of(before.month as usize + 1));
        match answer.number {
            0 => assert_eq!(answer.state.burden() + answer.state.left(), 30 * diet),
            9 => assert!(diet > 1_000_000_000),
            number => panic!("refused with {number}"),
        }
    }
    assert!(comparison.accepted > 5_000, "months");
}

/// Books that let nothing out: with foods too, the burden meets its limit at a chosen step exactly, or passes it by one.
#[test]
fn burdens_at_and_past_the_limit_at_each_step() {
    let mut comparison = Comparison::new("burdens at the limit with foods");
    let mut generator = Generator::new(209);
    for turn in 0..400 {
        let book = cards::book_file(&random::closed_rows(&mut generator, Range::of_turn(turn)));
        let site = cards::site_file(&diet_alone());
        let foods = foods_file(&random::foods(&mut generator, Range::Near));
        let month = generator.between(0, MONTHS as u64 - 1);
        let day =
            month_uptake(&site, Some(&foods), &book, month).expect("near diets are within the limit") / 30;
        let steps = [0, 1, 5, 6, 178, 179, generator.between(0, 179)][turn % 7];
        let absorbed: u64 = (0..=steps).map(|step| step_uptake(day, u128::from(step % 6))).sum();
        for past in [0, 1] {
            let burden = BURDEN_LIMIT as u64 + past - absorbed;
            let state = random::burdened(&mut generator, month, burden);
            let answer = comparison.month_foods(&site, Some(&foods), &book, &state);
            if past == 1 {
                assert_eq!((answer.number, answer.state), (22, state));
            } else if steps == 179 {
                assert_eq!(answer.number, 0);
            }
        }
    }
}

/// The engine's own answers with foods and without are the same where the foods bring the site's diet.
#[test]
fn foods_that_bring_the_sites_diet_change_nothing() {
    let mut generator = Generator::new(210);
    let mut whole = 0;
    for turn in 0..300 {
        let range = Range::of_turn(turn);
        let (mut fields, foods) =
            (random::site_fields(&mut generator, range), random::foods(&mut generator, range));
        if (0..AGES).any(|age| foods.diet(age) > 1_000_000_000) {
            continue;
        }
        for age in 0..AGES {
            fields[place::DIET + age] = foods.diet(age) as u32;
        }
        let (site, foods) = (cards::site_file(&fields), foods_file(&foods));
        let (foods, book) = (Some(foods.as_slice()), random::book(&mut generator, range));
        let state = random::any_state(&mut generator);
        assert_eq!(ffi::birth_foods(&site, foods, &book), ffi::birth(&site, &book));
        assert_eq!(ffi::month_foods(&site, foods, &book, &state), ffi::month(&site, &book, &state));
        let (mut with, mut without) = ([BEFORE; MONTHS], [BEFORE; MONTHS]);
        let answer = ffi::run(&site, &book, &mut without);
        assert_eq!((ffi::run_foods(&site, foods, &book, &mut with), with), (answer, without));
        whole += usize::from(answer.months == 84);
    }
    assert!(whole > 100, "{whole} whole runs");
}

/// The engine's birth takes nothing from the foods but their refusals, whatever diet they bring.
#[test]
fn accepted_foods_of_any_diet_change_no_birth() {
    let mut generator = Generator::new(211);
    let mut met = BTreeSet::new();
    for turn in 0..3_000 {
        let range = Range::of_turn(turn);
        let (site, book) = (random::site(&mut generator, range), random::book(&mut generator, range));
        let foods = random::foods(&mut generator, Range::of_turn(turn / 3));
        let without = ffi::birth(&site, &book);
        assert_eq!(ffi::birth_foods(&site, Some(&foods_file(&foods)), &book), without);
        met.insert((without.number, (0..AGES).any(|age| foods.diet(age) > 1_000_000_000)));
    }
    assert_eq!(met, BTreeSet::from([(0, false), (0, true), (22, false), (22, true)]));
}

/// The foods of one age alone refuse a run that is accepted without them, and the month keeps its state.
#[test]
fn a_run_is_refused_with_9_at_month_25_by_its_foods_alone() {
    let mut comparison = Comparison::new("9 at month 25");
    let (site, book) = (published::site(), curves::book());
    let mut foods = typical_foods();
    random::break_diet(&mut foods, Eaten::Food(food::CANDY), 2);
    let foods = foods_file(&foods);
    let answer = comparison.run_foods(&site, Some(&foods), &book, MONTHS);
    assert_eq!((answer.number, answer.months, answer.state.month), (9, 24, 24));
    let refused = comparison.month_foods(&site, Some(&foods), &book, &answer.state);
    assert_eq!((refused.number, refused.state, refused.blood), (9, answer.state, 0));
    assert_eq!(comparison.month(&site, &book, &answer.state).number, 0);
}
