//! Demand 3 on numbers: every step of many months beside the exact solution, and the balance between
//! every two month ends of lists whose calls have their own files, foods or none, refused ones among them.

#[path = "support/month.rs"]
mod month;

use jurengate_model::book::{column, Row, D};
use jurengate_model::cards::{self, curves, published};
use jurengate_model::demand3::{month_uptake, Ends, ExactRow};
use jurengate_model::kinetics::step;
use jurengate_model::random::{self, Generator, Range};
use jurengate_model::state::{sum, State, BURDEN_LIMIT};
use jurengate_model::{engine, fast};
use month::check_month;
use std::collections::BTreeSet;

/// What a list of calls came to.
#[derive(Default)]
struct Counts {
    months: usize,
    /// Months accepted with a foods block.
    with_foods: usize,
    /// Months accepted right after a refused call.
    resumed: usize,
    refusals: BTreeSet<u32>,
}

/// The files of one call, with a foods block or without, now and then with a fault in them.
fn call_files(generator: &mut Generator, range: Range) -> (Vec<u8>, Option<Vec<u8>>, Vec<u8>) {
    let faults = usize::from(generator.once_in(5));
    random::card_of_either_kind(generator, range, faults)
}

/// A list of month calls from `start`, each with its own files; a refused one leaves the state.
/// The month ends are those of `fast`, which the watched steps of the model have to reach.
fn check_list(generator: &mut Generator, start: State, calls: usize, range: Range) -> Counts {
    let mut counts = Counts::default();
    let mut ends = Ends::default();
    let (mut state, mut after_refusal) = (start, false);
    ends.note(state, 0);
    for _ in 0..calls {
        let (site, foods, book) = call_files(generator, range);
        let foods = foods.as_deref();
        let answer = fast::month_foods(&site, foods, &book, &state);
        assert_eq!(engine::month_foods(&site, foods, &book, &state), answer);
        if answer.number != 0 {
            assert_eq!(answer.state, state);
            counts.refusals.insert(answer.number);
            after_refusal = true;
            continue;
        }
        counts.resumed += usize::from(std::mem::take(&mut after_refusal));
        counts.with_foods += usize::from(foods.is_some());
        ends.note(answer.state, check_month(&site, foods, &book, &state, &answer.state));
        (counts.months, state) = (counts.months + 1, answer.state);
    }
    assert_eq!(ends.balance(), Ok(counts.months * (counts.months + 1) / 2), "every two ends balance");
    counts
}

#[test]
fn the_default_child_through_all_84_months() {
    let (site, book) = (published::site(), curves::book());
    let mut state = engine::birth(&site, &book).state;
    let mut ends = Ends::default();
    ends.note(state, 0);
    for _ in 0..84 {
        let end = fast::month(&site, &book, &state).state;
        ends.note(end, check_month(&site, None, &book, &state, &end));
        state = end;
    }
    assert_eq!(ends.balance(), Ok(85 * 84 / 2));
}

#[test]
fn random_lists_of_births_and_months() {
    let mut generator = Generator::new(31);
    let (mut months, mut with_foods, mut resumed, mut refusals) = (0, 0, 0, BTreeSet::new());
    for turn in 0..24 {
        let range = Range::of_turn(turn);
        let (site, book) = random::card(&mut generator, range, 0);
        let newborn = engine::birth(&site, &book);
        let counts = check_list(&mut generator, newborn.state, 100, range);
        months += counts.months;
        with_foods += counts.with_foods;
        resumed += counts.resumed;
        refusals.extend(counts.refusals);
    }
    assert!(months > 600, "{months} months");
    assert!((months / 3..2 * months / 3).contains(&with_foods), "{with_foods} of {months} months with foods");
    assert!(resumed > 200, "{resumed} months after a refused call");
    // 2 and 20 cannot come: a month call has no list, and what it got is a state.
    assert_eq!(refusals, BTreeSet::from([1, 3, 4, 5, 6, 7, 8, 9, 10, 11, 13, 21, 22]));
}

/// With a foods block the uptake comes from it: that of the site's own diet does not balance the month.
#[test]
fn a_months_uptake_is_that_of_its_foods() {
    let mut generator = Generator::new(34);
    let (site, book) = (published::site(), curves::book());
    let foods = cards::foods_file(&random::foods(&mut generator, Range::Near));
    let newborn = engine::birth(&site, &book).state;
    let end = fast::month_foods(&site, Some(&foods), &book, &newborn).state;
    for (foods, balance) in [(Some(foods.as_slice()), Ok(1)), (None, Err((0, 1)))] {
        let mut ends = Ends::default();
        ends.note(newborn, 0);
        ends.note(end, month_uptake(&site, foods, &book, 0).unwrap());
        assert_eq!(ends.balance(), balance);
    }
}

#[test]
fn random_states_up_to_the_limit() {
    let mut generator = Generator::new(32);
    let mut months = 0;
    for turn in 0..400 {
        let state = random::state(&mut generator, false);
        months += check_list(&mut generator, state, 2, Range::of_turn(turn)).months;
    }
    assert!(months > 230, "{months} months");
}

#[test]
fn single_steps_of_extreme_rows_at_a_full_burden() {
    let mut generator = Generator::new(33);
    for _ in 0..20_000 {
        let range = random::range(&mut generator);
        let row = Row::of_fields(&random::row(&mut generator, range, 24));
        let before = random::state(&mut generator, false).compartments;
        let room = (BURDEN_LIMIT - sum(&before)) as u64;
        let uptake = generator.at_limits(room.min(1_000_000_000));
        let after = step(&row, &before, uptake);
        let exact = ExactRow::of(&row);
        assert!(exact.margin_holds(&before, uptake, after.compartments[0]), "{row:?} {before:?} {uptake}");
        assert_eq!(sum(&before) + u128::from(uptake), sum(&after.compartments) + sum(&after.exits));
    }
}

/// The exact solution of one step of the realistic book, for the two tests below.
fn one_step() -> (ExactRow, [u64; 7], u64, u64) {
    let row = Row::of_fields(&curves::row(24));
    let before = [350_000, 34_000_000, 50_000_000, 6_000_000, 300_000_000, 190_000_000, 750_000_000];
    let uptake = 1_000_000;
    let after = step(&row, &before, uptake);
    (ExactRow::of(&row), before, uptake, after.compartments[0])
}

#[test]
fn the_margin_stops_a_plasma_below_or_far_above_the_exact_one() {
    let (exact, before, uptake, plasma) = one_step();
    assert!(exact.margin_holds(&before, uptake, plasma));
    assert!(!exact.margin_holds(&before, uptake, plasma - 500));
    assert!(!exact.margin_holds(&before, uptake, plasma + 500));
}

#[test]
fn the_exact_solution_agrees_with_floating_point() {
    let row = curves::row(24);
    let (_, before, uptake, plasma) = one_step();
    let d = D as f64;
    let rate = |index: usize| f64::from(row[index]) / d;
    let mut supply = before[0] as f64 + uptake as f64;
    let mut divisor = 1.0 + rate(column::URINE);
    let exits = [0.0, rate(column::FAECES), 0.0, rate(column::SKIN), 0.0, 0.0];
    for i in 0..6 {
        let e = 1.0 + rate(column::BACK + i) + exits[i];
        supply += rate(column::BACK + i) * before[i + 1] as f64 / e;
        divisor += rate(column::OUT + i) * (1.0 - rate(column::BACK + i) / e);
    }
    assert!((plasma as f64 - supply / divisor).abs() < 100.0);
}

#[test]
fn a_balance_that_does_not_hold_is_found() {
    let mut ends = Ends::default();
    let state = |plasma: u64, urine: u64| State {
        compartments: [plasma, 0, 0, 0, 0, 0, 0],
        ledgers: [urine, 0, 0],
        ..State::default()
    };
    ends.note(state(10, 0), 0);
    ends.note(state(12, 3), 5);
    assert_eq!(ends.balance(), Ok(1));
    ends.note(state(14, 4), 4);
    assert_eq!(ends.balance(), Err((0, 2)));
}
