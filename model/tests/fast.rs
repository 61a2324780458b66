//! The quick second writing against the model, call by call.

use jurengate_model::cards::{curves, published};
use jurengate_model::foods::read_foods;
use jurengate_model::random::{self, Generator, Range};
use jurengate_model::refusal::{number_of, Refusal};
use jurengate_model::state::{State, MONTHS};
use jurengate_model::{convert, engine, fast};

/// Both runs over a list of known content.
fn compare_runs(site: &[u8], foods: Option<&[u8]>, book: &[u8], length: usize) {
    let (mut slow_list, mut fast_list) = (vec![77; length], vec![77; length]);
    let slow = engine::run_foods(site, foods, book, &mut slow_list);
    assert_eq!(fast::run_foods(site, foods, book, &mut fast_list), slow);
    assert_eq!(fast_list, slow_list);
}

fn compare_calls(site: &[u8], foods: Option<&[u8]>, book: &[u8], state: &State) {
    assert_eq!(fast::birth_foods(site, foods, book), engine::birth_foods(site, foods, book));
    assert_eq!(fast::month_foods(site, foods, book, state), engine::month_foods(site, foods, book, state));
}

fn compare_foods_readers(foods: &[u8]) -> Result<(), Refusal> {
    let slow = read_foods(foods).map(|foods| foods.figures());
    assert_eq!(fast::read_foods(foods), slow);
    slow.map(|_| ())
}

#[test]
fn the_default_card() {
    compare_runs(&published::site(), None, &curves::book(), MONTHS);
}

#[test]
fn random_runs() {
    let mut generator = Generator::new(41);
    for _ in 0..300 {
        let range = random::range(&mut generator);
        let (site, book) = random::card(&mut generator, range, 0);
        compare_runs(&site, None, &book, MONTHS);
    }
}

#[test]
fn random_states() {
    let mut generator = Generator::new(42);
    for _ in 0..4_000 {
        let range = random::range(&mut generator);
        let (site, book) = random::card(&mut generator, range, 0);
        compare_calls(&site, None, &book, &random::any_state(&mut generator));
    }
}

#[test]
fn damaged_files() {
    let mut generator = Generator::new(43);
    for _ in 0..3_000 {
        let range = random::range(&mut generator);
        let faults = generator.between(1, 3) as usize;
        let (site, book) = random::card(&mut generator, range, faults);
        compare_calls(&site, None, &book, &random::any_state(&mut generator));
        let length = if generator.once_in(4) { generator.index(100) } else { MONTHS };
        compare_runs(&site, None, &book, length);
    }
}

#[test]
fn random_runs_with_foods() {
    let mut generator = Generator::new(44);
    for _ in 0..300 {
        let range = random::range(&mut generator);
        let (site, foods, book) = random::card_with_foods(&mut generator, range, 0);
        assert_eq!(compare_foods_readers(&foods), Ok(()));
        compare_runs(&site, Some(&foods), &book, MONTHS);
    }
}

#[test]
fn damaged_files_with_foods() {
    let mut generator = Generator::new(45);
    let mut refused = 0;
    for _ in 0..4_000 {
        let range = random::range(&mut generator);
        let faults = generator.between(1, 3) as usize;
        let (site, foods, book) = random::card_with_foods(&mut generator, range, faults);
        refused += usize::from(compare_foods_readers(&foods).is_err());
        compare_calls(&site, Some(&foods), &book, &random::any_state(&mut generator));
        let length = if generator.once_in(4) { generator.index(100) } else { MONTHS };
        compare_runs(&site, Some(&foods), &book, length);
    }
    assert!(refused > 1_000, "{refused} foods blocks refused");
}

/// Both ways on whole and scratched files, with the target's content and length.
#[test]
fn random_conversions() {
    let mut generator = Generator::new(46);
    let mut met = [0; 15];
    for turn in 0..6_000 {
        let site = random::site(&mut generator, Range::of_turn(turn));
        let site = if turn % 3 == 0 { site } else { random::scratched_site(&mut generator, site) };
        let length = if generator.once_in(20) { generator.index(1_024) } else { 512 };
        let ways: [[convert::Converter; 2]; 2] =
            [[convert::to_edition_2, fast::to_edition_2], [convert::to_edition_1, fast::to_edition_1]];
        for way in ways {
            let [slow, fast] = way.map(|converter| {
                let mut target = vec![77; length];
                (converter(&site, &mut target), target)
            });
            assert_eq!(fast, slow);
            met[number_of(&slow.0) as usize] += 1;
        }
    }
    assert!([0, 1, 3, 4, 6, 7, 13, 14].iter().all(|&number| met[number] > 50), "{met:?}");
}
