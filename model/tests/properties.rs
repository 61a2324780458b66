//! Properties that the paper states or implies, over random cards.

use jurengate_model::cards::{self, curves, published};
use jurengate_model::engine::{birth, month, read_files, run};
use jurengate_model::kinetics::step_uptake;
use jurengate_model::random::{self, Generator, Range};
use jurengate_model::site::{place, AGES, SITE_FIELDS};
use jurengate_model::state::{State, MONTHS};
use jurengate_model::uptake::{day_uptake, intakes};

#[test]
fn the_run_is_birth_and_months() {
    let mut generator = Generator::new(51);
    for _ in 0..120 {
        let range = random::range(&mut generator);
        let (site, book) = random::card(&mut generator, range, 0);
        let mut blood = [u32::MAX; MONTHS];
        let whole = run(&site, &book, &mut blood);
        let newborn = birth(&site, &book);
        let (mut number, mut state, mut months) = (newborn.number, newborn.state, 0);
        while number == 0 && months < MONTHS {
            let answer = month(&site, &book, &state);
            (number, state) = (answer.number, answer.state);
            if number == 0 {
                assert_eq!(blood[months], answer.blood);
                months += 1;
            }
        }
        assert_eq!((whole.number, whole.state, whole.months as usize), (number, state, months));
        assert!(blood[months..].iter().all(|&figure| figure == u32::MAX));
    }
}

#[test]
fn month_ends_are_states() {
    let mut generator = Generator::new(52);
    for _ in 0..3_000 {
        let range = random::range(&mut generator);
        let (site, book) = random::card(&mut generator, range, 0);
        let answer = month(&site, &book, &random::state(&mut generator, false));
        assert!(answer.number == 0 || answer.number == 9 || answer.number == 22);
        assert!(answer.state.is_state());
    }
}

#[test]
fn random_states_are_what_they_are_called() {
    let mut generator = Generator::new(53);
    for _ in 0..20_000 {
        assert!(random::state(&mut generator, false).is_state());
        assert_eq!(random::state(&mut generator, true).month, 84);
        assert!(!random::no_state(&mut generator).is_state());
    }
}

#[test]
fn ranges_reach_what_they_are_for() {
    let mut generator = Generator::new(54);
    let mut numbers = [0; 23];
    let mut whole = 0;
    for turn in 0..300 {
        let range = Range::of_turn(turn);
        let (site, book) = random::card(&mut generator, range, 0);
        let answer = run(&site, &book, &mut [0; MONTHS]);
        numbers[answer.number as usize] += 1;
        whole += usize::from(answer.months == 84);
    }
    assert_eq!(numbers.iter().sum::<usize>(), numbers[0] + numbers[9] + numbers[22]);
    assert!(whole > 100 && numbers[9] > 20 && numbers[22] > 20, "{numbers:?}, {whole} whole");
}

#[test]
fn the_six_shares_add_up() {
    let mut generator = Generator::new(55);
    for _ in 0..20_000 {
        let day = u128::from(generator.at_limits(6_000_000_000));
        assert_eq!((0..6).map(|k| u128::from(step_uptake(day, k))).sum::<u128>(), day);
    }
}

#[test]
fn a_day_takes_up_no_more_than_it_takes_in() {
    let mut generator = Generator::new(56);
    for _ in 0..500 {
        let range = random::range(&mut generator);
        let (site, book) = random::card(&mut generator, range, 0);
        let files = read_files(&site, None, &book);
        let (site, book) = files.unwrap();
        for month in [1, 12, 13, 24, 25, 84] {
            let Ok(uptake) = day_uptake(&site, &book, month) else { continue };
            let taken = intakes(&site, (month - 1) / 12).unwrap();
            assert!(uptake <= taken.air + taken.eaten.iter().sum::<u128>());
            assert!(uptake <= 6_000_000_000);
        }
    }
}

/// The 84 figures and the last state of an accepted run with the realistic book.
fn whole_run(fields: &[u32; SITE_FIELDS]) -> ([u32; MONTHS], State) {
    let mut blood = [0; MONTHS];
    let answer = run(&cards::site_file(fields), &curves::book(), &mut blood);
    assert_eq!((answer.number, answer.months as usize), (0, MONTHS));
    (blood, answer.state)
}

#[test]
fn unused_modes_change_nothing() {
    let mut fields = published::fields();
    let before = whole_run(&fields);
    fields[place::DUST..place::DUST + AGES].fill(50_000_000);
    fields[place::FLUSHED..=place::FOUNTAIN].fill(10_000_000);
    fields[place::FIRST_DRAW_SHARE] = 0;
    assert_eq!(whole_run(&fields), before);
    (fields[place::DUST_MODE], fields[place::WATER_MODE]) = (0, 1);
    fields[place::DUST..place::DUST + AGES].fill(150_000);
    fields[place::FLUSHED..=place::FOUNTAIN].fill(900);
    assert_eq!(whole_run(&fields), before, "the same dust and water by the other modes");
    fields[place::CONTRIBUTION] = 0;
    fields[place::AIR_TO_DUST] = 0;
    fields[place::CONSTANT_WATER] = 10_000_000;
    assert_eq!(whole_run(&fields), before);
}

#[test]
fn another_yard_another_curve() {
    let (mut last, _) = whole_run(&published::fields());
    for soil in [250_000, 400_000, 1_000_000] {
        let mut fields = published::fields();
        fields[place::SOIL..place::SOIL + AGES].fill(soil);
        let (next, _) = whole_run(&fields);
        assert!(
            next.iter().zip(last).all(|(more, less)| *more > less),
            "more soil lead, more in every month"
        );
        last = next;
    }
}

#[test]
fn a_child_without_lead_stays_without() {
    let mut fields = published::fields();
    fields[place::ABSORBED..place::PASSIVE].fill(0);
    fields[place::AIR_ABSORBED..place::AIR_ABSORBED + AGES].fill(0);
    fields[place::MOTHER] = 0;
    let mut blood = [1; MONTHS];
    let answer = run(&cards::site_file(&fields), &curves::book(), &mut blood);
    assert_eq!(answer.state, State { month: 84, ..State::default() });
    assert_eq!(blood, [0; MONTHS]);
}
