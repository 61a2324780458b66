//! The engine's site edition 2 held to the model (feature `engine`): its reader of the places, its converters, and every
//! call over files of either edition.

#[path = "support/comparison.rs"]
mod comparison;
#[path = "support/unabsorbed.rs"]
mod unabsorbed;

use comparison::Comparison;
use jurengate_model::block::{BLOCK_BYTES, BODY_BYTES, EDITION_AT};
use jurengate_model::cards::{curves, foods_file, published, put_field, seal, site_file, site_file_2};
use jurengate_model::ffi;
use jurengate_model::group::GROUP_ANSWERS;
use jurengate_model::random::{
    self, damaged_with_foods, file_faults, foods_faults, Fault, FoodsFault, Generator, Range, Turn, Yard,
};
use jurengate_model::site::{place, Place, Places, AGES, PLACES, PLACE_FIGURES, SITE_FIELDS};
use jurengate_model::state::{State, MONTHS};
use std::collections::BTreeSet;

/// Places whose ten figures all differ, so that no two can be exchanged unseen.
fn marked() -> Places {
    Places(std::array::from_fn(|at| Place { share: 3 + at as u32, dust: 1_000_000 * (1 + at as u32) + 7 }))
}

#[test]
fn each_place_stands_in_its_place() {
    let mut comparison = Comparison::new("places");
    let site = site_file_2(&published::fields(), &marked());
    assert_eq!(ffi::read_places(&site), (0, marked()));
    assert_eq!(ffi::read_site(&site), (0, published::fields()));
    for figure in 0..PLACE_FIGURES {
        let mut figures = [0; PLACE_FIGURES];
        figures[figure] = 41;
        comparison.all_of_site(&site_file_2(&published::fields(), &Places::of_figures(&figures)));
    }
}

/// Random files of both editions, whole: reader, both ways, and there and back again by the engine alone.
#[test]
fn random_files_there_and_back_again() {
    let mut comparison = Comparison::new("files of both editions");
    let mut generator = Generator::new(720);
    for turn in 0..3_000 {
        let range = Range::of_turn(turn);
        let fields = random::site_fields(&mut generator, range);
        let places = random::places(&mut generator, range, &fields);
        let (one, two) = (site_file(&fields), site_file_2(&fields, &places));
        comparison.all_of_site(&one);
        comparison.all_of_site(&two);
        let (mut up, mut down) = (vec![0; BLOCK_BYTES], vec![0; BLOCK_BYTES]);
        assert_eq!(ffi::site_to_edition_2(&one, &mut up), 0);
        assert_eq!(ffi::site_to_edition_1(&up, &mut down), 0);
        assert_eq!(down, one);
        let number = ffi::site_to_edition_1(&two, &mut down);
        assert_eq!(number, if places.shares() > 0 { 14 } else { 0 });
    }
    assert!(comparison.accepted > 15_000, "{}", comparison.accepted);
}

/// Every fault of a file of either edition, alone, in every call that takes it.
#[test]
fn every_single_fault() {
    let mut comparison = Comparison::new("single faults of both editions");
    let mut generator = Generator::new(721);
    let yards = [None, Some(Places::default()), Some(marked())];
    let mut met = BTreeSet::new();
    for places in yards {
        let yard = Yard { fields: published::fields(), places };
        for fault in file_faults() {
            let (site, book) = random::damaged(&mut generator, yard, &curves::rows(), &[fault]);
            comparison.all(&site, &book, &random::any_state(&mut generator));
            met.insert(comparison.convert_to_1(&site, BLOCK_BYTES));
            met.insert(comparison.convert_to_2(&site, BLOCK_BYTES));
        }
    }
    assert_eq!(met, BTreeSet::from([0, 1, 3, 4, 5, 6, 7, 13, 14]));
}

/// A fault of the site before one of the foods or of the book, whichever they are.
#[test]
fn the_site_comes_before_foods_and_book() {
    let mut comparison = Comparison::new("13 before foods and book");
    let mut generator = Generator::new(722);
    let site_faults = [Fault::PlaceShares, Fault::PlaceShare(0), Fault::PlaceDust(4), Fault::SiteRelabelled];
    let foods = foods_faults().into_iter().map(Fault::Foods);
    let later: Vec<Fault> = file_faults()
        .into_iter()
        .chain(foods)
        .filter(|fault| matches!(fault.order().0, Turn::Foods | Turn::BookBlock(0 | 16)))
        .collect();
    for site_fault in site_faults {
        for &fault in &later {
            let (site, foods, book) = damaged_with_foods(
                &mut generator,
                &published::fields(),
                &published::foods(),
                &curves::rows(),
                &[site_fault, fault],
            );
            let state = random::any_state(&mut generator);
            let number = site_fault.number();
            assert_eq!(comparison.birth_foods(&site, Some(&foods), &book).number, number, "{fault:?}");
            assert_eq!(comparison.month_foods(&site, Some(&foods), &book, &state).number, number);
            assert_eq!(comparison.run_foods(&site, Some(&foods), &book, MONTHS).number, number);
            assert_eq!(comparison.card_row(&site, Some(&foods), &book, b"no row").number, number);
        }
    }
}

/// Files scratched where the two editions differ.
#[test]
fn scratched_files() {
    let mut comparison = Comparison::new("scratched files");
    let mut generator = Generator::new(723);
    let book = curves::book();
    let mut met = BTreeSet::new();
    for turn in 0..20_000 {
        let site = random::site(&mut generator, Range::of_turn(turn));
        let site = random::scratched_site(&mut generator, site);
        comparison.all_of_site(&site);
        met.insert(comparison.convert_to_1(&site, BLOCK_BYTES));
        met.insert(comparison.convert_to_2(&site, BLOCK_BYTES));
        if turn % 4 == 0 {
            comparison.birth(&site, &book);
            comparison.month(&site, &book, &random::any_state(&mut generator));
        }
    }
    assert_eq!(met, BTreeSet::from([0, 3, 4, 5, 6, 7, 13, 14]));
}

/// Every byte of a file of either edition, turned and sealed again, and turned alone.
#[test]
fn every_byte() {
    let mut comparison = Comparison::new("every byte of both editions");
    let files = [published::site(), site_file_2(&published::fields(), &marked())];
    for site in &files {
        for at in 0..BLOCK_BYTES {
            for turn in [1, 0x80, 0xFF] {
                let mut turned = site.clone();
                turned[at] ^= turn;
                comparison.all_of_site(&turned);
                if at < BODY_BYTES {
                    seal(&mut turned);
                    comparison.all_of_site(&turned);
                }
            }
        }
    }
}

/// Files and targets of any length.
#[test]
fn any_length() {
    let mut comparison = Comparison::new("files and targets of any length");
    let files = [published::site(), site_file_2(&published::fields(), &Places::default())];
    for length in (0..=2 * BLOCK_BYTES).chain([8_704, 65_536, 65_536 + BLOCK_BYTES]) {
        for site in &files {
            comparison.convert_to_2(site, length);
            comparison.convert_to_1(site, length);
            let mut other = site.clone();
            other.resize(length, 0);
            comparison.read_places(&other);
            for target in [length, BLOCK_BYTES, 0] {
                comparison.convert_to_2(&other, target);
                comparison.convert_to_1(&other, target);
            }
        }
    }
}

#[test]
fn random_bytes() {
    let mut comparison = Comparison::new("random bytes as a site file");
    let mut generator = Generator::new(724);
    for _ in 0..2_000 {
        let mut site: Vec<u8> = (0..BLOCK_BYTES).map(|_| generator.any() as u8).collect();
        comparison.all_of_site(&site);
        site[EDITION_AT..EDITION_AT + 2].copy_from_slice(&[1 + generator.index(2) as u8, 0]);
        site[..EDITION_AT].fill(0);
        seal(&mut site);
        comparison.all_of_site(&site);
        site[420..BODY_BYTES].fill(0);
        seal(&mut site);
        comparison.all_of_site(&site);
    }
}

/// The dust of each place alone to its last pg: a part just at 10^9, and one past it, in both modes.
#[test]
fn the_dust_of_each_place_at_and_past_the_limit() {
    let mut comparison = Comparison::new("dust of the places at its limit");
    let book = curves::book();
    let mut met = BTreeSet::new();
    for at in 0..PLACES {
        for (share, eaten, dust) in [(100, 247, 4_048_583), (50, 400, 5_000_000), (1, 1_000, 50_000_000)] {
            for less in [0, 1] {
                for mode in [0, 1] {
                    let mut fields = unabsorbed::fields();
                    fields[place::ABSORBED + 2] = 1;
                    (fields[place::WEIGHT_SOIL], fields[place::DUST_MODE]) = (0, mode);
                    fields[place::DUST..place::DUST + AGES].fill(0);
                    fields[place::SOIL..place::SOIL + AGES].fill(0);
                    fields[place::AIR..place::AIR + AGES].fill(0);
                    fields[place::EATEN..place::EATEN + AGES].fill(eaten);
                    let mut places = Places::default();
                    places.0[at] = Place { share, dust: dust - less };
                    let site = site_file_2(&fields, &places);
                    met.insert(comparison.run(&site, &book, MONTHS).number);
                    let month = (12 * at as u64 + u64::from(share)) % MONTHS as u64;
                    comparison.month(&site, &book, &State { month, ..State::default() });
                }
            }
        }
    }
    assert!(met.contains(&0) && met.contains(&9), "{met:?}");
}

/// 9 by the sum of six parts of which none is over, at the published yard's place and beside it.
#[test]
fn the_sum_of_the_parts_at_and_past_the_limit() {
    let mut comparison = Comparison::new("six parts at their limit");
    let book = curves::book();
    let mut fields = unabsorbed::fields();
    (fields[place::WEIGHT_SOIL], fields[place::DUST_MODE]) = (0, 0);
    fields[place::EATEN..place::EATEN + AGES].fill(200);
    fields[place::DUST..place::DUST + AGES].fill(6_000_000);
    for (dust, number) in [(4_000_000, 0), (4_000_001, 9), (6_000_000, 9), (0, 0)] {
        let mut places = Places::default();
        places.0[2] = Place { share: 50, dust };
        let site = site_file_2(&fields, &places);
        assert_eq!(comparison.run(&site, &book, MONTHS).number, number, "{dust}");
    }
}

/// Every age of an 84-month run over random yards with places, in both modes, with foods and without.
#[test]
fn runs_over_random_yards() {
    let mut comparison = Comparison::new("runs over yards with places");
    let mut generator = Generator::new(725);
    let mut met = BTreeSet::new();
    for turn in 0..300 {
        let range = Range::of_turn(turn);
        let fields = random::site_fields(&mut generator, range);
        let places = random::places(&mut generator, range, &fields);
        let (site, book) = (site_file_2(&fields, &places), random::book(&mut generator, range));
        let foods = generator.once_in(2).then(|| foods_file(&random::foods(&mut generator, range)));
        met.insert(comparison.run_foods(&site, foods.as_deref(), &book, MONTHS).number);
        let row = random::any_row(&mut generator, range);
        comparison.card_row(&site, foods.as_deref(), &book, &row);
    }
    assert!(met.contains(&0) && met.contains(&9), "{met:?}");
    assert!(comparison.accepted > 200, "{}", comparison.accepted);
}

/// The engine's own answers before and after a conversion, up and down: the converted file is another, and nothing else
/// changes.
#[test]
fn no_answer_changes() {
    let mut comparison = Comparison::new("before and after a conversion");
    let mut generator = Generator::new(726);
    for turn in 0..300 {
        let range = Range::of_turn(turn);
        let fields = random::site_fields(&mut generator, range);
        let up = turn % 2 == 0;
        let (before, mut after) = if up {
            (site_file(&fields), vec![0; BLOCK_BYTES])
        } else {
            let figures = Places(std::array::from_fn(|_| Place {
                share: 0,
                dust: generator.between(0, 50_000_000) as u32,
            }));
            (site_file_2(&fields, &figures), vec![0; BLOCK_BYTES])
        };
        let convert = if up { ffi::site_to_edition_2 } else { ffi::site_to_edition_1 };
        assert_eq!(convert(&before, &mut after), 0);
        assert_ne!(before, after);
        let (_, foods, book) = random::card_of_either_kind(&mut generator, range, turn % 4 / 3);
        let (foods, state) = (foods.as_deref(), random::any_state(&mut generator));
        let birth = comparison.birth_foods(&before, foods, &book);
        assert_eq!(comparison.birth_foods(&after, foods, &book), birth);
        let month = comparison.month_foods(&before, foods, &book, &state);
        assert_eq!(comparison.month_foods(&after, foods, &book, &state), month);
        let run = comparison.run_foods(&before, foods, &book, MONTHS);
        assert_eq!(comparison.run_foods(&after, foods, &book, MONTHS), run);
        let row = random::any_row(&mut generator, range);
        let answer = comparison.card_row(&before, foods, &book, &row);
        assert_eq!(comparison.card_row(&after, foods, &book, &row), answer);
        let rows = [row.as_slice(), b"\n", random::any_row(&mut generator, range).as_slice()].concat();
        let (mut answers, mut others) = ([0; GROUP_ANSWERS], [0; GROUP_ANSWERS]);
        let group = ffi::card_group(&before, foods, &book, &rows, &mut answers);
        assert_eq!(ffi::card_group(&after, foods, &book, &rows, &mut others), group);
        assert_eq!(others, answers);
    }
    assert!(comparison.accepted > 800, "{}", comparison.accepted);
}

/// Figures past their limits beside shares that are too many, in every pair of places.
#[test]
fn limits_and_sums_of_every_two_places() {
    let mut comparison = Comparison::new("figures of every two places");
    let values = [0, 1, 50, 51, 99, 100, 101, 50_000_000, 50_000_001, u32::MAX];
    for one in 0..PLACE_FIGURES {
        for other in one + 1..PLACE_FIGURES {
            for (first, second) in values.into_iter().flat_map(|first| values.map(|second| (first, second))) {
                let mut site = site_file_2(&published::fields(), &Places::default());
                put_field(&mut site, SITE_FIELDS + one, first);
                put_field(&mut site, SITE_FIELDS + other, second);
                seal(&mut site);
                comparison.all_of_site(&site);
            }
        }
    }
}

/// A fault of the foods is met behind a sound site file of edition 2.
#[test]
fn foods_behind_a_file_of_edition_2() {
    let mut comparison = Comparison::new("foods behind edition 2");
    let mut generator = Generator::new(727);
    let yard = Yard { fields: published::fields(), places: Some(marked()) };
    for fault in foods_faults() {
        if matches!(fault, FoodsFault::Diet(..)) {
            continue;
        }
        let (site, foods, book) = damaged_with_foods(
            &mut generator,
            yard,
            &published::foods(),
            &curves::rows(),
            &[Fault::Foods(fault)],
        );
        assert_eq!(comparison.birth_foods(&site, Some(&foods), &book).number, fault.number());
    }
}
