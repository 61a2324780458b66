//! Site edition 2 (request 7): what its reader takes and refuses, and the dust of a house and five places.

#[path = "support/unabsorbed.rs"]
mod unabsorbed;

use jurengate_model::block::{check_of, BLOCK_BYTES, BODY_BYTES, EDITION_AT, NUMBER_AT};
use jurengate_model::book::read_book;
use jurengate_model::card::{card_row, RowCall};
use jurengate_model::cards::{
    book_file, curves, foods_file, published, put_field, seal, site_file, site_file_2,
};
use jurengate_model::convert::{to_edition_1, to_edition_2};
use jurengate_model::engine::{birth, birth_foods, month, run, run_foods};
use jurengate_model::group::{card_group, GROUP_ANSWERS};
use jurengate_model::random::{self, Fault, Generator, Range};
use jurengate_model::refusal::{number_of, Refusal};
use jurengate_model::site::{
    away, place, read_places, read_site, read_site_file, AgeFigures, Away, DustSource, Place, Places, Site,
    SiteFile, AGES, PLACES, PLACE_FIGURES, SITE_FIELDS,
};
use jurengate_model::state::{State, MONTHS};
use jurengate_model::uptake::{
    day_routes, dust_figure, dust_intake, dust_parts, house_share, intakes, Intakes,
};

/// Places with these shares and figures.
fn places(shares: [u32; PLACES], dust: [u32; PLACES]) -> Places {
    Places(std::array::from_fn(|at| Place { share: shares[at], dust: dust[at] }))
}

/// The same as the intake takes them.
fn aways(shares: [u32; PLACES], dust: [u32; PLACES]) -> [Away; PLACES] {
    Site::of_file(&SiteFile { fields: published::fields(), places: places(shares, dust) }).away
}

/// The five figures of the worked example.
const DUST: [u32; PLACES] = [333_333, 77_777, 1_000_001, 12_345, 1];

#[test]
fn the_worked_parts_come_out() {
    let home = aways([0; PLACES], [0; PLACES]);
    assert_eq!(dust_parts(150_000, 100, 45, &home), [8_250_000, 0, 0, 0, 0, 0]);
    let daycare = aways([0, 0, 25, 0, 0], DUST);
    assert_eq!(dust_parts(150_000, 100, 45, &daycare), [6_187_500, 0, 0, 13_750_013, 0, 0]);
    assert_eq!(dust_intake(150_000, 100, 45, &daycare), 19_937_513);
    let all = aways([10, 20, 25, 5, 7], DUST);
    let due = [2_722_500, 1_833_331, 855_547, 13_750_013, 33_948, 3];
    assert_eq!(dust_parts(150_000, 100, 45, &all), due);
    assert_eq!(dust_intake(150_000, 100, 45, &all), 19_195_342);
}

/// One floor for all would give 6,605,993.
#[test]
fn each_part_has_its_own_floor() {
    let all = aways([1, 2, 3, 4, 5], [99_999, 88_888, 77_777, 66_666, 55_555]);
    assert_eq!(dust_intake(150_001, 87, 45, &all), 6_605_990);
    let whole: u128 = 150_001 * 85 + all.iter().map(|place| place.dust * place.share).sum::<u128>();
    assert_eq!(whole * 87 * 55 / 10_000, 6_605_993);
}

/// All five are subtracted, and 100 together leave nothing to the house.
#[test]
fn the_house_has_what_the_places_leave() {
    let share = |shares: [u32; PLACES]| house_share(&aways(shares, [0; PLACES]));
    assert_eq!(share([0; PLACES]), 100);
    assert_eq!(share([10, 20, 25, 5, 7]), 33);
    for at in 0..PLACES {
        let mut shares = [0; PLACES];
        shares[at] = 60;
        assert_eq!(share(shares), 40);
        shares[(at + 1) % PLACES] = 40;
        assert_eq!(share(shares), 0);
    }
}

/// The published site with these places.
fn site_with(places: &Places) -> Vec<u8> {
    site_file_2(&published::fields(), places)
}

/// The dust intake at an age, by the file's bytes.
fn dust_of(site: &[u8], age: usize) -> Result<u128, Refusal> {
    intakes(&Site::of_file(&read_site_file(site)?), age).map(|intakes| intakes.eaten[2])
}

/// Each place's share and figure stands in its eight bytes, behind the mother's field.
#[test]
fn each_place_stands_in_its_bytes() {
    let order = [away::WORK, away::SCHOOL, away::DAYCARE, away::SECOND_HOME, away::OTHER];
    for (k, at) in order.into_iter().enumerate() {
        let mut site = site_with(&Places::default());
        site[380 + 8 * k] = 7;
        site[384 + 8 * k..388 + 8 * k].copy_from_slice(&1_234_567u32.to_le_bytes());
        seal(&mut site);
        let mut due = Places::default();
        due.0[at] = Place { share: 7, dust: 1_234_567 };
        assert_eq!(read_places(&site), Ok(due));
        assert_eq!((site_with(&due), due.figures()[2 * k..2 * k + 2].to_vec()), (site, vec![7, 1_234_567]));
    }
}

/// A block of zeros of edition 2 has the check 4; the fields are those of edition 1.
#[test]
fn edition_2_has_the_fields_of_edition_1() {
    assert_eq!(check_of(&site_file_2(&[0; SITE_FIELDS], &Places::default())), 4);
    let mut generator = Generator::new(700);
    for turn in 0..300 {
        let fields = random::site_fields(&mut generator, Range::of_turn(turn));
        let places = random::places(&mut generator, Range::of_turn(turn), &fields);
        let (one, two) = (site_file(&fields), site_file_2(&fields, &places));
        assert_eq!(one[4..380], two[4..380]);
        assert!(one[380..BODY_BYTES].iter().chain(&two[420..BODY_BYTES]).all(|&byte| byte == 0));
        assert_eq!(read_site_file(&one), Ok(SiteFile { fields, places: Places::default() }));
        assert_eq!(read_site_file(&two), Ok(SiteFile { fields, places }));
        assert_eq!((read_site(&two), read_places(&two)), (Ok(fields), Ok(places)));
    }
}

/// A change of one byte, sealed again.
fn with_byte(site: &[u8], at: usize, byte: u8) -> Vec<u8> {
    let mut changed = site.to_vec();
    changed[at] = byte;
    seal(&mut changed);
    changed
}

#[test]
fn no_other_edition_is_read() {
    for edition in 0..=u16::MAX {
        let mut site = published::site();
        site[EDITION_AT..EDITION_AT + 2].copy_from_slice(&edition.to_le_bytes());
        seal(&mut site);
        let due = if edition == 1 || edition == 2 { 0 } else { 4 };
        assert_eq!(number_of(&read_site(&site)), due, "edition {edition}");
    }
    // Foods block and book have edition 1 alone.
    let (site, mut book) = (published::site(), curves::book());
    let foods = with_byte(&foods_file(&published::foods()), EDITION_AT, 2);
    assert_eq!(birth_foods(&site, Some(&foods), &book).number, 4);
    book[EDITION_AT] = 2;
    seal(&mut book[..BLOCK_BYTES]);
    assert_eq!(birth(&site, &book).number, 4);
}

/// Reserved bytes are 380 to 507 in edition 1, and 420 to 507 in edition 2.
#[test]
fn reserved_bytes_begin_by_the_edition() {
    let (one, two) = (published::site(), site_with(&Places::default()));
    for at in 4..BODY_BYTES {
        let number = |site: &[u8]| number_of(&read_site(&with_byte(site, at, site[at] ^ 1)));
        assert_eq!(number(&one) == 6, at >= 380, "byte {at} of edition 1");
        assert_eq!(number(&two) == 6, at >= 420, "byte {at} of edition 2");
    }
}

/// Each share and each dust figure, whatever the others are; a figure without a share too.
#[test]
fn limits_of_the_places_are_met_exactly() {
    for figure in 0..PLACE_FIGURES {
        let most = if figure % 2 == 0 { 100 } else { 50_000_000 };
        let number = |value: u32| {
            let mut figures = [0; PLACE_FIGURES];
            figures[figure] = value;
            number_of(&read_site(&site_with(&Places::of_figures(&figures))))
        };
        let numbers = [0, 1, most, most + 1, u32::MAX].map(number);
        assert_eq!(numbers, [0, 0, 0, 7, 7], "figure {figure}");
    }
}

#[test]
fn shares_of_100_together_pass_and_101_are_13() {
    let number = |shares: [u32; PLACES]| number_of(&read_site(&site_with(&places(shares, DUST))));
    for at in 0..PLACES {
        let mut shares = [20; PLACES];
        assert_eq!(number(shares), 0);
        shares[at] += 1;
        assert_eq!(number(shares), 13);
        shares[at] = 101;
        assert_eq!(number(shares), 7, "one share over 100 is 7");
        let mut alone = [0; PLACES];
        alone[at] = 100;
        assert_eq!(number(alone), 0);
        alone[(at + 1) % PLACES] = 1;
        assert_eq!(number(alone), 13);
    }
    assert_eq!(number([100; PLACES]), 13);
    // 2^32 - 50 and five tens wrap to 0 in 32 bits.
    assert_eq!(number([u32::MAX - 39, 10, 10, 10, 10]), 7);
}

/// What can be wrong with a site file of edition 2 from 3 to 13, in the order of refusals.
const SITE_NUMBERS: [u32; 6] = [3, 4, 5, 6, 7, 13];

/// A site file of edition 2 with everything wrong from this place of the list on.
fn wrong_from(first: usize) -> Vec<u8> {
    let mut site = site_with(&places([60, 60, 0, 0, 0], DUST));
    let is_wrong = |number: u32| SITE_NUMBERS[first..].contains(&number);
    if is_wrong(7) {
        put_field(&mut site, place::HOURS_OUT, 25);
    }
    if is_wrong(6) {
        site[507] = 1;
    }
    if is_wrong(5) {
        site[NUMBER_AT] = 1;
    }
    if is_wrong(4) {
        site[EDITION_AT] = 3;
    }
    seal(&mut site);
    if is_wrong(3) {
        site[BODY_BYTES] ^= 1;
    }
    site
}

/// 13 is the last of the site's own, and stands before the foods block, the book, the row's text and the newborn.
#[test]
fn thirteen_stands_behind_7_and_before_all_else() {
    let mut rows = curves::rows();
    rows[0][0] = 999;
    let (foods, book) = (foods_file(&published::foods()), book_file(&rows));
    for (first, number) in SITE_NUMBERS.into_iter().enumerate() {
        let site = wrong_from(first);
        assert_eq!((number_of(&read_site(&site)), number_of(&read_places(&site))), (number, number));
        for foods in [None, Some(&foods[..]), Some(&foods[1..]), Some(&[]), Some(&site[..])] {
            assert_eq!(birth_foods(&site, foods, &book).number, number);
            let mut blood = [0; MONTHS];
            let answer = run_foods(&site, foods, &book, &mut blood);
            assert_eq!((answer.number, answer.months, blood), (number, 0, [0; MONTHS]));
            let refused = RowCall { number, blood: 0, skipped: false };
            assert_eq!(card_row(&site, foods, &book, b"no row"), refused);
            let mut list = [9; GROUP_ANSWERS];
            let group = card_group(&site, foods, &book, b"no row\n", &mut list);
            assert_eq!((group.rows, group.decodes, list[..3].to_vec()), (1, 0, vec![2, number, 9]));
        }
        let no_state = State { month: 85, ..State::default() };
        assert_eq!(month(&site, &book, &no_state).number, number);
        assert_eq!(run(&site, &book, &mut [0; 83]).number, 2, "the list comes before the site");
        assert_eq!(run(&site, &book[1..], &mut [0; MONTHS]).number, 1);
        assert_eq!(run(&site[1..], &book, &mut [0; MONTHS]).number, 1);
    }
}

/// Given dust and dust from soil and air: the mode says only where the house's figure comes from.
#[test]
fn places_count_in_both_modes() {
    let away = places([10, 0, 25, 0, 0], [400_000, 7, 2_000_000, 8, 9]);
    for (mode, house) in [(0, 90_000), (1, 150_000)] {
        let mut fields = published::fields();
        fields[place::DUST_MODE] = mode;
        fields[place::DUST..place::DUST + AGES].fill(90_000);
        for (age, eaten) in published::EATEN.into_iter().map(u128::from).enumerate() {
            let due = house * eaten * 55 * 65 / 10_000
                + 400_000 * eaten * 55 * 10 / 10_000
                + 2_000_000 * eaten * 55 * 25 / 10_000;
            assert_eq!(dust_of(&site_file_2(&fields, &away), age), Ok(due), "mode {mode}, age {age}");
        }
    }
}

/// The house's figure is floored over 1,000 before its part is.
#[test]
fn the_house_s_figure_has_a_floor_of_its_own() {
    let figures = AgeFigures { soil: 99, air: 1, ..AgeFigures::default() };
    let source = DustSource::MultipleSource { contribution: 1, factor: 9 };
    assert_eq!(dust_figure(&figures, &source), 0);
    let mut fields = published::fields();
    (fields[place::CONTRIBUTION], fields[place::AIR_TO_DUST]) = (1, 9);
    fields[place::SOIL..place::SOIL + AGES].fill(99);
    fields[place::AIR..place::AIR + AGES].fill(1);
    fields[place::EATEN..place::EATEN + AGES].fill(1_000);
    (fields[place::WEIGHT_SOIL], fields[place::DUST_MODE]) = (0, 1);
    // 999 thousandths of a pg a mg are none.
    assert_eq!(dust_of(&site_file_2(&fields, &Places::default()), 0), Ok(0));
}

/// 9 is of the six parts together, in either mode, and a part of its own does not matter.
#[test]
fn nine_is_of_the_sum_alone() {
    let mut fields = unabsorbed::fields();
    (fields[place::WEIGHT_SOIL], fields[place::DUST_MODE]) = (0, 0);
    fields[place::EATEN..place::EATEN + AGES].fill(200);
    fields[place::DUST..place::DUST + AGES].fill(6_000_000);
    let run_of = |shares: [u32; PLACES], dust: u32| {
        let site = site_file_2(&fields, &places(shares, [0, 0, dust, 0, 0]));
        let answer = run(&site, &curves::book(), &mut [0; MONTHS]);
        (answer.number, answer.months)
    };
    assert_eq!(run_of([0; PLACES], 0), (9, 0), "the house alone");
    assert_eq!(run_of([0, 0, 50, 0, 0], 4_000_000), (0, 84), "600 and 400 million");
    assert_eq!(run_of([0, 0, 50, 0, 0], 4_000_001), (9, 0), "100 more");
    assert_eq!(run_of([0, 0, 100, 0, 0], 5_000_000), (0, 84), "all of it at one place");
    assert_eq!(run_of([0, 0, 50, 0, 0], 6_000_000), (9, 0), "neither part is over");
}

/// The age that eats most is refused, and no earlier one.
#[test]
fn nine_by_a_place_ends_the_run_at_its_age() {
    let mut generator = Generator::new(701);
    for at in 0..PLACES {
        for age in 0..AGES {
            let fault = Fault::PlaceIntake(at, age);
            let (site, book) =
                random::damaged(&mut generator, &unabsorbed::fields(), &curves::rows(), &[fault]);
            let answer = run(&site, &book, &mut [0; MONTHS]);
            assert_eq!((answer.number, answer.months as usize), (9, 12 * age), "{fault:?}");
        }
    }
}

/// Dust is one medium: its q is that of the six parts together, and q of each would be less.
#[test]
fn dust_has_one_q() {
    let mut fields = published::fields();
    (fields[place::ABSORBED + 2], fields[place::PASSIVE + 2]) = (33, 100);
    let away = places([1, 2, 3, 4, 5], [99_999, 88_888, 77_777, 66_666, 55_555]);
    let site = Site::of_file(&SiteFile { fields, places: away });
    let book = read_book(&curves::book()).expect("the realistic book");
    let house = dust_figure(&site.ages[0], &site.dust_source);
    let parts = dust_parts(house, site.ages[0].eaten, site.weight_soil, &site.away);
    let (together, each) =
        (33 * parts.iter().sum::<u128>() / 100, parts.map(|part| 33 * part / 100).iter().sum::<u128>());
    assert!(each < together);
    let routes = day_routes(&site, &book, 1).expect("no intake over its limit");
    assert_eq!((routes.passive[2], routes.active[2]), (together, 0));
}

/// The old dust intake, as edition 1 had it before there were places.
fn old_dust(fields: &[u32; SITE_FIELDS], age: usize) -> u128 {
    let at = |index: usize| u128::from(fields[index]);
    let figure = match fields[place::DUST_MODE] {
        0 => at(place::DUST + age),
        _ => {
            let by_soil = 10 * at(place::CONTRIBUTION) * at(place::SOIL + age);
            (by_soil + at(place::AIR_TO_DUST) * at(place::AIR + age)) / 1_000
        }
    };
    figure * at(place::EATEN + age) * (100 - at(place::WEIGHT_SOIL)) / 100
}

/// Edition 1, and edition 2 without a share whatever its figures are.
#[test]
fn without_a_share_the_dust_is_that_of_edition_1() {
    let mut generator = Generator::new(702);
    let (mut within, mut over) = (0, 0);
    for turn in 0..3_000 {
        let range = Range::of_turn(turn);
        let fields = random::site_fields(&mut generator, range);
        let mut figures = random::places(&mut generator, range, &fields);
        figures.0.iter_mut().for_each(|place| place.share = 0);
        let files = [site_file(&fields), site_file_2(&fields, &figures)];
        for age in 0..AGES {
            let due = old_dust(&fields, age);
            let [one, two] = files
                .each_ref()
                .map(|site| intakes(&Site::of_file(&read_site_file(site).expect("within limits")), age));
            assert_eq!(one, two);
            match one {
                Ok(Intakes { eaten, .. }) => {
                    assert_eq!(eaten[2], due);
                    within += 1;
                }
                Err(refusal) => {
                    assert_eq!(refusal, Refusal::Intake);
                    over += usize::from(due > 1_000_000_000);
                }
            }
        }
    }
    assert!(within > 10_000 && over > 100, "{within} within, {over} over");
}

/// A second writing of the whole intake, from the bytes, with signs and all of E-9.5 and E-12.
fn dust_again(site: &[u8], age: usize) -> i128 {
    let word = |at: usize| i128::from(u32::from_le_bytes(site[at..at + 4].try_into().expect("four bytes")));
    let aged = |first: usize| word(first + 4 * age);
    let (air, soil, dust, eaten) = (aged(4), aged(172), aged(200), aged(228));
    let (weight_soil, contribution, factor, mode) = (word(288), word(292), word(296), word(300));
    let figure = if mode == 0 { dust } else { (10 * contribution * soil + factor * air) / 1_000 };
    let total = eaten * (100 - weight_soil);
    let part = |figure: i128, share: i128| figure * total * share / 10_000;
    let (work, school, daycare, second, other) = (word(380), word(388), word(396), word(404), word(412));
    part(figure, 100 - work - school - daycare - second - other)
        + part(word(384), work)
        + part(word(392), school)
        + part(word(400), daycare)
        + part(word(408), second)
        + part(word(416), other)
}

#[test]
fn random_yards_with_places_have_the_dust_of_a_second_writing() {
    let mut generator = Generator::new(703);
    let (mut within, mut over, mut apart, mut filled) = (0, 0, 0, 0);
    for turn in 0..3_000 {
        let range = Range::of_turn(turn);
        let fields = random::site_fields(&mut generator, range);
        let away = random::places(&mut generator, range, &fields);
        let site = site_file_2(&fields, &away);
        filled += usize::from(away.shares() == 100);
        for age in 0..AGES {
            let due = dust_again(&site, age);
            match dust_of(&site, age) {
                Ok(dust) => {
                    assert_eq!(dust as i128, due);
                    within += 1;
                    apart += usize::from(due != old_dust(&fields, age) as i128);
                }
                Err(refusal) => {
                    assert_eq!(refusal, Refusal::Intake);
                    over += usize::from(due > 1_000_000_000);
                }
            }
        }
    }
    assert!(
        within > 8_000 && over > 300 && apart > 3_000 && filled > 500,
        "{within} {over} {apart} {filled}"
    );
}

/// A row's DUST is the house's, and the places keep shares and figures.
#[test]
fn a_row_s_dust_is_the_house_s() {
    let away = places([10, 0, 25, 0, 0], [400_000, 0, 2_000_000, 0, 0]);
    let row = b"A1 1 1 24 300 500 * * * * * *";
    let mut by_hand = published::fields();
    by_hand[place::SOIL..place::SOIL + AGES].fill(300_000);
    by_hand[place::DUST..place::DUST + AGES].fill(500_000);
    (by_hand[place::DUST_MODE], by_hand[place::WATER_MODE]) = (0, 0);
    let book = curves::book();
    let mut blood = [0; MONTHS];
    run(&site_file_2(&by_hand, &away), &book, &mut blood);
    assert_eq!(card_row(&site_with(&away), None, &book, row).blood, blood[23]);
    let home = card_row(&published::site(), None, &book, row).blood;
    assert!(home < blood[23], "{home}");
    // Where the places have the whole share, DUST changes nothing.
    let all_day = site_with(&places([0, 0, 100, 0, 0], [0, 0, 150_000, 0, 0]));
    let bloods = ["0", "500", "5000"].map(|dust| {
        let row = format!("A1 1 1 24 300 {dust} * * * * * *");
        card_row(&all_day, None, &book, row.as_bytes())
    });
    assert!(bloods[0].number == 0 && bloods.iter().all(|call| *call == bloods[0]), "{bloods:?}");
}

/// The random damage meets what it is made for.
#[test]
fn random_yards_meet_every_refusal_often() {
    let mut generator = Generator::new(704);
    let mut met = [0; 15];
    for turn in 0..4_000 {
        let site = random::site(&mut generator, Range::of_turn(turn));
        let site = random::scratched_site(&mut generator, site);
        let mut target = [0; BLOCK_BYTES];
        for outcome in [to_edition_1(&site, &mut target), to_edition_2(&site, &mut target)] {
            met[number_of(&outcome) as usize] += 1;
        }
    }
    for number in [0, 3, 4, 6, 7, 13, 14] {
        assert!(met[number] >= 100, "{number}: {met:?}");
    }
}
