//! Every refusal number of a card without a foods block, the order among them, and what a refused call leaves.

#[path = "support/unabsorbed.rs"]
mod unabsorbed;

use jurengate_model::block::{write_block, BLOCK_BYTES, BODY_BYTES};
use jurengate_model::book::{column, read_book, row_fields, RowFields, BLOCK_ROWS, BOOK_ROWS};
use jurengate_model::cards::{self, curves, published};
use jurengate_model::engine::{birth, month, run, MonthAnswer, RunAnswer};
use jurengate_model::random::{
    damaged, fault, file_faults, row_faults, Fault, Generator, Intake, RowFault, INTAKES,
};
use jurengate_model::refusal::{number_of, Refusal};
use jurengate_model::site::{least, most, place, read_site, AGES, SITE_FIELDS};
use jurengate_model::state::{State, MONTHS};

/// What the lent list holds before a run.
const BEFORE: u32 = 0xDEAD_BEEF;

/// A run over a list whose old content is known.
fn run_list(site: &[u8], book: &[u8]) -> (RunAnswer, [u32; MONTHS]) {
    let mut blood = [BEFORE; MONTHS];
    let answer = run(site, book, &mut blood);
    (answer, blood)
}

/// The default card with faults in it.
fn damaged_default(generator: &mut Generator, faults: &[Fault]) -> (Vec<u8>, Vec<u8>) {
    damaged(generator, &published::fields(), &curves::rows(), faults)
}

#[test]
fn every_file_fault_has_its_number_in_all_calls() {
    let mut generator = Generator::new(1);
    let state = birth(&published::site(), &curves::book()).state;
    let rows =
        (0..BOOK_ROWS).flat_map(|month| row_faults().into_iter().map(move |fault| Fault::Row(month, fault)));
    for fault in file_faults().into_iter().chain(rows) {
        let (site, book) = damaged_default(&mut generator, &[fault]);
        let number = fault.number();
        assert_eq!(
            (birth(&site, &book).number, birth(&site, &book).state),
            (number, State::default()),
            "{fault:?}"
        );
        let refused = MonthAnswer { number, state, blood: 0 };
        assert_eq!(month(&site, &book, &state), refused, "{fault:?}");
        let (answer, blood) = run_list(&site, &book);
        assert_eq!(answer, RunAnswer { number, state: State::default(), months: 0 }, "{fault:?}");
        assert_eq!(blood, [BEFORE; MONTHS]);
    }
}

#[test]
fn of_two_faults_the_earlier_in_the_order_is_answered() {
    let mut generator = Generator::new(2);
    for _ in 0..3_000 {
        let faults = [fault(&mut generator), fault(&mut generator)];
        if faults[0] == faults[1] {
            continue;
        }
        let (site, book) = damaged(&mut generator, &unabsorbed::fields(), &curves::rows(), &faults);
        let first = faults.iter().min_by_key(|fault| fault.order()).unwrap();
        let (answer, _) = run_list(&site, &book);
        assert_eq!(answer.number, first.number(), "{faults:?}");
    }
}

#[test]
fn lengths_come_before_the_list_and_the_list_before_the_site() {
    let (site, book) = (published::site(), curves::book());
    for length in [0, 1, 83, 85, 168] {
        let mut blood = vec![BEFORE; length];
        let refused = RunAnswer { number: 2, state: State::default(), months: 0 };
        assert_eq!(run(&site, &book, &mut blood), refused);
        assert_eq!(run(&site[1..], &book, &mut blood).number, 1);
        assert_eq!(run(&site, &book[1..], &mut blood).number, 1);
        let mut damaged = site.clone();
        damaged[508] ^= 1;
        assert_eq!(run(&damaged, &book, &mut blood).number, 2);
        assert!(blood.iter().all(|&figure| figure == BEFORE));
    }
}

#[test]
fn site_limits_are_met_exactly() {
    for index in 0..SITE_FIELDS {
        for value in [least(index), most(index)] {
            let mut fields = published::fields();
            if index == place::FIRST_DRAW_SHARE || index == place::FOUNTAIN_SHARE {
                fields[place::FIRST_DRAW_SHARE..=place::FOUNTAIN_SHARE].fill(0);
            }
            fields[index] = value;
            assert_eq!(read_site(&cards::site_file(&fields)), Ok(fields), "field {index} at {value}");
        }
        let mut fields = published::fields();
        fields[index] = most(index) + 1;
        assert_eq!(read_site(&cards::site_file(&fields)), Err(Refusal::SiteLimits));
        fields[index] = u32::MAX;
        assert_eq!(read_site(&cards::site_file(&fields)), Err(Refusal::SiteLimits));
    }
}

#[test]
fn shares_that_wrap_in_32_bits_are_refused() {
    let mut fields = published::fields();
    (fields[place::FIRST_DRAW_SHARE], fields[place::FOUNTAIN_SHARE]) = (u32::MAX, 2);
    assert_eq!(read_site(&cards::site_file(&fields)), Err(Refusal::SiteLimits));
    (fields[place::FIRST_DRAW_SHARE], fields[place::FOUNTAIN_SHARE]) = (60, 40);
    assert!(read_site(&cards::site_file(&fields)).is_ok());
}

/// The realistic book with one row changed.
fn book_with(month: usize, change: impl Fn(&mut RowFields)) -> Vec<u8> {
    let mut rows = curves::rows();
    change(&mut rows[month]);
    cards::book_file(&rows)
}

#[test]
fn row_limits_are_met_exactly() {
    const D: u32 = 100_000_000;
    let accepted: [fn(&mut RowFields); 12] = [
        |row| (row[column::VB], row[column::VP]) = (1_000, 999),
        |row| (row[column::VB], row[column::VP]) = (60_000, 59_999),
        |row| row[column::VP] = 1,
        |row| row[column::BODY] = 2_000,
        |row| row[column::BODY] = 50_000,
        |row| row[column::KIDNEY..=column::CORTICAL].fill(50_000),
        |row| row[column::KIDNEY..=column::CORTICAL].fill(0),
        |row| {
            row[column::OUT..column::BACK].fill(0);
            row[column::OUT] = 1;
        },
        |row| {
            row[column::OUT..column::BACK].fill(0);
            (row[column::OUT], row[column::URINE]) = (u32::MAX, 2_105_032_705);
        },
        |row| {
            row[column::BACK..column::FAECES].fill(D);
            (row[column::FAECES], row[column::SKIN]) = (0, 0);
        },
        |row| (row[column::BACK + 1], row[column::FAECES]) = (D / 2, D / 2),
        |row| (row[column::BACK + 3], row[column::SKIN]) = (D / 2, D / 2),
    ];
    for month in [0, 4, 5, 24, 84] {
        for (index, change) in accepted.iter().enumerate() {
            assert_eq!(
                number_of(&read_book(&book_with(month, change))),
                0,
                "change {index} of month {month}"
            );
        }
    }
}

#[test]
fn later_book_blocks_are_read_after_earlier_ones() {
    let mut generator = Generator::new(3);
    let faults =
        [Fault::BlockCheck(9), Fault::Row(8 * BLOCK_ROWS, RowFault::Outflow), Fault::BlockEdition(9)];
    let (site, book) = damaged_default(&mut generator, &faults);
    assert_eq!(birth(&site, &book).number, 8);
}

#[test]
fn an_intake_over_the_limit_ends_the_run_at_its_age() {
    let mut generator = Generator::new(4);
    for intake in INTAKES {
        for age in 0..AGES {
            let (site, book) = damaged(
                &mut generator,
                &unabsorbed::fields(),
                &curves::rows(),
                &[Fault::Intake(intake, age)],
            );
            let (answer, blood) = run_list(&site, &book);
            let months = 12 * age;
            assert_eq!((answer.number, answer.months as usize), (9, months), "{intake:?} at {age}");
            assert_eq!(answer.state.month as usize, months);
            assert!(blood[..months].iter().all(|&figure| figure != BEFORE));
            assert!(blood[months..].iter().all(|&figure| figure == BEFORE));
        }
    }
}

#[test]
fn an_intake_at_the_limit_is_accepted() {
    let mut fields = unabsorbed::fields();
    fields[place::WEIGHT_SOIL] = 100;
    fields[place::DUST_MODE] = 0;
    for age in 0..AGES {
        fields[place::EATEN + age] = 20;
        fields[place::SOIL + age] = 50_000_000;
        fields[place::WATER_AMOUNT + age] = 10_000;
        fields[place::HOURS_OUT + age] = 24;
        fields[place::BREATHING + age] = 100_000;
        fields[place::AIR + age] = 10_000_000;
    }
    fields[place::CONSTANT_WATER] = 100_000;
    let (answer, _) = run_list(&cards::site_file(&fields), &curves::book());
    assert_eq!((answer.number, answer.months), (0, 84));
}

#[test]
fn no_state_is_refused_with_20_at_each_limit() {
    let (site, book) = (published::site(), curves::book());
    let number = |state: &State| month(&site, &book, state).number;
    let burden = 50_000_000_000u64;
    let full = |burden: u64| State { compartments: [0, 0, 0, burden, 0, 0, 0], ..State::default() };
    assert_eq!(number(&State { month: 85, ..State::default() }), 20);
    assert_eq!(number(&State { month: 84, ..State::default() }), 21);
    assert_eq!(number(&State { month: u64::MAX, ..State::default() }), 20);
    assert_eq!(number(&full(burden + 1)), 20);
    assert_eq!(number(&full(burden)), 22);
    assert_eq!(number(&State { compartments: [u64::MAX; 7], ..State::default() }), 20);
    let shared = State { compartments: [1 << 63, 1 << 63, 0, 0, 0, 0, 0], ..State::default() };
    assert_eq!(number(&shared), 20, "sums do not wrap");
    for months in [0u64, 1, 83] {
        let room = burden + months * 180_000_000_000;
        let ledgers = |left: u64| State { month: months, ledgers: [left - 2, 1, 1], ..State::default() };
        assert_eq!(number(&ledgers(room)), 0);
        assert_eq!(number(&ledgers(room + 1)), 20);
    }
    assert_eq!(number(&State { month: 84, ledgers: [u64::MAX; 3], ..State::default() }), 20);
}

#[test]
fn twenty_comes_before_21_9_and_22_and_21_before_9() {
    let mut generator = Generator::new(5);
    let (site, book) =
        damaged(&mut generator, &unabsorbed::fields(), &curves::rows(), &[Fault::Intake(Intake::Soil, 6)]);
    let at = |month: u64, burden: u64| State {
        month,
        compartments: [burden, 0, 0, 0, 0, 0, 0],
        ..State::default()
    };
    let full = 50_000_000_000;
    assert_eq!(month(&site, &book, &at(85, 0)).number, 20);
    assert_eq!(month(&site, &book, &at(83, full + 1)).number, 20);
    assert_eq!(month(&site, &book, &at(84, full)).number, 21);
    assert_eq!(month(&site, &book, &at(83, full)).number, 9);
    assert_eq!(month(&site, &book, &at(71, full)).number, 0, "age 5 has no such intake");
    let mut broken = site.clone();
    broken[0] = 1;
    assert_eq!(month(&broken, &book, &at(85, 0)).number, 3);
}

/// A site that brings a given day's uptake at every age, all of it passive diet.
fn diet_site(day: u32) -> Vec<u8> {
    let mut fields = unabsorbed::fields();
    fields[place::DIET..place::DIET + AGES].fill(day);
    fields[place::ABSORBED] = 100;
    fields[place::PASSIVE] = 100;
    fields[place::MOTHER] = 0;
    cards::site_file(&fields)
}

#[test]
fn a_burden_over_the_limit_at_a_step_is_22_and_leaves_the_last_month() {
    let (answer, blood) = run_list(&diet_site(1_000_000_000), &curves::book());
    assert_eq!(answer.number, 22);
    assert_eq!(u64::from(answer.months), answer.state.month);
    assert!(answer.months >= 1 && answer.months < 84);
    assert_eq!(blood.iter().filter(|&&figure| figure != BEFORE).count(), answer.months as usize);
    let book = curves::book();
    let refused = MonthAnswer { number: 22, state: answer.state, blood: 0 };
    assert_eq!(month(&diet_site(1_000_000_000), &book, &answer.state), refused);
}

#[test]
fn the_burden_limit_counts_the_step_in_hand() {
    let book = curves::book();
    let site = diet_site(600); // 100 pg a step
    let with = |plasma: u64| State { compartments: [plasma, 0, 0, 0, 0, 0, 0], ..State::default() };
    assert_eq!(month(&site, &book, &with(50_000_000_000 - 100)).number, 0);
    assert_eq!(month(&site, &book, &with(50_000_000_000 - 99)).number, 22);
}

#[test]
fn a_birth_over_the_burden_is_22_before_any_month() {
    let mut fields = published::fields();
    fields[place::MOTHER] = 100_000;
    let site = cards::site_file(&fields);
    let book = book_with(0, |row| row[column::CORTICAL] = 50_000);
    assert_eq!((birth(&site, &book).number, birth(&site, &book).state), (22, State::default()));
    let (answer, blood) = run_list(&site, &book);
    assert_eq!(answer, RunAnswer { number: 22, state: State::default(), months: 0 });
    assert_eq!(blood, [BEFORE; MONTHS]);
    fields[place::SOIL] = 50_000_000;
    fields[place::EATEN] = 1_000;
    assert_eq!(run_list(&cards::site_file(&fields), &book).0.number, 22, "birth's 22 comes before 9");
    assert_eq!(birth(&cards::site_file(&fields), &curves::book()).number, 0, "birth knows no 9");
}

#[test]
fn the_birth_limit_is_met_exactly() {
    let mut generator = Generator::new(7);
    for (burden, number) in [(50_000_000_000, 0), (50_000_000_001, 22)] {
        let (mother, row) = jurengate_model::random::newborn_of(&mut generator, burden);
        let mut fields = published::fields();
        fields[place::MOTHER] = mother;
        let answer = birth(&cards::site_file(&fields), &book_with(0, |old| *old = row));
        assert_eq!(answer.number, number);
        assert_eq!(answer.state.burden(), if number == 0 { burden.into() } else { 0 });
    }
}

#[test]
fn the_writer_checks_lengths_alone_and_keeps_a_refused_target() {
    for (body, target) in [(507, 512), (509, 512), (508, 511), (508, 513), (0, 512), (508, 0), (512, 508)] {
        let mut bytes = vec![7; target];
        assert_eq!(write_block(&vec![1; body], &mut bytes), Err(Refusal::Length));
        assert!(bytes.iter().all(|&byte| byte == 7));
    }
    let mut block = [7; BLOCK_BYTES];
    assert_eq!(write_block(&[0xFF; BODY_BYTES], &mut block), Ok(()));
    assert_eq!(block[..BODY_BYTES], [0xFF; BODY_BYTES]);
    assert_eq!(u32::from_le_bytes(block[508..].try_into().unwrap()), 65_535 * (254 * 255 / 2));
}

#[test]
fn what_the_writer_writes_is_read_back() {
    let mut generator = Generator::new(6);
    for _ in 0..300 {
        let range = jurengate_model::random::range(&mut generator);
        let fields = jurengate_model::random::site_fields(&mut generator, range);
        assert_eq!(read_site(&cards::site_file(&fields)), Ok(fields));
        let rows = jurengate_model::random::rows(&mut generator, range);
        let book = cards::book_file(&rows);
        assert_eq!(number_of(&read_book(&book)), 0);
        for (month, row) in rows.iter().enumerate() {
            let block = &book[BLOCK_BYTES * (month / BLOCK_ROWS)..][..BLOCK_BYTES];
            assert_eq!(row_fields(block, month % BLOCK_ROWS), *row);
        }
    }
}
