//! The engine's rows of batch cards held to the model (feature `engine`).

#[path = "support/comparison.rs"]
mod comparison;
#[path = "support/unabsorbed.rs"]
mod unabsorbed;

use comparison::Comparison;
use jurengate_model::book::column;
use jurengate_model::card::{field, RowCall, CARD_FIELDS, GOES};
use jurengate_model::cards::{book_file, curves, foods_file, published, site_file};
use jurengate_model::ffi;
use jurengate_model::foods::food;
use jurengate_model::random::{
    self, any_row, break_intake, break_texts, closed_rows, damaged_with_foods, eat_alone, field_texts,
    file_faults, foods_faults, joined, newborn_of, row_faults, scratched, survey_row, text_faults, Eaten,
    Fault, FieldTexts, FoodsFault, Generator, Range, TextFault, INTAKES,
};
use jurengate_model::site::{place, AGES, SITE_FIELDS};
use jurengate_model::state::{BURDEN_LIMIT, MONTHS};
use std::collections::BTreeSet;

const ACCEPTED: RowCall = RowCall { number: 0, blood: 0, skipped: false };
const SKIPPED: RowCall = RowCall { skipped: true, ..ACCEPTED };

fn refused(number: u32) -> RowCall {
    RowCall { number, ..ACCEPTED }
}

/// A row of this age over the published soil and dust, gaps else.
fn aged(age: usize) -> Vec<u8> {
    format!("A1 1 1 {age} 200 150 * * * * * *").into_bytes()
}

fn texts(row: &[u8]) -> FieldTexts {
    row.split(|&byte| byte == b' ').map(<[u8]>::to_vec).collect()
}

/// A site of three water sources and multiple-source dust, of which gaps must see nothing.
fn mixed_fields() -> [u32; SITE_FIELDS] {
    let mut fields = published::fields();
    (fields[place::DUST_MODE], fields[place::WATER_MODE]) = (1, 1);
    fields[place::FLUSHED..=place::FOUNTAIN].copy_from_slice(&[11_000, 52_000, 33_000]);
    (fields[place::FIRST_DRAW_SHARE], fields[place::FOUNTAIN_SHARE]) = (40, 25);
    (fields[place::CONTRIBUTION], fields[place::AIR_TO_DUST]) = (90, 700);
    for age in 0..AGES {
        fields[place::AIR + age] += 10_000 * age as u32;
        fields[place::ALTERNATE + age] = 500_000 * (age as u32 + 1);
    }
    fields[place::ABSORBED..place::PASSIVE].copy_from_slice(&[51, 52, 33, 34, 55]);
    fields
}

/// The published site with both modes 0 and the soil and dust of `aged`, whose rows then change nothing.
fn plain_fields() -> [u32; SITE_FIELDS] {
    let mut fields = published::fields();
    (fields[place::DUST_MODE], fields[place::WATER_MODE]) = (0, 0);
    fields[place::SOIL..place::SOIL + AGES].fill(200_000);
    fields[place::DUST..place::DUST + AGES].fill(150_000);
    fields
}

/// Every age of one child, each the figure that the run has.
#[test]
fn every_age_of_a_childhood() {
    let mut comparison = Comparison::new("every age");
    let (site, book, foods) = (site_file(&plain_fields()), curves::book(), foods_file(&published::foods()));
    for foods in [None, Some(foods.as_slice())] {
        let mut blood = [0; MONTHS];
        assert_eq!(ffi::run_foods(&site, foods, &book, &mut blood).number, 0);
        for age in 1..=MONTHS {
            let answer = comparison.card_row(&site, foods, &book, &aged(age));
            assert_eq!(answer, RowCall { blood: blood[age - 1], ..ACCEPTED }, "age {age}");
        }
        for age in [0, 85, 99_999_999] {
            assert_eq!(comparison.card_row(&site, foods, &book, &aged(age)), SKIPPED, "age {age}");
        }
    }
}

/// Each fault of a row alone over a plain site and over one with both modes, and many twos.
#[test]
fn faults_of_a_row() {
    let mut comparison = Comparison::new("faults of a row");
    let (faults, book) = (text_faults(), curves::book());
    let mut generator = Generator::new(300);
    for fields in [published::fields(), mixed_fields()] {
        let site = site_file(&fields);
        for &fault in &faults {
            let mut row = texts(&aged(3));
            break_texts(&mut row, &[fault]);
            let due = fault.number().map_or(SKIPPED, refused);
            assert_eq!(
                comparison.card_row(&site, None, &book, &joined(&mut generator, &row)),
                due,
                "{fault:?}"
            );
        }
    }
    let site = published::site();
    for (turn, &one) in faults.iter().enumerate() {
        let rows: Vec<Vec<u8>> = faults
            .iter()
            .skip(turn % 5)
            .step_by(5)
            .map(|&other| {
                let mut row = field_texts(&mut generator, Range::Near);
                row[field::AGE] = b"2".to_vec();
                break_texts(&mut row, &[one, other]);
                joined(&mut generator, &row)
            })
            .collect();
        comparison.card_rows(&site, None, &book, rows.iter().map(Vec::as_slice));
    }
}

/// Each field given or a gap, in all ways, over a site with both modes 0 and one with both 1.
#[test]
fn every_set_of_gaps() {
    let mut comparison = Comparison::new("sets of gaps");
    let given = ["A1", "7", "8", "13", "430.5", "99.001", "17.25", "0.6", "3.75", "12", "41", "22"];
    let book = curves::book();
    let mut met = BTreeSet::new();
    for fields in [published::fields(), mixed_fields()] {
        let site = site_file(&fields);
        for set in 0..1u32 << CARD_FIELDS {
            let texts: Vec<&str> = (0..CARD_FIELDS)
                .map(|place| if set >> place & 1 == 1 { "*" } else { given[place] })
                .collect();
            // ID, FAM, BLOCK and PBB change nothing: a few of their gaps are enough.
            let idle = set & (1 << field::ID | 1 << field::FAM | 1 << field::BLOCK | 1 << field::PBB);
            if idle.count_ones() > 1 || (idle != 0 && set % 5 != 0) {
                continue;
            }
            let answer = comparison.card_row(&site, None, &book, texts.join(" ").as_bytes());
            assert_eq!(answer.number, 0);
            met.insert(answer.blood);
        }
    }
    assert!(met.len() > 100, "{} figures", met.len());
}

/// Each figure at its limit, next to it on both sides, and in several ways to write it.
#[test]
fn figures_at_their_limits() {
    let mut comparison = Comparison::new("figures at their limits");
    let (site, book) = (site_file(&unabsorbed::fields()), curves::book());
    let (soil, absorbed) = (
        ["50000", "50000.1", "50000.01", "50001", "49999.99", "050000.0", "99999999"],
        ["100", "101", "00000100", "00000101", "99999999", "4294968", "42949673"],
    );
    let written = [
        soil,
        soil,
        ["10000", "10000.1", "10000.01", "10001", "9999.999", "010000.0", "99999999"],
        ["100", "100.001", "100.01", "101", "99.999", "0100.000", "4294.968"],
        ["1000", "1000.001", "1001", "999.999", "1000.000", "4294.968", "99999999"],
        absorbed,
        absorbed,
    ];
    let mut met = BTreeSet::new();
    for (goes, written) in GOES.iter().zip(written) {
        for text in written {
            let mut row = texts(&aged(2));
            row[goes.from] = text.as_bytes().to_vec();
            met.insert(comparison.card_row(&site, None, &book, &row.join(&b' ')).number);
        }
    }
    assert_eq!(met, BTreeSet::from([0, 7, 9]));
}

/// What a field can be, pieced together of what a figure has and what it has not.
#[test]
fn figures_in_all_forms() {
    let mut comparison = Comparison::new("forms of figures");
    let (site, book) = (published::site(), curves::book());
    let pieces = [
        "", "0", "1", "9", ".", "*", "-", "00", "12", "999", "1234", "\t", "\r", "\0", "\u{7f}", "\u{e9}",
        "e", "+", ",", "/", ":",
    ];
    let mut met = BTreeSet::new();
    for place in [field::FAM, field::AGE, field::SOIL, field::PBB, field::ABSDUST] {
        for first in pieces {
            for second in pieces {
                for third in ["", "5", ".", "25", "0000", "*"] {
                    let text = format!("{first}{second}{third}");
                    let mut row = texts(&aged(1));
                    row[place] = text.into_bytes();
                    met.insert(comparison.card_row(&site, None, &book, &row.join(&b' ')).number);
                }
            }
        }
    }
    assert!(met.contains(&0) && met.contains(&12), "{met:?}");
}

/// Every byte in each place of a row, and every length of ID.
#[test]
fn every_byte() {
    let mut comparison = Comparison::new("every byte");
    let (site, book) = (published::site(), curves::book());
    let row = aged(1);
    let changed = (0..row.len()).flat_map(|at| (0..=255).map(move |byte| (at, byte)));
    let rows: Vec<Vec<u8>> = changed
        .map(|(at, byte): (usize, u8)| {
            let mut row = row.clone();
            row[at] = byte;
            row
        })
        .collect();
    comparison.card_rows(&site, None, &book, rows.iter().map(Vec::as_slice));
    for length in 0..20 {
        let row = [vec![0xFF; length], row[2..].to_vec()].concat();
        let due = if (1..=8).contains(&length) { 0 } else { 12 };
        assert_eq!(comparison.card_row(&site, None, &book, &row).number, due, "ID of {length} bytes");
    }
}

/// Rows of every length, of spaces, of one field and of many; a line feed is a byte like the others.
#[test]
fn rows_of_any_length() {
    let mut comparison = Comparison::new("rows of any length");
    let (site, book) = (published::site(), curves::book());
    let row = aged(2);
    let whole = comparison.card_row(&site, None, &book, &row);
    for length in 0..row.len() {
        assert_eq!(comparison.card_row(&site, None, &book, &row[..length]), refused(12), "{length} bytes");
    }
    for spaces in [1, 7, 511, 512, 4_096, 100_000] {
        let spaces = " ".repeat(spaces);
        let wide = String::from_utf8(row.clone()).expect("text").replace(' ', &spaces);
        for row in [format!("{spaces}{wide}"), format!("{wide}{spaces}"), wide] {
            assert_eq!(comparison.card_row(&site, None, &book, row.as_bytes()), whole);
        }
        assert_eq!(comparison.card_row(&site, None, &book, spaces.as_bytes()), refused(12));
    }
    for length in [9, 256, 264, 4_096, 65_537, 65_544, 100_000] {
        let long = [b"1".repeat(length), row[2..].to_vec()].concat();
        assert_eq!(comparison.card_row(&site, None, &book, &long), refused(12), "a field of {length} bytes");
    }
    for fields in [11, 13, 24, 256 + 12, 65_536 + 12] {
        let many = "1 ".repeat(fields);
        assert_eq!(comparison.card_row(&site, None, &book, many.as_bytes()), refused(12), "{fields} fields");
    }
    let mut named = texts(&row);
    named[field::ID] = b"A\nB".to_vec();
    assert_eq!(comparison.card_row(&site, None, &book, &named.join(&b' ')), whole);
    assert_eq!(comparison.card_row(&site, None, &book, &[&row, b"\n".as_slice()].concat()), refused(12));
}

/// Rows whole and damaged, over cards whole and damaged, with foods and without.
#[test]
fn random_rows_over_random_cards() {
    let mut comparison = Comparison::new("random rows");
    let mut generator = Generator::new(301);
    let (mut met, mut skipped) = (BTreeSet::new(), 0);
    for turn in 0..2_500 {
        let range = Range::of_turn(turn);
        let faults = if generator.once_in(6) { 1 + generator.index(3) } else { 0 };
        let (site, foods, book) = random::card_of_either_kind(&mut generator, range, faults);
        let range = random::range(&mut generator);
        let rows: Vec<Vec<u8>> = (0..6).map(|_| any_row(&mut generator, range)).collect();
        for answer in comparison.card_rows(&site, foods.as_deref(), &book, rows.iter().map(Vec::as_slice)) {
            met.insert(answer.number);
            skipped += usize::from(answer.skipped);
        }
    }
    assert_eq!(met, BTreeSet::from([0, 1, 3, 4, 5, 6, 7, 8, 9, 10, 11, 12, 13, 22]));
    assert!(
        skipped > 400 && comparison.accepted > 4_000,
        "{skipped} skipped, {} accepted",
        comparison.accepted
    );
}

/// Rows with scratches, of children so young that many can be run.
#[test]
fn scratched_rows() {
    let mut comparison = Comparison::new("scratched rows");
    let mut generator = Generator::new(302);
    for turn in 0..60 {
        let range = Range::of_turn(turn);
        let (site, foods, book) = random::card_of_either_kind(&mut generator, range, 0);
        let rows: Vec<Vec<u8>> = (0..500)
            .map(|_| {
                let mut row = field_texts(&mut generator, range);
                row[field::AGE] = [b"1", b"2", b"3"][generator.index(3)].to_vec();
                let row = joined(&mut generator, &row);
                scratched(&mut generator, row)
            })
            .collect();
        comparison.card_rows(&site, foods.as_deref(), &book, rows.iter().map(Vec::as_slice));
    }
    assert!(comparison.accepted > 4_000, "{} accepted", comparison.accepted);
}

/// Without the flag the bytes of a foods block are not looked at; with it an empty block has a wrong length.
#[test]
fn foods_count_by_their_flag() {
    let (site, book, row) = (published::site(), curves::book(), aged(30));
    let mut much = published::foods();
    much.leads.iter_mut().for_each(|lead| *lead *= 30);
    let (foods, much) = (foods_file(&published::foods()), foods_file(&much));
    let without = ffi::card_row(&site, None, &book, &row);
    for beside in [&foods[..], &much, &foods[..100], &[], &[0xFF; 512]] {
        assert_eq!(ffi::card_row_beside(&site, false, beside, &book, &row), without);
    }
    let mut comparison = Comparison::new("foods by their flag");
    let with_foods = comparison.card_row(&site, Some(&foods), &book, &row);
    assert!(with_foods.number == 0 && with_foods != without);
    assert!(comparison.card_row(&site, Some(&much), &book, &row).blood > with_foods.blood);
    assert_eq!(comparison.card_row(&site, Some(&[]), &book, &row), refused(1));
}

/// A row of each kind: one that runs, 12, skipped, 7.
fn kinds_of_row() -> [Vec<u8>; 4] {
    let changed = |fault: TextFault| {
        let mut row = texts(&aged(1));
        break_texts(&mut row, &[fault]);
        row.join(&b' ')
    };
    [aged(1), changed(TextFault::Return), changed(TextFault::BothGaps), changed(TextFault::Over(0))]
}

/// Each fault of the files is every row's number, before 12, the skip and 7.
#[test]
fn refused_files() {
    let mut comparison = Comparison::new("rows of refused files");
    let mut generator = Generator::new(303);
    let rows = kinds_of_row();
    let rows: Vec<&[u8]> = rows.iter().map(Vec::as_slice).collect();
    let mut faults = file_faults();
    faults.extend(row_faults().into_iter().flat_map(|each| [Fault::Row(0, each), Fault::Row(84, each)]));
    faults.extend(foods_faults().into_iter().map(Fault::Foods));
    let mut met = BTreeSet::new();
    for fault in faults.into_iter().filter(|fault| fault.number() != 9) {
        let (site, foods, book) = damaged_with_foods(
            &mut generator,
            &published::fields(),
            &published::foods(),
            &curves::rows(),
            &[fault],
        );
        let answers = comparison.card_rows(&site, Some(&foods), &book, rows.iter().copied());
        assert_eq!(answers, vec![refused(fault.number()); rows.len()], "{fault:?}");
        met.insert(fault.number());
        let answers = comparison.card_rows(&site, None, &book, rows.iter().copied());
        let due = if matches!(fault, Fault::Foods(_)) {
            vec![0, 12, 0, 7]
        } else {
            vec![fault.number(); rows.len()]
        };
        assert_eq!(answers.iter().map(|answer| answer.number).collect::<Vec<_>>(), due, "{fault:?}");
    }
    assert_eq!(met, BTreeSet::from([1, 3, 4, 5, 6, 7, 8, 10, 11, 13]));
}

/// An intake of an age over 10^9 refuses the rows of its first month and later ones, and no earlier row.
#[test]
fn refusal_9_up_to_age_and_after_it() {
    let mut comparison = Comparison::new("9 up to AGE");
    let book = curves::book();
    let ages = |age: usize| [12 * age, 12 * age + 1, 12 * age + 12];
    for age in 0..AGES {
        for intake in INTAKES {
            let mut fields = unabsorbed::fields();
            break_intake(&mut fields, intake, age);
            let site = site_file(&fields);
            for months in ages(age) {
                comparison.card_row(&site, None, &book, &aged(months));
            }
        }
        let mut fields = unabsorbed::fields();
        break_intake(&mut fields, random::Intake::ConstantWater, age);
        let answers =
            ages(age).map(|months| comparison.card_row(&site_file(&fields), None, &book, &aged(months)));
        assert_eq!(answers.map(|answer| answer.number), [0, 9, 9]);
        let mut foods = published::foods();
        foods.grams.as_flattened_mut().fill(0);
        eat_alone(&mut foods, Eaten::Food(food::MEAT), age, 1_001, 1_000_000);
        let (site, foods) = (site_file(&unabsorbed::fields()), foods_file(&foods));
        let answers = ages(age).map(|months| comparison.card_row(&site, Some(&foods), &book, &aged(months)));
        assert_eq!(answers.map(|answer| answer.number), [0, 9, 9]);
    }
    // The row's own figures: soil and dust within their limits, and over 10^9 by what is eaten.
    let site = published::site();
    for row in ["A 1 1 1 50000 1 * * * * * *", "A 1 1 1 * 50000 * * * * * *", "A 1 1 1 1 1 10000 * * * * *"] {
        assert_eq!(comparison.card_row(&site, None, &book, row.as_bytes()).number, 9, "{row}");
    }
}

/// A newborn at the burden's limit, then one pg over it; a burden that fills up month by month.
#[test]
fn refusal_22_at_birth_up_to_age_and_after_it() {
    let mut comparison = Comparison::new("22 up to AGE");
    let mut generator = Generator::new(304);
    let limit = BURDEN_LIMIT as u64;
    for (burden, number) in [(limit, 0), (limit + 1, 22)] {
        let (mother, row) = newborn_of(&mut generator, burden);
        let mut fields = unabsorbed::fields();
        fields[place::MOTHER] = mother;
        let mut rows = curves::rows();
        rows[0] = row;
        let (site, book) = (site_file(&fields), book_file(&rows));
        assert_eq!(comparison.card_row(&site, None, &book, &aged(1)).number, number);
        assert_eq!(comparison.card_row(&site, None, &book, &aged(0)), SKIPPED);
        let over = kinds_of_row()[3].clone();
        assert_eq!(comparison.card_row(&site, None, &book, &over), refused(7));
    }
    for _ in 0..12 {
        let mut fields = plain_fields();
        let alternate = generator.between(200_000_000, 1_000_000_000) as u32;
        fields[place::ALTERNATE + 1..place::ALTERNATE + AGES].fill(alternate);
        (fields[place::ABSORBED + 4], fields[place::PASSIVE + 4]) = (100, 100);
        let (site, book) = (site_file(&fields), book_file(&closed_rows(&mut generator, Range::Near)));
        let mut blood = [0; MONTHS];
        let whole = ffi::run(&site, &book, &mut blood);
        assert!(whole.number == 22 && whole.months >= 12, "{whole:?}");
        let last = whole.months as usize;
        let numbers =
            [last, last + 1, MONTHS].map(|age| comparison.card_row(&site, None, &book, &aged(age)).number);
        assert_eq!(numbers, [0, 22, 22]);
    }
}

/// Lead in the last month alone: 22 in month 84, and none at AGE 83.
#[test]
fn a_refusal_in_the_last_month() {
    let mut comparison = Comparison::new("the last month");
    let mut generator = Generator::new(305);
    let mut rows = curves::rows();
    let (mother, row) = newborn_of(&mut generator, BURDEN_LIMIT as u64 - 1_000_000);
    rows[0] = row;
    for row in &mut rows {
        [column::URINE, column::FAECES, column::SKIN].iter().for_each(|&exit| row[exit] = 0);
    }
    let mut fields = unabsorbed::fields();
    fields[place::MOTHER] = mother;
    fields[place::ABSORBED + 4] = 100;
    fields[place::PASSIVE + 4] = 100;
    fields[place::ALTERNATE..place::ALTERNATE + AGES].fill(0);
    // Twelve months of 30 days: the last day of month 84 brings the burden over its limit.
    fields[place::ALTERNATE + 6] = 1_000_000 / (30 * 12) + 1;
    let (site, book) = (site_file(&fields), book_file(&rows));
    let numbers = [72, 83, 84].map(|age| comparison.card_row(&site, None, &book, &aged(age)).number);
    assert_eq!(numbers, [0, 0, 22]);
}

/// FAM, BLOCK and PBB change nothing, whatever figure they are.
#[test]
fn idle_fields_change_nothing() {
    let mut comparison = Comparison::new("idle fields");
    let mut generator = Generator::new(306);
    let (site, book) = (site_file(&mixed_fields()), curves::book());
    let due = comparison.card_row(&site, None, &book, &aged(20));
    for _ in 0..200 {
        let mut row = texts(&aged(20));
        let other = field_texts(&mut generator, Range::Limits);
        for idle in [field::ID, field::FAM, field::BLOCK, field::PBB] {
            row[idle] = other[idle].clone();
        }
        assert_eq!(comparison.card_row(&site, None, &book, &joined(&mut generator, &row)), due);
    }
}

/// Diets by foods over 10^9 in one year, and every fault of foods, with rows of any kind.
#[test]
fn rows_with_damaged_foods() {
    let mut comparison = Comparison::new("rows with damaged foods");
    let mut generator = Generator::new(307);
    for turn in 0..400 {
        let range = Range::of_turn(turn);
        let (fields, rows) =
            (random::site_fields(&mut generator, range), random::rows(&mut generator, range));
        let foods = random::foods(&mut generator, range);
        let faults =
            [Fault::Foods(random::foods_fault(&mut generator)), Fault::Foods(FoodsFault::Length(511))];
        let faults = if generator.once_in(8) { &faults[..] } else { &faults[..1] };
        let (site, foods, book) = damaged_with_foods(&mut generator, &fields, &foods, &rows, faults);
        let row = survey_row(&mut generator, Range::Near, 0);
        comparison.card_row(&site, Some(&foods), &book, &row);
    }
}
