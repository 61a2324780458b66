//! The model of batch cards: worked figures of request 2, each rule of the text, of a row and of the printout.

use jurengate_model::book::column;
use jurengate_model::card::{
    answers, card_printout, card_row, field, fields, figure, lines, put_over, read_row, rows, Asked,
    RowAnswer, RowCall, CARD_FIELDS, GOES,
};
use jurengate_model::cards::{book_file, curves, foods_file, published, site_file};
use jurengate_model::engine::{run, run_foods};
use jurengate_model::fast;
use jurengate_model::printout::blood_fields;
use jurengate_model::random::{
    self, break_intake, break_texts, field_texts, joined, survey_row, text_faults, FieldTexts, Generator,
    Intake, Range, TextFault,
};
use jurengate_model::refusal::Refusal;
use jurengate_model::site::{place, AGES, SITE_FIELDS};
use jurengate_model::state::MONTHS;

/// A row that is accepted: two years old, the published soil and dust.
const ROW: &str = "A1 1 1 24 200 150 * * * * * *";

/// That row with one field changed.
fn with(place: usize, text: &str) -> Vec<u8> {
    let mut fields: Vec<&str> = ROW.split(' ').collect();
    fields[place] = text;
    fields.join(" ").into_bytes()
}

/// What a row answers over the published card.
fn answer(row: &[u8]) -> RowAnswer {
    answers(&published::site(), None, &curves::book(), [row])[0]
}

fn is_blood(row: &[u8]) -> bool {
    matches!(answer(row), RowAnswer::Blood(_))
}

fn text(lines: &[&str]) -> Vec<u8> {
    lines.join("\n").into_bytes()
}

#[test]
fn texts_without_rows() {
    for text in ["", "\n", "\n\n\n", "a", "a\nb\nc", "a\nb\nc\n", "a\n\n", "\r\n\r\n\r\n"] {
        assert!(rows(text.as_bytes()).is_empty(), "{text:?}");
    }
}

#[test]
fn a_row_ends_at_a_line_feed_or_at_the_end() {
    let cases: [(&str, &[&str]); 8] = [
        ("\n\n\n\n", &[""]),
        ("a\nb\nc\nROW", &["ROW"]),
        ("a\nb\nc\nROW\n", &["ROW"]),
        ("a\nb\nc\n\nROW\n", &["", "ROW"]),
        ("a\nb\nc\nONE\nTWO", &["ONE", "TWO"]),
        ("a\nb\nc\nONE\n\n", &["ONE", ""]),
        ("a\nb\nc\nONE\r\nTWO\r\n", &["ONE\r", "TWO\r"]),
        ("a\nb\nc\n ", &[" "]),
    ];
    for (text, due) in cases {
        let due: Vec<&[u8]> = due.iter().map(|row| row.as_bytes()).collect();
        assert_eq!(rows(text.as_bytes()), due, "{text:?}");
    }
    assert_eq!(lines(b"a\nb"), [b"a", b"b"]);
}

#[test]
fn fields_are_the_longest_stretches_without_a_space() {
    assert_eq!(fields(b""), Vec::<&[u8]>::new());
    assert_eq!(fields(b"   "), Vec::<&[u8]>::new());
    assert_eq!(fields(b"  a  bc d   "), [b"a".as_slice(), b"bc", b"d"]);
    assert_eq!(fields(b"a\tb c\r \0 \xff"), [b"a\tb".as_slice(), b"c\r", b"\0", b"\xff"]);
}

#[test]
fn figures_in_thousandths() {
    let figures = [
        ("0", 0),
        ("7", 7_000),
        ("007", 7_000),
        ("0.5", 500),
        ("0.50", 500),
        ("0.500", 500),
        ("12.05", 12_050),
        ("12.005", 12_005),
        ("99999999", 99_999_999_000),
        ("9999.999", 9_999_999),
    ];
    for (text, thousandths) in figures {
        assert_eq!(figure(text.as_bytes()), Some(thousandths), "{text}");
    }
    for text in random::NO_FIGURES {
        assert_eq!(figure(text), None, "{}", String::from_utf8_lossy(text));
    }
    for text in ["", "*", "1 ", " 1", "1.2345", "..1", "1.-1", "٣"] {
        assert_eq!(figure(text.as_bytes()), None, "{text:?}");
    }
}

#[test]
fn twelve_fields_and_eight_bytes() {
    let refused = RowAnswer::Refused(Refusal::CardRow);
    assert!(is_blood(ROW.as_bytes()));
    assert!(is_blood(format!("   {}  ", ROW.replace(' ', "   ")).as_bytes()));
    let eleven: Vec<&str> = ROW.split(' ').skip(1).collect();
    for row in
        ["", "   ", "*", &eleven.join(" "), &format!("{ROW} *"), &format!("{ROW} \r"), &format!("{ROW}\r")]
    {
        assert_eq!(answer(row.as_bytes()), refused, "{row:?}");
    }
    assert_eq!(answer(&with(field::ID, "ABCDEFGHI")), refused);
    assert!(is_blood(&with(field::ID, "ABCDEFGH")));
    for place in 0..CARD_FIELDS {
        assert_eq!(answer(&with(place, "000000001")), refused, "{place}");
        assert_ne!(answer(&with(place, "00000001")), refused, "{place}");
    }
}

/// The worked fields, as read from the request by hand.
#[test]
fn worked_fields() {
    use RowAnswer::{Refused, Skipped};
    let (row_12, row_7, row_9) =
        (Refused(Refusal::CardRow), Refused(Refusal::SiteLimits), Refused(Refusal::Intake));
    let cases = [
        (field::SOIL, "50000", row_9),
        (field::SOIL, "50000.1", row_7),
        (field::SOIL, "50000.001", row_12),
        (field::SOIL, "0.1234", row_12),
        (field::SOIL, ".5", row_12),
        (field::SOIL, "5.", row_12),
        (field::SOIL, "*.", row_12),
        (field::DUST, "50000.01", row_7),
        (field::WATER, "10000.1", row_7),
        (field::WATER, "10000.01", row_7),
        (field::AIR, "100.001", row_7),
        (field::OTHER, "1000.001", row_7),
        (field::ABSSOIL, "101", row_7),
        (field::ABSDUST, "101", row_7),
        (field::ABSDUST, "30.0", row_12),
        (field::ABSSOIL, "30.0", row_12),
        (field::AGE, "000000001", row_12),
        (field::AGE, "1.0", row_12),
        (field::AGE, "24.", row_12),
        (field::PBB, "-1", row_12),
        (field::FAM, "x", row_12),
        (field::BLOCK, "1a", row_12),
        (field::AGE, "*", Skipped),
        (field::AGE, "0", Skipped),
        (field::AGE, "85", Skipped),
        (field::AGE, "99999999", Skipped),
    ];
    for (place, text, due) in cases {
        assert_eq!(answer(&with(place, text)), due, "{text} in field {place}");
    }
    let accepted = [
        (field::ID, "*"),
        (field::ID, "\u{e9}\t\0"),
        (field::FAM, "1.5"),
        (field::FAM, "*"),
        (field::BLOCK, "99999999"),
        (field::PBB, "99999999"),
        (field::PBB, "12.345"),
        (field::WATER, "10"),
        (field::AIR, "0.1"),
        (field::OTHER, "1.001"),
        (field::ABSSOIL, "100"),
        (field::ABSDUST, "0"),
        (field::AGE, "00000001"),
        (field::AGE, "84"),
    ];
    for (place, text) in accepted {
        assert!(is_blood(&with(place, text)), "{text:?} in field {place}");
    }
}

/// 12, then the skip, then 7, then the child's own refusals.
#[test]
fn the_order_within_a_row() {
    let row = |age: &str, soil: &str, dust: &str, fam: &str| {
        answer(format!("A {fam} 1 {age} {soil} {dust} * * * * * *").as_bytes())
    };
    assert_eq!(row("*", "50001", "*", "1"), RowAnswer::Skipped);
    assert_eq!(row("85", "50001", "1", "1"), RowAnswer::Skipped);
    assert_eq!(row("*", "x", "*", "1"), RowAnswer::Refused(Refusal::CardRow));
    assert_eq!(row("*", "*", "*", "x"), RowAnswer::Refused(Refusal::CardRow));
    assert_eq!(row("24", "50001", "*", "x"), RowAnswer::Refused(Refusal::CardRow));
    assert_eq!(row("24", "*", "*", "1"), RowAnswer::Skipped);
    assert_eq!(row("24", "*", "50001", "1"), RowAnswer::Refused(Refusal::SiteLimits));
    assert_eq!(row("24", "50001", "50000", "1"), RowAnswer::Refused(Refusal::SiteLimits));
    assert_eq!(row("24", "50000", "50000", "1"), RowAnswer::Refused(Refusal::Intake));
}

/// Every fault alone answers as its kind says, and of two the one that comes first does.
#[test]
fn faults_of_a_row_alone_and_in_twos() {
    let mut generator = Generator::new(70);
    let (site, book) = (published::site(), curves::book());
    let mut due_of = |faults: &[TextFault]| {
        let mut texts: FieldTexts = ROW.split(' ').map(|text| text.as_bytes().to_vec()).collect();
        break_texts(&mut texts, faults);
        card_row(&site, None, &book, &joined(&mut generator, &texts))
    };
    let due = |fault: TextFault| match fault.number() {
        Some(number) => RowCall { number, blood: 0, skipped: false },
        None => RowCall { number: 0, blood: 0, skipped: true },
    };
    let faults = text_faults();
    for &fault in &faults {
        assert_eq!(due_of(&[fault]), due(fault), "{fault:?}");
    }
    let counts =
        |fault: TextFault| matches!(fault, TextFault::Lost(_) | TextFault::More(_) | TextFault::Tab(_));
    let mut pairs = 0;
    for &one in faults.iter().step_by(7) {
        for &other in &faults {
            // A field lost and one more are twelve again.
            if counts(one) && counts(other) {
                continue;
            }
            let first = if one.turn() <= other.turn() { one } else { other };
            assert_eq!(due_of(&[one, other]), due(first), "{one:?} and {other:?}");
            pairs += 1;
        }
    }
    assert!(pairs > 10_000, "{pairs} pairs");
}

/// A site in which every field differs from its neighbours, both modes 1.
fn marked_fields() -> [u32; SITE_FIELDS] {
    let mut fields: [u32; SITE_FIELDS] = std::array::from_fn(|index| 3 + index as u32 % 7);
    (fields[place::DUST_MODE], fields[place::WATER_MODE]) = (1, 1);
    fields[place::SATURATION] = 1_000_000;
    fields
}

fn put(row: &str) -> Asked {
    put_over(&read_row(row.as_bytes()).expect("twelve fields"), &marked_fields())
        .expect("within its limits")
        .expect("not skipped")
}

/// The fields that a row changes, by place.
fn changed(row: &str) -> Vec<(usize, u32)> {
    let (before, after) = (marked_fields(), put(row).fields);
    (0..SITE_FIELDS)
        .filter(|&index| before[index] != after[index])
        .map(|index| (index, after[index]))
        .collect()
}

fn at_every_age(group: usize, value: u32) -> Vec<(usize, u32)> {
    (group..group + AGES).map(|index| (index, value)).collect()
}

const MODES: [(usize, u32); 2] = [(place::DUST_MODE, 0), (place::WATER_MODE, 0)];

#[test]
fn each_figure_goes_to_its_place_in_its_unit() {
    let soil = at_every_age(place::SOIL, 200_500);
    let dust = at_every_age(place::DUST, 150_001);
    let both = [soil.clone(), dust, MODES.to_vec()].concat();
    assert_eq!(changed("A 7 8 24 200.5 150.001 * * * 9 * *"), both);
    let cases = [
        ("A 7 8 24 200.5 150.001 4.25 * * 9 * *", vec![(place::CONSTANT_WATER, 4_250)]),
        ("A 7 8 24 200.5 150.001 * 0.103 * 9 * *", at_every_age(place::AIR, 103_000)),
        ("A 7 8 24 200.5 150.001 * * 12.007 9 * *", at_every_age(place::ALTERNATE, 12_007_000)),
        ("A 7 8 24 200.5 150.001 * * * 9 31 *", vec![(place::ABSORBED + 3, 31)]),
        ("A 7 8 24 200.5 150.001 * * * 9 * 32", vec![(place::ABSORBED + 2, 32)]),
    ];
    for (row, more) in cases {
        let mut due = [both.clone(), more].concat();
        due.sort_unstable();
        assert_eq!(changed(row), due, "{row}");
    }
    assert_eq!(put("A 7 8 24 200.5 150.001 * * * 9 * *").month, 24);
}

#[test]
fn missing_soil_or_dust_copies_the_other() {
    let due = |value: u32| {
        [at_every_age(place::SOIL, value), at_every_age(place::DUST, value), MODES.to_vec()].concat()
    };
    assert_eq!(changed("A * * 1 * 150.001 * * * * * *"), due(150_001));
    assert_eq!(changed("A * * 84 17 * * * * * * *"), due(17_000));
}

/// At the limit a figure passes, and by the least that eight bytes can write it is 7.
#[test]
fn limits_and_just_over_them() {
    for (which, goes) in GOES.iter().enumerate() {
        let most = [50_000, 50_000, 10_000, 100, 1_000, 100, 100][which];
        let row = |text: &str| {
            put_over(&read_row(&with(goes.from, text)).expect("twelve fields"), &published::fields())
        };
        assert!(matches!(row(&most.to_string()), Ok(Some(_))), "{goes:?}");
        assert_eq!(row(&random::over(which)), Err(Refusal::SiteLimits), "{goes:?}");
        assert_eq!(row("99999999"), Err(Refusal::SiteLimits), "{goes:?}");
    }
}

/// A row of gaps and the site's own soil and dust, in a site with both modes 0, changes nothing.
#[test]
fn a_row_that_changes_nothing_prints_the_run_s_figure() {
    let (mut generator, mut refused) = (Generator::new(71), 0);
    for turn in 0..120 {
        let range = Range::of_turn(turn);
        let mut fields = random::site_fields(&mut generator, range);
        (fields[place::DUST_MODE], fields[place::WATER_MODE]) = (0, 0);
        let soil = 1_000 * generator.between(0, 2_000) as u32;
        fields[place::SOIL..place::SOIL + 2 * AGES].fill(soil);
        let foods = foods_file(&random::foods(&mut generator, range));
        let foods = generator.once_in(2).then_some(foods.as_slice());
        let (site, book) = (site_file(&fields), random::book(&mut generator, range));
        let mut blood = [0; MONTHS];
        let whole = run_foods(&site, foods, &book, &mut blood);
        let soil = soil / 1_000;
        for age in [1, 2, 12, 13, 24, 83, 84, 1 + generator.index(MONTHS)] {
            let row = format!("A 1 2 {age} {soil} {soil} * * * * * *");
            let due = if age <= whole.months as usize {
                RowCall { number: 0, blood: blood[age - 1], skipped: false }
            } else {
                refused += 1;
                RowCall { number: whole.number, blood: 0, skipped: false }
            };
            assert_eq!(card_row(&site, foods, &book, row.as_bytes()), due, "{row}");
        }
    }
    assert!(refused > 20, "{refused} rows refused");
}

/// What a row gives is what the site file gives that has the row's figures in it.
#[test]
fn a_row_is_the_site_file_with_its_figures() {
    let row = b"A 1 2 60 400 300.5 8 0.2 6 * 40 20";
    let mut fields = published::fields();
    fields[place::SOIL..place::SOIL + AGES].fill(400_000);
    fields[place::DUST..place::DUST + AGES].fill(300_500);
    fields[place::AIR..place::AIR + AGES].fill(200_000);
    fields[place::ALTERNATE..place::ALTERNATE + AGES].fill(6_000_000);
    fields[place::CONSTANT_WATER] = 8_000;
    (fields[place::ABSORBED + 2], fields[place::ABSORBED + 3]) = (20, 40);
    (fields[place::DUST_MODE], fields[place::WATER_MODE]) = (0, 0);
    let mut blood = [0; MONTHS];
    run(&site_file(&fields), &curves::book(), &mut blood);
    let mut mixed = published::fields();
    (mixed[place::DUST_MODE], mixed[place::WATER_MODE]) = (1, 1);
    for site in [published::fields(), mixed] {
        let due = RowCall { number: 0, blood: blood[59], skipped: false };
        assert_eq!(card_row(&site_file(&site), None, &curves::book(), row), due);
    }
}

/// At a gap a three-source site gives its constant water, and its mix has no part in it.
#[test]
fn both_modes_are_0_even_at_a_gap() {
    let row = b"A 1 2 30 * 150 * * * * * *";
    let mut fields = published::fields();
    (fields[place::DUST_MODE], fields[place::WATER_MODE]) = (0, 0);
    let due = card_row(&site_file(&fields), None, &curves::book(), row);
    (fields[place::DUST_MODE], fields[place::WATER_MODE]) = (1, 1);
    fields[place::FLUSHED..=place::FOUNTAIN].fill(9_000_000);
    (fields[place::CONTRIBUTION], fields[place::AIR_TO_DUST]) = (100, 10_000);
    assert_eq!(card_row(&site_file(&fields), None, &curves::book(), row), due);
    assert!(due.blood > 0);
    fields[place::CONSTANT_WATER] *= 3;
    assert_ne!(card_row(&site_file(&fields), None, &curves::book(), row), due);
}

/// A gap keeps the site's own age by age: only the years up to AGE count.
#[test]
fn gaps_keep_the_site_s_own_age_by_age() {
    for group in [place::AIR, place::ALTERNATE] {
        let mut fields = published::fields();
        fields[place::ABSORBED + 4] = 50;
        let before = fields;
        fields[group + 2] += 5_000_000;
        let at = |fields: &[u32; SITE_FIELDS], age: usize| {
            card_row(
                &site_file(fields),
                None,
                &curves::book(),
                format!("A 1 1 {age} 200 150 * * * * * *").as_bytes(),
            )
        };
        assert_eq!(at(&fields, 24), at(&before, 24));
        assert_ne!(at(&fields, 36), at(&before, 36));
    }
}

#[test]
fn refusals_9_and_22_up_to_age_and_after_it() {
    let row = |age: usize| format!("A 1 1 {age} 200 150 * * * * * *");
    let mut fields = published::fields();
    break_intake(&mut fields, Intake::ConstantWater, 3);
    let site = site_file(&fields);
    for (age, number) in [(1, 0), (36, 0), (37, 9), (84, 9)] {
        assert_eq!(card_row(&site, None, &curves::book(), row(age).as_bytes()).number, number, "{age}");
    }
    let (mut rows, mut fields) = (curves::rows(), published::fields());
    fields[place::MOTHER] = 100_000;
    rows[0][column::CORTICAL] = 50_000;
    let site = site_file(&fields);
    assert_eq!(card_row(&site, None, &book_file(&rows), row(1).as_bytes()).number, 22);
    assert_eq!(card_row(&site, None, &book_file(&rows), b"A 1 1 0 200 150 * * * * * *").number, 0);
    assert_eq!(card_row(&site, None, &book_file(&rows), b"A 1 1 1 50001 150 * * * * * *").number, 7);
    // A burden that is full in the third year: 22 from some month on, and no refusal before it.
    let mut fields = published::fields();
    fields[place::ALTERNATE + 2] = 1_000_000_000;
    fields[place::ABSORBED + 4] = 100;
    fields[place::PASSIVE + 4] = 100;
    let site = site_file(&fields);
    let mut blood = [0; MONTHS];
    let whole = run(&site, &curves::book(), &mut blood);
    assert!(whole.number == 22 && whole.months > 24 && whole.months < 36, "{whole:?}");
    let burdened = |age: u32| card_row(&site, None, &curves::book(), row(age as usize).as_bytes()).number;
    assert_eq!([whole.months, whole.months + 1, 84].map(burdened), [0, 22, 22]);
}

/// The files' own number stands before everything of a row, and is each row's.
#[test]
fn refused_files_refuse_each_row() {
    let (site, book) = (published::site(), curves::book());
    let foods = foods_file(&published::foods());
    let rows: [&[u8]; 4] = [ROW.as_bytes(), b"", &with(field::AGE, "*"), &with(field::SOIL, "50001")];
    let mut turned = site.clone();
    turned[100] ^= 1;
    let mut turned_book = book.clone();
    turned_book[8_000] ^= 1;
    let refused = |number: u32| vec![RowCall { number, blood: 0, skipped: false }; rows.len()];
    let calls = |site: &[u8], foods: Option<&[u8]>, book: &[u8]| -> Vec<RowCall> {
        rows.iter().map(|row| card_row(site, foods, book, row)).collect()
    };
    assert_eq!(calls(&site[..511], None, &book), refused(1));
    assert_eq!(calls(&turned, None, &book), refused(3));
    assert_eq!(calls(&turned, Some(&foods[..511]), &book), refused(3));
    assert_eq!(calls(&site, Some(&foods[..511]), &turned_book), refused(1));
    assert_eq!(calls(&site, Some(&foods), &turned_book), refused(3));
    assert_eq!(calls(&site, Some(&[]), &book), refused(1));
    assert_eq!(calls(&site, None, &turned_book), refused(3));
}

#[test]
fn the_foods_of_a_row_are_those_of_the_run() {
    let (site, book) = (published::site(), curves::book());
    let mut foods = published::foods();
    foods.leads.iter_mut().for_each(|lead| *lead *= 20);
    let block = foods_file(&foods);
    let with_foods = card_row(&site, Some(&block), &book, ROW.as_bytes());
    assert_ne!(with_foods, card_row(&site, None, &book, ROW.as_bytes()));
    assert_eq!(with_foods.number, 0);
}

#[test]
fn the_printout() {
    let (site, book) = (published::site(), curves::book());
    let blood = card_row(&site, None, &book, ROW.as_bytes()).blood;
    let decimals = blood_fields(1, blood).split(' ').nth(1).expect("the blood").to_string();
    let rows = ["a", "b", "c", ROW, "", "A 1 1 * 200 150 * * * * * *", "A 1 1 24 50001 150 * * * * * *", ROW];
    let due = format!("{decimals}\nrefused 12\n---\nrefused 7\n{decimals}\n");
    assert_eq!(String::from_utf8_lossy(&card_printout(&site, &book, &text(&rows))), due);
    let all = "refused 1\n".repeat(5);
    assert_eq!(String::from_utf8_lossy(&card_printout(&site, &[], &text(&rows))), all);
    assert_eq!(card_printout(&[], &[], b"a\nb\nc\n"), b"");
}

/// The quick second writing against the model, row by row.
#[test]
fn the_fast_rows_are_the_model_s() {
    let mut generator = Generator::new(72);
    let (mut skipped, mut refused, mut accepted) = (0, 0, 0);
    for turn in 0..2_000 {
        let range = Range::of_turn(turn);
        let faults = if generator.once_in(8) { 1 + generator.index(2) } else { 0 };
        let (site, foods, book) = random::card_of_either_kind(&mut generator, range, faults);
        for _ in 0..4 {
            let row = random::any_row(&mut generator, range);
            let due = card_row(&site, foods.as_deref(), &book, &row);
            assert_eq!(
                fast::card_row(&site, foods.as_deref(), &book, &row),
                due,
                "{}",
                String::from_utf8_lossy(&row)
            );
            skipped += usize::from(due.skipped);
            refused += usize::from(due.number != 0);
            accepted += usize::from(due.number == 0 && !due.skipped);
        }
    }
    assert!(skipped > 250 && refused > 1_000 && accepted > 1_000, "{skipped} {refused} {accepted}");
}

/// What `random` says of its rows is true: without a fault 12 and 7 let them pass.
#[test]
fn random_rows_pass_12_and_7() {
    let mut generator = Generator::new(73);
    let mut gaps = [0; CARD_FIELDS];
    for turn in 0..3_000 {
        let range = Range::of_turn(turn);
        let row = survey_row(&mut generator, range, 0);
        let read = read_row(&row).unwrap_or_else(|_| panic!("{:?}", String::from_utf8_lossy(&row)));
        assert!(put_over(&read, &published::fields()).is_ok(), "{:?}", String::from_utf8_lossy(&row));
        for (gap, text) in gaps.iter_mut().zip(field_texts(&mut generator, range)) {
            *gap += usize::from(text == b"*");
        }
    }
    assert!(
        gaps.iter().enumerate().all(|(place, &gap)| gap > 100 || place == field::ID || place == field::AGE),
        "{gaps:?}"
    );
}
