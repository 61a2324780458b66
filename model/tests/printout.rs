//! `leadline`'s bytes.

#[path = "support/equations.rs"]
mod equations;
#[path = "support/route_cards.rs"]
mod route_cards;

use equations::day;
use jurengate_model::book::RowFields;
use jurengate_model::cards::{book_file, curves, published, site_file};
use jurengate_model::printout::{blood_fields, decimals, month_line, printout, refusal_line};
use jurengate_model::random::{self, damaged, Fault, Generator, Intake, Range};
use jurengate_model::site::SITE_FIELDS;
use jurengate_model::uptake::Routes;
use route_cards::{four_in_balance, mixed, most_active, most_passive, Numbers};

#[test]
fn half_up_to_one_decimal() {
    let cases = [
        (0, "0.0"),
        (49, "0.0"),
        (50, "0.1"),
        (149, "0.1"),
        (150, "0.2"),
        (949, "0.9"),
        (950, "1.0"),
        (9_999, "10.0"),
        (29_949, "29.9"),
        (29_950, "30.0"),
        (30_000, "30.0"),
        (30_049, "30.0"),
        (30_050, "30.1"),
        (50_000_000, "50000.0"),
        (u32::MAX, "4294967.3"),
    ];
    for (blood, shown) in cases {
        assert_eq!(decimals(blood), shown);
    }
}

#[test]
fn the_mark_goes_by_the_unrounded_figure() {
    assert_eq!(blood_fields(7, 29_999), "7 30.0 -");
    assert_eq!(blood_fields(7, 30_000), "7 30.0 -");
    assert_eq!(blood_fields(7, 30_001), "7 30.0 W");
    assert_eq!(blood_fields(84, 0), "84 0.0 -");
    assert_eq!(refusal_line(22, 13), "refused 22 after 13");
}

/// The air has no column.
#[test]
fn a_line_ends_with_the_passive_and_the_active_sum() {
    let routes =
        Routes { passive: [1, 20, 300, 4_000, 50_000], active: [6, 70, 800, 9_000, 0], air: 100_000 };
    assert_eq!(month_line(7, 30_001, &routes), "7 30.0 W 54321 9876");
    let most = Routes { passive: [1_000_000_000; 5], active: [0; 5], air: 1_000_000_000 };
    assert_eq!(month_line(84, 0, &most), "84 0.0 - 5000000000 0");
    let none = Routes { passive: [0; 5], active: [0; 5], air: 7 };
    assert_eq!(month_line(1, 50_000_000, &none), "1 50000.0 W 0 0");
}

#[test]
fn empty_files_print_one_line() {
    assert_eq!(printout(&[], &[]), b"refused 1 after 0\n");
    assert_eq!(printout(&published::site(), &[]), b"refused 1 after 0\n");
    assert_eq!(printout(&[], &curves::book()), b"refused 1 after 0\n");
}

#[test]
fn the_default_card_prints_84_lines() {
    let text = String::from_utf8(printout(&published::site(), &curves::book())).unwrap();
    assert!(text.ends_with('\n'));
    let lines: Vec<&str> = text.lines().collect();
    assert_eq!(lines.len(), 84);
    for (index, line) in lines.iter().enumerate() {
        let parts: Vec<&str> = line.split(' ').collect();
        assert_eq!(parts.len(), 5);
        assert_eq!(parts[0], (index + 1).to_string());
        assert_eq!(parts[2], "-");
    }
}

#[test]
fn a_run_refused_midway_prints_its_months_and_the_refusal() {
    let mut generator = Generator::new(1);
    let faults = [Fault::Intake(Intake::ConstantWater, 3)];
    let mut fields = published::fields();
    fields[jurengate_model::site::place::ABSORBED + 1] = 0;
    let (site, book) = damaged(&mut generator, &fields, &curves::rows(), &faults);
    let text = String::from_utf8(printout(&site, &book)).unwrap();
    let lines: Vec<&str> = text.lines().collect();
    assert_eq!(lines.len(), 37);
    assert!(lines[35].starts_with("36 "));
    assert_eq!(lines[36], "refused 9 after 36");
}

/// The lines of a card.
fn lines((fields, rows): (&[u32; SITE_FIELDS], &[RowFields])) -> Vec<String> {
    let text = String::from_utf8(printout(&site_file(fields), &book_file(rows))).expect("text");
    text.lines().map(str::to_string).collect()
}

/// The first line, and the columns behind the mark in every line.
fn first_line_and_columns((fields, rows): Numbers) -> (String, Vec<String>) {
    let lines = lines((&fields, &rows));
    let columns = lines.iter().map(|line| line.splitn(4, ' ').nth(3).unwrap_or_default().to_string());
    (lines[0].clone(), columns.collect())
}

#[test]
fn the_columns_of_cards_known_beforehand() {
    let (first, columns) = first_line_and_columns(most_passive());
    assert_eq!(first, "1 3.9 - 5000000000 0");
    assert_eq!(columns, ["5000000000 0"; 84]);
    let (_, columns) = first_line_and_columns(most_active());
    // Month 24 has the weight of row 24, and so a SAT of 5×10^8: 5 × floor(10^9 × 5×10^8 / (5.5×10^9)).
    let due = |month: usize| if month == 24 { "0 454545450" } else { "0 3571428570" };
    assert_eq!(columns, (1..=84).map(due).collect::<Vec<_>>());
    assert_eq!(first_line_and_columns(four_in_balance(0)).1, ["0 500000"; 84]);
    assert_eq!(first_line_and_columns(four_in_balance(1)).1, ["0 499996"; 84]);
}

/// Worked out beside the model: another age in month 13, other weights in every month.
#[test]
fn the_columns_at_the_borders_of_ages() {
    let lines = lines((&mixed(), &curves::rows()));
    let due = [
        (1, " - 2895425 7492475"),
        (12, " - 2895425 12231222"),
        (13, " - 3752635 13775689"),
        (24, " - 3752635 14962947"),
        (84, " - 6813153 17766758"),
    ];
    for (month, columns) in due {
        let line = &lines[month - 1];
        assert!(line.starts_with(&format!("{month} ")) && line.ends_with(columns), "{line}");
    }
}

/// Every line of many cards, with its columns held to the equations; a refused run's last line has none.
#[test]
fn the_columns_are_those_of_the_equations() {
    let mut generator = Generator::new(95);
    let mut cards: Vec<([u32; SITE_FIELDS], Vec<RowFields>)> =
        vec![(published::fields(), curves::rows()), (mixed(), curves::rows())];
    cards.extend((0..60).map(|turn| {
        let range = Range::of_turn(turn);
        (random::site_fields(&mut generator, range), random::rows(&mut generator, range))
    }));
    let (mut months, mut refused) = (0, 0);
    for (fields, rows) in &cards {
        for (month, line) in (1..).zip(lines((fields, rows))) {
            let parts: Vec<&str> = line.split(' ').collect();
            if parts[0] == "refused" {
                assert_eq!((parts.len(), parts[3]), (4, (month - 1).to_string().as_str()), "{line}");
                refused += 1;
                continue;
            }
            let due = day(fields, rows, month).expect("a month that is printed has its intakes");
            let sums = [due.passive, due.active].map(|parts| parts.iter().sum::<u128>().to_string());
            assert_eq!(
                (parts[0], &parts[3..]),
                (month.to_string().as_str(), &sums.each_ref().map(|sum| sum.as_str())[..])
            );
            months += 1;
        }
    }
    assert!(months > 2_000 && refused > 10, "{months} months, {refused} refused");
}
