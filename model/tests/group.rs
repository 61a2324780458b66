//! The model of a group: rows taken, where the next one starts, each answer that of its row alone, the count of decodes.

use jurengate_model::book::{column, BLOCK_ROWS, BOOK_BLOCKS, BOOK_ROWS};
use jurengate_model::card::{answers, card_printout, lines, rows, RowAnswer};
use jurengate_model::cards::{book_file, curves, foods_file, published, site_file};
use jurengate_model::fast;
use jurengate_model::group::{card_group, group, kind, pair, Group, GroupCall, GROUP_ANSWERS, GROUP_ROWS};
use jurengate_model::random::{
    self, break_intake, damaged_with_foods, file_faults, foods_faults, group_text, row_faults, survey, Fault,
    Generator, Intake, Range,
};
use jurengate_model::refusal::Refusal;
use jurengate_model::site::place;

/// What the list holds before a call.
const BEFORE: u32 = 0x5EED_5EED;
/// Blocks that an accepted book takes.
const WHOLE: u32 = BOOK_BLOCKS as u32;

/// A row of a child of this age over the published soil and dust.
fn aged(age: usize) -> String {
    format!("A1 1 1 {age} 200 150 * * * * * *")
}

/// A group over the published card.
fn published_group(text: &[u8]) -> Group {
    group(&published::site(), None, &curves::book(), text)
}

/// A text's rows in groups, each from where the one before has ended.
fn in_groups(site: &[u8], foods: Option<&[u8]>, book: &[u8], text: &[u8]) -> Vec<Group> {
    let (mut groups, mut from) = (Vec::new(), 0);
    while from < text.len() {
        let group = group(site, foods, book, &text[from..]);
        assert!(!group.answers.is_empty() && group.next > 0, "a text that is not spent has a row");
        from += group.next;
        groups.push(group);
    }
    groups
}

/// Texts, how many rows are taken of them, and where the next row starts.
#[test]
fn rows_taken_and_where_the_next_starts() {
    let feeds = |count: usize| "\n".repeat(count);
    let cases = [
        (String::new(), 0, 0),
        (feeds(1), 1, 1),
        (feeds(2), 2, 2),
        ("x".to_string(), 1, 1),
        ("x\n".to_string(), 1, 2),
        ("x\ny".to_string(), 2, 3),
        ("x\n\n".to_string(), 2, 3),
        (" ".to_string(), 1, 1),
        (feeds(63), 63, 63),
        (feeds(64), 64, 64),
        (feeds(65), 64, 64),
        (feeds(200), 64, 64),
        (feeds(63) + "x", 64, 64),
        (feeds(64) + "x", 64, 64),
        ("ab\n".repeat(64), 64, 192),
        ("ab\n".repeat(65), 64, 192),
        ("ab\n".repeat(63) + "ab", 64, 191),
        ("ab\n".repeat(64) + "ab", 64, 192),
    ];
    for (text, taken, next) in cases {
        let group = published_group(text.as_bytes());
        assert_eq!((group.answers.len(), group.next, group.decodes), (taken, next, WHOLE), "{text:?}");
        assert!(group.answers.iter().all(|answer| *answer == RowAnswer::Refused(Refusal::CardRow)));
    }
}

/// Every kind of row in one group, as pairs at the list's beginning; the rest of the list is kept.
#[test]
fn pairs_of_every_kind() {
    let rows = [
        aged(24),
        "A1 1 1 24 * * * * * * * *".to_string(),
        "A1 1 1 85 200 150 * * * * * *".to_string(),
        "A1".to_string(),
        String::new(),
        "A1 1 1 24 50001 150 * * * * * *".to_string(),
        "A1 1 1 24 50000 150 * * * * * *".to_string(),
        aged(24),
    ];
    let mut list = [BEFORE; GROUP_ANSWERS];
    let text = rows.join("\n");
    let call = card_group(&published::site(), None, &curves::book(), text.as_bytes(), &mut list);
    assert_eq!(call, GroupCall { rows: 8, decodes: WHOLE, next: text.len() });
    let blood = answers(&published::site(), None, &curves::book(), [rows[0].as_bytes()])[0].blood();
    assert!(blood > 0);
    let due = [[0, blood], [1, 0], [1, 0], [2, 12], [2, 12], [2, 7], [2, 9], [0, blood]];
    assert_eq!(&list[..16], due.as_flattened());
    assert_eq!(list[16..], [BEFORE; GROUP_ANSWERS - 16]);
}

/// A text of 200 rows is four groups, and its answers are those of its rows alone.
#[test]
fn a_long_text_in_groups() {
    let mut generator = Generator::new(800);
    let (site, book) = (published::site(), curves::book());
    for count in [0, 1, 63, 64, 65, 128, 200] {
        let text = group_text(&mut generator, Range::Near, count);
        let groups = in_groups(&site, None, &book, &text);
        let sizes: Vec<usize> = groups.iter().map(|group| group.answers.len()).collect();
        assert_eq!(sizes.iter().sum::<usize>(), count);
        assert_eq!(sizes.len(), count.div_ceil(GROUP_ROWS));
        assert!(sizes.iter().rev().skip(1).all(|size| *size == GROUP_ROWS), "{sizes:?}");
        assert!(groups.iter().all(|group| group.decodes == WHOLE));
        let together: Vec<RowAnswer> = groups.into_iter().flat_map(|group| group.answers).collect();
        assert_eq!(together, answers(&site, None, &book, lines(&text)), "{count} rows");
    }
}

/// The groups of a card's rows print what the card does.
#[test]
fn groups_print_the_card() {
    let mut generator = Generator::new(801);
    for turn in 0..12 {
        let range = Range::of_turn(turn);
        let (site, book) = random::card(&mut generator, range, turn / 3 % 2);
        let text = survey(&mut generator, range, 20 * turn / 3);
        let below: usize = lines(&text).iter().take(3).map(|heading| heading.len() + 1).sum();
        let groups = in_groups(&site, None, &book, &text[below.min(text.len())..]);
        assert_eq!(groups.iter().map(|group| group.answers.len()).sum::<usize>(), rows(&text).len());
        let printed: String =
            groups.iter().flat_map(|group| &group.answers).map(|answer| answer.line() + "\n").collect();
        assert_eq!(printed.into_bytes(), card_printout(&site, &book, &text));
    }
}

/// Random groups, whole and damaged, with foods and without: each answer is that of its row alone, and the quick rows
/// one by one have the same.
#[test]
fn each_answer_is_that_of_its_row_alone() {
    let mut generator = Generator::new(802);
    let (mut bloods, mut skipped, mut refused) = (0, 0, 0);
    for turn in 0..300 {
        let range = Range::of_turn(turn);
        let faults = usize::from(generator.once_in(8));
        let (site, foods, book) = random::card_of_either_kind(&mut generator, range, faults);
        let (count, range) = (generator.index(20), random::range(&mut generator));
        let text = group_text(&mut generator, range, count);
        let mut list = [BEFORE; GROUP_ANSWERS];
        let call = card_group(&site, foods.as_deref(), &book, &text, &mut list);
        let alone = answers(&site, foods.as_deref(), &book, lines(&text));
        assert_eq!((call.rows as usize, call.next), (alone.len(), text.len()));
        let mut due = [BEFORE; GROUP_ANSWERS];
        for (places, answer) in due.chunks_exact_mut(2).zip(&alone) {
            places.copy_from_slice(&pair(*answer));
        }
        assert_eq!(list, due);
        let mut quick = [BEFORE; GROUP_ANSWERS];
        let taken = fast::rows_one_by_one(&site, foods.as_deref(), &book, &text, &mut quick);
        assert_eq!((taken, quick), (call.rows, due));
        for places in list.chunks_exact(2).take(alone.len()) {
            match places[0] {
                kind::BLOOD => bloods += 1,
                kind::SKIPPED => skipped += 1,
                _ => refused += 1,
            }
        }
    }
    assert!(bloods > 300 && skipped > 20 && refused > 300, "{bloods}, {skipped}, {refused}");
}

/// The quick rows take 64 at most, and cut a text as the group does.
#[test]
fn the_quick_rows_cut_a_text_as_the_group_does() {
    let (site, book) = (published::site(), curves::book());
    for count in [0, 1, 2, 63, 64, 65, 100] {
        for text in ["\n".repeat(count), "A1 1\n".repeat(count), "A1 1\n".repeat(count) + &aged(1)] {
            let (mut quick, mut due) = ([BEFORE; GROUP_ANSWERS], [BEFORE; GROUP_ANSWERS]);
            let call = card_group(&site, None, &book, text.as_bytes(), &mut due);
            let taken = fast::rows_one_by_one(&site, None, &book, text.as_bytes(), &mut quick);
            assert_eq!((taken, quick), (call.rows, due), "{text:?}");
        }
    }
}

/// A child that is refused on the way stops nobody: 9 from age 4 on, and 22 for the one that eats too much.
#[test]
fn a_refused_child_stops_nobody() {
    let mut fields = published::fields();
    break_intake(&mut fields, Intake::ConstantWater, 4);
    let text = [aged(84), aged(48), aged(49), aged(1)].join("\n");
    let numbers = |group: Group| group.answers.iter().map(|answer| answer.number()).collect::<Vec<_>>();
    let nine = group(&site_file(&fields), None, &curves::book(), text.as_bytes());
    assert_eq!(numbers(nine), [9, 0, 9, 0]);

    let mut fields = published::fields();
    (fields[place::ABSORBED + 4], fields[place::PASSIVE + 4]) = (100, 100);
    let mut rows = curves::rows();
    for row in &mut rows {
        [column::URINE, column::FAECES, column::SKIN].iter().for_each(|&exit| row[exit] = 0);
    }
    let text =
        ["A 1 1 84 200 150 * * 0 * * *", "B 1 1 84 200 150 * * 1000 * * *", "C 1 1 1 200 150 * * 1000 * * *"];
    let burdened = group(&site_file(&fields), None, &book_file(&rows), text.join("\n").as_bytes());
    assert_eq!(numbers(burdened), [0, 22, 0]);
}

/// 0 before the book's blocks, one more than the number of the first refused block, 17 for an accepted book.
#[test]
fn decodes() {
    let mut generator = Generator::new(803);
    let texts = [String::new(), "A1".to_string(), "A1 1 1 0 1 1 * * * * * *\n".to_string(), aged(1)];
    let mut faults = file_faults();
    faults.extend((0..BOOK_ROWS).map(|month| Fault::Row(month, row_faults()[month % row_faults().len()])));
    faults.extend(foods_faults().into_iter().map(Fault::Foods));
    for fault in faults {
        let (site, foods, book) = damaged_with_foods(
            &mut generator,
            &published::fields(),
            &published::foods(),
            &curves::rows(),
            &[fault],
        );
        for text in &texts {
            let group = group(&site, Some(&foods), &book, text.as_bytes());
            assert_eq!(group.decodes, fault.decodes(), "{fault:?}");
            if fault.number() != 9 {
                assert!(group.answers.iter().all(|answer| answer.number() == fault.number()), "{fault:?}");
            }
        }
    }
}

/// Of two refused blocks the first counts.
#[test]
fn the_first_refused_block_counts() {
    let mut generator = Generator::new(804);
    for first in 0..BOOK_BLOCKS {
        for second in first..BOOK_BLOCKS {
            let faults = [Fault::BlockEdition(second), Fault::Row(BLOCK_ROWS * first, row_faults()[0])];
            let (site, foods, book) = damaged_with_foods(
                &mut generator,
                &published::fields(),
                &published::foods(),
                &curves::rows(),
                &faults,
            );
            let group = group(&site, Some(&foods), &book, b"\n");
            let number = if first == second { Refusal::Edition } else { Refusal::BookLimits };
            assert_eq!((group.decodes, group.answers[0]), (first as u32 + 1, RowAnswer::Refused(number)));
        }
    }
}

/// Whatever the rows say, and if there are none, an accepted book is decoded once.
#[test]
fn an_accepted_book_is_decoded_once() {
    let (site, book) = (published::site(), curves::book());
    let foods = foods_file(&published::foods());
    let skipped = "A1 1 1 * 200 150 * * * * * *\n".repeat(64);
    for text in [String::new(), "\n".repeat(64), skipped, format!("{}\n", aged(2)).repeat(64)] {
        for foods in [None, Some(foods.as_slice())] {
            assert_eq!(group(&site, foods, &book, text.as_bytes()).decodes, WHOLE);
        }
    }
}
