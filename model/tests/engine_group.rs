//! The engine's groups of rows held to the model, and each row's answer to the engine's own call of that row (feature
//! `engine`).

#[path = "support/unabsorbed.rs"]
mod unabsorbed;

use jurengate_model::book::{BLOCK_ROWS, BOOK_BLOCKS, BOOK_ROWS};
use jurengate_model::card::{lines, RowCall};
use jurengate_model::cards::{book_file, curves, foods_file, published, site_file};
use jurengate_model::ffi;
use jurengate_model::group::{card_group, kind, GroupCall, GROUP_ANSWERS, GROUP_ROWS};
use jurengate_model::random::{
    self, break_intake, break_texts, closed_rows, damaged_with_foods, file_faults, foods_faults, group_row,
    group_text, newborn_of, row_faults, text_faults, Fault, Generator, Intake, Range,
};
use jurengate_model::site::{place, AGES, SITE_FIELDS};
use jurengate_model::state::{BURDEN_LIMIT, MONTHS};
use std::collections::BTreeSet;

/// Blocks that an accepted book takes.
const WHOLE: u32 = BOOK_BLOCKS as u32;

/// A row's pair.
type Pair = [u32; 2];

const SKIPPED: Pair = [kind::SKIPPED, 0];

fn refused(number: u32) -> Pair {
    [kind::REFUSED, number]
}

/// What the engine's call of one row says, as a pair.
fn pair_alone(row: RowCall) -> Pair {
    match row {
        RowCall { number: 0, skipped: true, .. } => SKIPPED,
        RowCall { number: 0, blood, .. } => [kind::BLOOD, blood],
        RowCall { number, .. } => refused(number),
    }
}

/// Counts what was held to the model, and prints it at the end.
struct Groups {
    what: &'static str,
    calls: usize,
    rows: usize,
    bloods: usize,
    filler: u32,
}

impl Groups {
    fn new(what: &'static str) -> Groups {
        Groups { what, calls: 0, rows: 0, bloods: 0, filler: 0x5EED_0000 }
    }

    /// A list in which every place holds another number, and another one in each call.
    fn list(&mut self) -> [u32; GROUP_ANSWERS] {
        std::array::from_fn(|_| {
            self.filler = self.filler.wrapping_add(1);
            self.filler
        })
    }

    /// One call: what it answers and the whole lent list are the model's; each pair is the answer of its row alone.
    fn call(
        &mut self,
        site: &[u8],
        foods: Option<&[u8]>,
        book: &[u8],
        text: &[u8],
    ) -> (GroupCall, Vec<Pair>) {
        let what = self.what;
        let mut list = self.list();
        let mut due_list = list;
        let due = card_group(site, foods, book, text, &mut due_list);
        let answer = ffi::card_group(site, foods, book, text, &mut list);
        assert_eq!(answer, due, "{what}: {:?}", String::from_utf8_lossy(text));
        assert_eq!(list, due_list, "{what}: {:?}", String::from_utf8_lossy(text));
        let taken = answer.rows as usize;
        let pairs: Vec<Pair> = list.chunks_exact(2).take(taken).map(|pair| [pair[0], pair[1]]).collect();
        let rows = lines(text);
        assert_eq!(taken, rows.len().min(GROUP_ROWS), "{what}");
        for (row, pair) in rows.iter().zip(&pairs) {
            let alone = pair_alone(ffi::card_row(site, foods, book, row));
            assert_eq!(*pair, alone, "{what}: {:?} alone", String::from_utf8_lossy(row));
        }
        self.calls += 1;
        self.rows += taken;
        self.bloods += pairs.iter().filter(|pair| pair[0] == kind::BLOOD).count();
        (answer, pairs)
    }

    /// The pairs of a group whose book is accepted and whose text is one group.
    fn accepted(&mut self, site: &[u8], foods: Option<&[u8]>, book: &[u8], text: &[u8]) -> Vec<Pair> {
        let (answer, pairs) = self.call(site, foods, book, text);
        assert_eq!((answer.decodes, answer.next), (WHOLE, text.len()), "{}", self.what);
        pairs
    }

    /// A whole text in groups, each from where the one before has ended: how many rows each took, and all pairs.
    fn whole_text(
        &mut self,
        site: &[u8],
        foods: Option<&[u8]>,
        book: &[u8],
        text: &[u8],
    ) -> (Vec<usize>, Vec<Pair>) {
        let (mut sizes, mut pairs, mut from) = (Vec::new(), Vec::new(), 0);
        while from < text.len() {
            let (answer, some) = self.call(site, foods, book, &text[from..]);
            assert!(answer.rows > 0 && answer.next > 0, "{}: a group that does not go on", self.what);
            from += answer.next;
            sizes.push(some.len());
            pairs.extend(some);
        }
        (sizes, pairs)
    }
}

impl Drop for Groups {
    fn drop(&mut self) {
        if !std::thread::panicking() {
            let Groups { what, calls, rows, bloods, .. } = self;
            println!("{what}: {calls} groups compared, {rows} rows in them, {bloods} with a blood figure");
        }
    }
}

/// A row of this age over the published soil and dust, gaps else.
fn aged(age: usize) -> Vec<u8> {
    format!("A1 1 1 {age} 200 150 * * * * * *").into_bytes()
}

/// A row of this age that eats this much lead from elsewhere, µg a day.
fn eater(age: usize, other: u32) -> Vec<u8> {
    format!("A1 1 1 {age} 200 150 * * {other} * * *").into_bytes()
}

/// Rows as a text, each with its line feed.
fn text_of(rows: &[Vec<u8>]) -> Vec<u8> {
    rows.iter().flat_map(|row| [row.as_slice(), b"\n"].concat()).collect()
}

/// Rows of every kind, this many, the kinds by turns.
fn mixed_rows(count: usize) -> Vec<Vec<u8>> {
    let kind = |turn: usize| match turn % 8 {
        0 => aged(1 + turn % 5),
        1 => b"A1 1 1 * 200 150 * * * * * *".to_vec(),
        2 => Vec::new(),
        3 => format!("A{turn} 1 1 2 {} * 4.125 0.2 1.5 * 30 40", 100 + 3 * turn).into_bytes(),
        4 => b"A1 1 1 12 50000.1 150 * * * * * *".to_vec(),
        5 => b"A1 1 1 1 50000 150 * * * * * *".to_vec(),
        6 => [b"A1".as_slice(), &b" ".repeat(700), &aged(3)[2..]].concat(),
        _ => b"A1 1 1 1 200 x * * * * * *".to_vec(),
    };
    (0..count).map(kind).collect()
}

/// Texts of every number of rows around a group's, with a last line feed and without, with foods and without.
#[test]
fn numbers_of_rows() {
    let mut groups = Groups::new("numbers of rows");
    let (site, book, foods) = (published::site(), curves::book(), foods_file(&published::foods()));
    for foods in [None, Some(foods.as_slice())] {
        for count in [0, 1, 2, 62, 63, 64, 65, 66, 127, 128, 129, 200] {
            let text = text_of(&mixed_rows(count));
            let (sizes, pairs) = groups.whole_text(&site, foods, &book, &text);
            assert_eq!(pairs.len(), count);
            let due: Vec<usize> = (0..count).step_by(64).map(|from| 64.min(count - from)).collect();
            assert_eq!(sizes, due);
            // The last row is one without its line feed too, unless it is empty.
            let cut = &text[..text.len().saturating_sub(1)];
            let (_, shorter) = groups.whole_text(&site, foods, &book, cut);
            let left = if mixed_rows(count).last().is_some_and(Vec::is_empty) { count - 1 } else { count };
            assert_eq!(shorter, pairs[..left], "{count} rows");
        }
    }
    let four = groups.whole_text(&site, None, &book, &text_of(&mixed_rows(200))).0;
    assert_eq!(four, [64, 64, 64, 8]);
}

/// A call on an empty text takes nothing, keeps the whole list and still reads the files.
#[test]
fn a_text_without_rows() {
    let mut groups = Groups::new("no rows");
    let (site, book) = (published::site(), curves::book());
    let mut damaged = book.clone();
    damaged[9 * 512 + 4] ^= 1;
    for (site, book, decodes) in [
        (site.as_slice(), book.as_slice(), 17),
        (&site, &damaged, 10),
        (&site[..511], &book, 0),
        (&site, &book[..512], 0),
        (&[], &[], 0),
    ] {
        let (answer, pairs) = groups.call(site, None, book, b"");
        assert_eq!((answer, pairs), (GroupCall { rows: 0, decodes, next: 0 }, Vec::new()));
    }
}

/// Where rows end, and where the next one starts.
#[test]
fn ends_of_rows() {
    let mut groups = Groups::new("ends of rows");
    let (site, book) = (published::site(), curves::book());
    let feeds = |count: usize| b"\n".repeat(count);
    let row = aged(1);
    let many = |count: usize| [&row[..], b"\n"].concat().repeat(count);
    let cases = [
        (feeds(1), 1, 1),
        (feeds(2), 2, 2),
        (feeds(63), 63, 63),
        (feeds(64), 64, 64),
        (feeds(65), 64, 64),
        (feeds(1_000), 64, 64),
        (b" ".to_vec(), 1, 1),
        (b"\n ".to_vec(), 2, 2),
        (b"\r\n\r".to_vec(), 2, 3),
        (b"\0\n\0".to_vec(), 2, 3),
        (row.clone(), 1, row.len()),
        ([feeds(1), row.clone()].concat(), 2, 1 + row.len()),
        ([feeds(63), row.clone()].concat(), 64, 63 + row.len()),
        ([feeds(64), row.clone()].concat(), 64, 64),
        ([feeds(63), row.clone(), feeds(1)].concat(), 64, 64 + row.len()),
        ([feeds(63), row.clone(), feeds(2)].concat(), 64, 64 + row.len()),
        ([many(64), b"x".to_vec()].concat(), 64, 64 * (row.len() + 1)),
        ([many(63), row.clone()].concat(), 64, 64 * (row.len() + 1) - 1),
    ];
    for (text, rows, next) in cases {
        let (answer, _) = groups.call(&site, None, &book, &text);
        assert_eq!(answer, GroupCall { rows, decodes: WHOLE, next }, "{:?}", String::from_utf8_lossy(&text));
    }
}

/// The site of `aged`'s rows with both modes 0, whose rows then change nothing.
fn plain_fields() -> [u32; SITE_FIELDS] {
    let mut fields = published::fields();
    (fields[place::DUST_MODE], fields[place::WATER_MODE]) = (0, 0);
    fields[place::SOIL..place::SOIL + AGES].fill(200_000);
    fields[place::DUST..place::DUST + AGES].fill(150_000);
    fields
}

/// Children of every age together, the youngest first, the oldest first and mixed: each the figure that the run has.
#[test]
fn every_age_together() {
    let mut groups = Groups::new("every age together");
    let (site, book, foods) = (site_file(&plain_fields()), curves::book(), foods_file(&published::foods()));
    for foods in [None, Some(foods.as_slice())] {
        let mut blood = [0; MONTHS];
        assert_eq!(ffi::run_foods(&site, foods, &book, &mut blood).number, 0);
        let rising: Vec<usize> = (1..=MONTHS).collect();
        let falling: Vec<usize> = rising.iter().rev().copied().collect();
        let mixed: Vec<usize> = (1..=MONTHS).map(|turn| 1 + 37 * turn % MONTHS).collect();
        for ages in [rising, falling, mixed, vec![1, 84, 1, 84], vec![84; 64], vec![1; 64]] {
            let rows: Vec<Vec<u8>> = ages.iter().map(|&age| aged(age)).collect();
            let (_, pairs) = groups.whole_text(&site, foods, &book, &text_of(&rows));
            let due: Vec<Pair> = ages.iter().map(|&age| [kind::BLOOD, blood[age - 1]]).collect();
            assert_eq!(pairs, due);
        }
    }
}

/// One row of each kind with the pairs that are due.
#[test]
fn rows_of_every_kind() {
    let mut groups = Groups::new("rows of every kind");
    let (site, book) = (published::site(), curves::book());
    let rows = [
        ("A1 1 1 84 200 150 * * * * * *", None),
        ("A1 1 1 * 200 150 * * * * * *", Some(SKIPPED)),
        ("A1 1 1 0 200 150 * * * * * *", Some(SKIPPED)),
        ("A1 1 1 85 50001 150 * * * * * *", Some(SKIPPED)),
        ("A1 1 1 24 * * * * * * * *", Some(SKIPPED)),
        ("", Some(refused(12))),
        (" ", Some(refused(12))),
        ("A1", Some(refused(12))),
        ("A1 1 1 24 200 150 * * * * * * *", Some(refused(12))),
        ("A1 1 1 24 200 150 * * * * * *\r", Some(refused(12))),
        ("ABCDEFGHI 1 1 24 200 150 * * * * * *", Some(refused(12))),
        ("A1 1 1 24 50000.1 150 * * * * * *", Some(refused(7))),
        ("A1 1 1 24 200 150 * * * * * 101", Some(refused(7))),
        ("A1 1 1 24 50000 150 * * * * * *", Some(refused(9))),
        ("  A1 1 1 1 200 150 * * * * * *  ", None),
        ("* 1 1 1 * 150 * * * * * *", None),
    ];
    let text: String = rows.iter().map(|(row, _)| format!("{row}\n")).collect();
    let pairs = groups.accepted(&site, None, &book, text.as_bytes());
    for ((row, due), pair) in rows.iter().zip(&pairs) {
        match due {
            Some(due) => assert_eq!(pair, due, "{row}"),
            None => assert!(pair[0] == kind::BLOOD && pair[1] > 0, "{row}: {pair:?}"),
        }
    }
    // The same rows with every fault of a row between them.
    let mut generator = Generator::new(500);
    let mut faulty = Vec::new();
    for fault in text_faults() {
        let mut texts: Vec<Vec<u8>> = aged(2).split(|&byte| byte == b' ').map(<[u8]>::to_vec).collect();
        break_texts(&mut texts, &[fault]);
        faulty.push((random::joined(&mut generator, &texts), fault.number().map_or(SKIPPED, refused)));
        faulty.push((aged(2), pair_alone(ffi::card_row(&site, None, &book, &aged(2)))));
    }
    let rows: Vec<Vec<u8>> = faulty.iter().map(|(row, _)| row.clone()).collect();
    let (_, pairs) = groups.whole_text(&site, None, &book, &text_of(&rows));
    assert_eq!(pairs, faulty.into_iter().map(|(_, due)| due).collect::<Vec<_>>());
}

/// A child that is refused with 9 in some month stops nobody, wherever it stands.
#[test]
fn refusal_9_on_the_way() {
    let mut groups = Groups::new("9 on the way");
    let book = curves::book();
    for age in 0..AGES {
        let mut fields = unabsorbed::fields();
        break_intake(&mut fields, Intake::ConstantWater, age);
        let site = site_file(&fields);
        let months: Vec<usize> =
            (0..64).map(|turn| [12 * age, 12 * age + 1, 84, 1 + turn, 0][turn % 5]).collect();
        let rows: Vec<Vec<u8>> = months.iter().map(|&months| aged(months)).collect();
        let pairs = groups.accepted(&site, None, &book, &text_of(&rows));
        for (months, pair) in months.iter().zip(&pairs) {
            let due = match *months {
                0 => SKIPPED,
                months if months <= 12 * age => [kind::BLOOD, pair[1]],
                _ => refused(9),
            };
            assert_eq!(*pair, due, "AGE {months}, 9 from age {age} on");
        }
    }
    // By the row's own water: its neighbours have the site's.
    let dry: Vec<Vec<u8>> = (0..64)
        .map(|turn| match turn % 3 {
            0 => b"A1 1 1 30 200 150 10000 * * * * *".to_vec(),
            _ => aged(30 + turn % 3),
        })
        .collect();
    let pairs = groups.accepted(&published::site(), None, &book, &text_of(&dry));
    for (turn, pair) in pairs.iter().enumerate() {
        assert_eq!(turn % 3 == 0, *pair == refused(9), "row {turn}");
        assert_eq!(turn % 3 != 0, pair[0] == kind::BLOOD, "row {turn}");
    }
}

/// Children whose burden fills up, each in another month, beside children who live on.
#[test]
fn refusal_22_on_the_way() {
    let mut groups = Groups::new("22 on the way");
    let mut generator = Generator::new(501);
    let mut fields = plain_fields();
    (fields[place::ABSORBED + 4], fields[place::PASSIVE + 4]) = (100, 100);
    let site = site_file(&fields);
    let mut met = BTreeSet::new();
    for _ in 0..4 {
        let book = book_file(&closed_rows(&mut generator, Range::Near));
        let rows: Vec<Vec<u8>> = (0..64)
            .map(|turn| match turn % 4 {
                0 => eater(84, 1_000 - turn as u32),
                1 => eater(1 + turn, 40 * turn as u32),
                2 => eater(84, 0),
                _ => eater(1 + turn, 1_000),
            })
            .collect();
        let pairs = groups.accepted(&site, None, &book, &text_of(&rows));
        for (turn, pair) in pairs.iter().enumerate() {
            match turn % 4 {
                0 => assert_eq!(*pair, refused(22), "row {turn}"),
                2 => assert_eq!(pair[0], kind::BLOOD, "row {turn}"),
                _ => drop(met.insert(*pair == refused(22))),
            }
        }
    }
    assert_eq!(met, BTreeSet::from([false, true]));
}

/// A newborn over the burden's limit is every living row's 22, after 12, the skip and 7.
#[test]
fn refusal_22_at_birth() {
    let mut groups = Groups::new("22 at birth");
    let mut generator = Generator::new(502);
    let limit = BURDEN_LIMIT as u64;
    for (burden, number) in [(limit, 0), (limit + 1, 22)] {
        let (mother, row) = newborn_of(&mut generator, burden);
        let mut fields = unabsorbed::fields();
        fields[place::MOTHER] = mother;
        let mut rows = curves::rows();
        rows[0] = row;
        let text =
            text_of(&[aged(1), aged(0), b"A1".to_vec(), b"A 1 1 1 50001 1 * * * * * *".to_vec(), aged(84)]);
        let pairs = groups.accepted(&site_file(&fields), None, &book_file(&rows), &text);
        assert_eq!(pairs[1..4], [SKIPPED, refused(12), refused(7)]);
        for living in [pairs[0], pairs[4]] {
            assert_eq!(living == refused(22), number == 22, "{living:?}");
        }
    }
}

/// Rows far longer than all others, at both ends of a group and behind it.
#[test]
fn very_long_rows() {
    let mut groups = Groups::new("very long rows");
    let (site, book) = (published::site(), curves::book());
    let wide = |spaces: usize| {
        let spaces = " ".repeat(spaces);
        String::from_utf8(aged(1)).expect("text").replace(' ', &spaces).into_bytes()
    };
    let due = pair_alone(ffi::card_row(&site, None, &book, &aged(1)));
    for at in [0, 1, 31, 62, 63, 64] {
        let mut rows = vec![aged(1); 66];
        rows[at] = wide(10_000);
        let (_, pairs) = groups.whole_text(&site, None, &book, &text_of(&rows));
        assert_eq!(pairs, [due; 66], "a long row at {at}");
        for long in [b"1".repeat(100_000), b"1 ".repeat(50_000), b" ".repeat(100_000)] {
            rows[at] = long;
            let (_, pairs) = groups.whole_text(&site, None, &book, &text_of(&rows));
            let others = pairs.iter().enumerate().filter(|(place, _)| *place != at);
            assert_eq!(pairs[at], refused(12));
            assert!(others.into_iter().all(|(_, pair)| *pair == due));
        }
    }
}

/// Places behind the pairs are kept, for every number of rows.
#[test]
fn places_behind_the_pairs_are_kept() {
    let mut groups = Groups::new("kept places");
    let (site, book) = (published::site(), curves::book());
    for count in 0..=GROUP_ROWS + 1 {
        let text = b"A1 1 1 1 * * * * * * * *\n".repeat(count);
        let mut list = groups.list();
        let before = list;
        let answer = ffi::card_group(&site, None, &book, &text, &mut list);
        let taken = count.min(GROUP_ROWS);
        assert_eq!(answer.rows as usize, taken);
        assert_eq!(list[..2 * taken], SKIPPED.repeat(taken));
        assert_eq!(list[2 * taken..], before[2 * taken..], "{count} rows");
        groups.call(&site, None, &book, &text);
    }
}

/// Each fault of the files is every row's number, before 12, the skip and 7; the count stops at the refused block.
#[test]
fn refused_files() {
    let mut groups = Groups::new("refused files");
    let mut generator = Generator::new(503);
    let text = text_of(&[
        aged(1),
        Vec::new(),
        b"A1 1 1 * 200 150 * * * * * *".to_vec(),
        b"A1 1 1 1 50001 150 * * * * * *".to_vec(),
    ]);
    let mut faults = file_faults();
    faults.extend((0..BOOK_ROWS).map(|month| Fault::Row(month, row_faults()[month % row_faults().len()])));
    faults.extend(row_faults().into_iter().flat_map(|each| [Fault::Row(0, each), Fault::Row(84, each)]));
    faults.extend(foods_faults().into_iter().map(Fault::Foods));
    let (mut numbers, mut counts) = (BTreeSet::new(), BTreeSet::new());
    for fault in faults.into_iter().filter(|fault| fault.number() != 9) {
        let (site, foods, book) = damaged_with_foods(
            &mut generator,
            &published::fields(),
            &published::foods(),
            &curves::rows(),
            &[fault],
        );
        let (answer, pairs) = groups.call(&site, Some(&foods), &book, &text);
        assert_eq!(answer, GroupCall { rows: 4, decodes: fault.decodes(), next: text.len() }, "{fault:?}");
        assert_eq!(pairs, [refused(fault.number()); 4], "{fault:?}");
        numbers.insert(fault.number());
        counts.insert(answer.decodes);
        // Without the foods their faults do not count; the others do as before.
        let (answer, pairs) = groups.call(&site, None, &book, &text);
        if matches!(fault, Fault::Foods(_)) {
            assert_eq!((answer.decodes, &pairs[1..]), (WHOLE, &[refused(12), SKIPPED, refused(7)][..]));
        } else {
            assert_eq!((answer.decodes, pairs), (fault.decodes(), vec![refused(fault.number()); 4]));
        }
        let (answer, _) = groups.call(&site, Some(&foods), &book, b"");
        assert_eq!(answer, GroupCall { rows: 0, decodes: fault.decodes(), next: 0 }, "{fault:?}");
    }
    assert_eq!(numbers, BTreeSet::from([1, 3, 4, 5, 6, 7, 8, 10, 11, 13]));
    assert_eq!(counts, (0..=WHOLE).collect());
}

/// Two faults of the files: the first in the order gives the number and the count.
#[test]
fn two_faults_of_the_files() {
    let mut groups = Groups::new("two faults of the files");
    let mut generator = Generator::new(504);
    let pick = |generator: &mut Generator| loop {
        let fault = random::fault_with_foods(generator);
        if fault.number() != 9 {
            return fault;
        }
    };
    for _ in 0..1_500 {
        let mut faults = [pick(&mut generator), pick(&mut generator)];
        let (site, foods, book) = damaged_with_foods(
            &mut generator,
            &published::fields(),
            &published::foods(),
            &curves::rows(),
            &faults,
        );
        let (answer, _) = groups.call(&site, Some(&foods), &book, b"A1\n\n");
        faults.sort_by_key(|fault| fault.order());
        assert_eq!(answer.decodes, faults[0].decodes(), "{faults:?}");
    }
    for first in 0..BOOK_BLOCKS {
        for second in first + 1..BOOK_BLOCKS {
            let faults = [Fault::BlockCheck(second), Fault::Row(BLOCK_ROWS * first + 4, row_faults()[1])];
            let (site, foods, book) = damaged_with_foods(
                &mut generator,
                &published::fields(),
                &published::foods(),
                &curves::rows(),
                &faults,
            );
            let (answer, pairs) = groups.call(&site, Some(&foods), &book, b"\n");
            assert_eq!((answer.decodes, pairs), (first as u32 + 1, vec![refused(8)]));
        }
    }
}

/// Books of a wrong length count 0, whatever their blocks are.
#[test]
fn books_of_a_wrong_length() {
    let mut groups = Groups::new("books of a wrong length");
    let (site, book) = (published::site(), curves::book());
    let longer = [book.clone(), book.clone()].concat();
    for length in [0, 1, 511, 512, 513, 8_192, 8_703, 8_705, 9_216, 17_408] {
        let (answer, pairs) = groups.call(&site, None, &longer[..length], b"A1\n");
        assert_eq!((answer.decodes, pairs), (0, vec![refused(1)]), "{length}");
    }
    for length in [0, 511, 513, 1_024] {
        let site = [site.clone(), site.clone()].concat()[..length].to_vec();
        let (answer, pairs) = groups.call(&site, None, &book, b"A1\n");
        assert_eq!((answer.decodes, pairs), (0, vec![refused(1)]), "{length}");
    }
}

/// If every row is refused or skipped, an accepted book has still been decoded once.
#[test]
fn rows_without_a_child() {
    let mut groups = Groups::new("rows without a child");
    let (site, book, foods) = (published::site(), curves::book(), foods_file(&published::foods()));
    let skipped = b"A1 1 1 * 200 150 * * * * * *\n".repeat(64);
    let over = b"A1 1 1 1 200 50001 * * * * * *\n".repeat(64);
    for (text, due) in [(b"\n".repeat(64), refused(12)), (skipped, SKIPPED), (over, refused(7))] {
        for foods in [None, Some(foods.as_slice())] {
            assert_eq!(groups.accepted(&site, foods, &book, &text), [due; 64]);
        }
    }
}

/// Without the flag the bytes of a foods block are not looked at; with it an empty block has a wrong length.
#[test]
fn foods_count_by_their_flag() {
    let mut groups = Groups::new("foods by their flag");
    let (site, book, text) = (published::site(), curves::book(), text_of(&[aged(30), aged(2)]));
    let foods = foods_file(&published::foods());
    let without = groups.accepted(&site, None, &book, &text);
    for beside in [&foods[..], &foods[..100], &[], &[0xFF; 512]] {
        let mut list = groups.list();
        let answer = ffi::card_group_beside(&site, false, beside, &book, &text, &mut list);
        assert_eq!(answer, GroupCall { rows: 2, decodes: WHOLE, next: text.len() });
        assert_eq!(&list[..4], without.as_flattened());
    }
    let with_foods = groups.accepted(&site, Some(&foods), &book, &text);
    assert!(with_foods.iter().all(|pair| pair[0] == kind::BLOOD) && with_foods != without);
    let (answer, pairs) = groups.call(&site, Some(&[]), &book, &text);
    assert_eq!((answer.decodes, pairs), (0, vec![refused(1); 2]));
}

/// Rows of neighbours change nothing: a child has the same answer in every place and company.
#[test]
fn a_child_among_others() {
    let mut groups = Groups::new("a child among others");
    let mut generator = Generator::new(505);
    for turn in 0..9 {
        let range = Range::of_turn(turn);
        let (site, foods, book) = random::card_of_either_kind(&mut generator, range, 0);
        let child = b"A1 7 8 14 200.5 * 4.125 0.1 1.5 3.2 30 *".to_vec();
        let alone = pair_alone(ffi::card_row(&site, foods.as_deref(), &book, &child));
        for place in [0, 1, 32, 62, 63] {
            let mut rows: Vec<Vec<u8>> = (0..64).map(|_| group_row(&mut generator, range)).collect();
            rows[place] = child.clone();
            let pairs = groups.accepted(&site, foods.as_deref(), &book, &text_of(&rows));
            assert_eq!(pairs[place], alone, "in place {place}");
        }
    }
}

/// Groups of any size, of rows whole and damaged, over cards whole and damaged, with foods and without.
#[test]
fn random_groups_over_random_cards() {
    let mut groups = Groups::new("random groups");
    let mut generator = Generator::new(506);
    let (mut met, mut counts, mut skipped, mut full) = (BTreeSet::new(), BTreeSet::new(), 0, 0);
    for turn in 0..2_500 {
        let range = Range::of_turn(turn);
        let faults = if generator.once_in(4) { 1 + generator.index(3) } else { 0 };
        let (site, foods, book) = random::card_of_either_kind(&mut generator, range, faults);
        let range = random::range(&mut generator);
        let count =
            if generator.once_in(8) { generator.between(60, 70) as usize } else { generator.index(12) };
        let text = group_text(&mut generator, range, count);
        let (answer, pairs) = groups.call(&site, foods.as_deref(), &book, &text);
        counts.insert(answer.decodes);
        full += usize::from(answer.next < text.len());
        skipped += pairs.iter().filter(|pair| **pair == SKIPPED).count();
        met.extend(pairs.iter().filter(|pair| pair[0] == kind::REFUSED).map(|pair| pair[1]));
    }
    assert_eq!(met, BTreeSet::from([1, 3, 4, 5, 6, 7, 8, 9, 10, 11, 12, 13, 22]));
    assert_eq!(counts, (0..=WHOLE).collect());
    assert!(
        skipped > 300 && full > 50 && groups.bloods > 5_000,
        "{skipped} skipped, {full} with more rows than one group, {} with blood",
        groups.bloods
    );
}

/// Any bytes at all as a text.
#[test]
fn any_bytes_as_a_text() {
    let mut groups = Groups::new("any bytes as a text");
    let mut generator = Generator::new(507);
    let (site, book) = (published::site(), curves::book());
    for _ in 0..2_000 {
        let length = generator.index(400);
        let feeds = generator.between(2, 40);
        let text: Vec<u8> = (0..length)
            .map(|_| match generator.index(4) {
                0 if generator.once_in(feeds) => b'\n',
                1 => b' ',
                2 => generator.between(b'0'.into(), b'9'.into()) as u8,
                _ => generator.any() as u8,
            })
            .collect();
        groups.call(&site, None, &book, &text);
    }
}

/// Files and text at any address, and one over another: they are only read.
#[test]
fn files_and_text_anywhere() {
    let mut groups = Groups::new("files and text anywhere");
    let (site, book, foods) = (published::site(), curves::book(), foods_file(&published::foods()));
    let rows = text_of(&mixed_rows(66));
    for shift in 0..9 {
        let memory = [&vec![b'\n'; shift][..], &site, &foods, &book, &rows].concat();
        let (site, rest) = memory[shift..].split_at(site.len());
        let (foods, rest) = rest.split_at(foods.len());
        let (book, rows) = rest.split_at(book.len());
        for text in [rows, rest, &memory[..], site, &book[..700]] {
            let (answer, _) = groups.call(site, Some(foods), book, text);
            assert_eq!(answer.decodes, WHOLE);
        }
        // The foods block in the site's place, and the site in the book's.
        assert_eq!(groups.call(foods, Some(foods), book, rows).0.decodes, 0);
        assert_eq!(groups.call(site, Some(site), book, rows).0.decodes, 0);
    }
}
