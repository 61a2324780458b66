//! How often a block of the book is decoded for a group (request 5 of document 02): exactly 17 times if the book is accepted,
//! n + 1 times if block n is refused, never on a refusal before its blocks. The figures are the request's; the model, which
//! counts by itself, and the engine must both have them (feature `engine`).

use jurengate_model::block::BLOCK_BYTES;
use jurengate_model::book::{BLOCK_ROWS, BOOK_BLOCKS, BOOK_BYTES};
use jurengate_model::cards::{book_file, curves, foods_file, published, site_file};
use jurengate_model::ffi;
use jurengate_model::group::{card_group, kind, GROUP_ANSWERS, GROUP_ROWS};
use jurengate_model::random::{
    break_intake, damaged_with_foods, file_faults, foods_faults, newborn_of, row_faults, Fault, Generator,
    Intake, Turn,
};
use jurengate_model::site::place;
use jurengate_model::state::BURDEN_LIMIT;
use std::collections::BTreeSet;

/// Blocks of an accepted book.
const WHOLE: u32 = 17;
/// What the list holds before a call.
const BEFORE: u32 = 0x5EED_5EED;
/// The numbers that a block of the book is refused with.
const BLOCK_NUMBERS: [u32; 5] = [3, 4, 5, 6, 8];

/// A row whose child lives for a month.
const LIVES: &[u8] = b"A1 1 1 1 200 150 * * * * * *\n";
const SKIPPED: &[u8] = b"A1 1 1 * 200 150 * * * * * *\n";
const REFUSED_7: &[u8] = b"A1 1 1 1 50001 150 * * * * * *\n";
const REFUSED_12: &[u8] = b"A1\n";

/// Texts of no rows, of rows that all live, are all skipped or all refused, of one of each, and of more rows than a group has.
fn texts() -> Vec<Vec<u8>> {
    let full = |row: &[u8]| row.repeat(GROUP_ROWS);
    vec![
        Vec::new(),
        LIVES.to_vec(),
        full(SKIPPED),
        full(REFUSED_7),
        full(REFUSED_12),
        [LIVES, SKIPPED, REFUSED_7, REFUSED_12].concat(),
        REFUSED_12.repeat(GROUP_ROWS + 1),
    ]
}

/// The files of a card; the foods are handed over or not.
struct Files {
    site: Vec<u8>,
    foods: Vec<u8>,
    book: Vec<u8>,
}

impl Files {
    fn whole() -> Files {
        Files { site: published::site(), foods: foods_file(&published::foods()), book: curves::book() }
    }

    /// The published card with one fault.
    fn with(generator: &mut Generator, fault: Fault) -> Files {
        let (fields, foods, rows) = (published::fields(), published::foods(), curves::rows());
        let (site, foods, book) = damaged_with_foods(generator, &fields, &foods, &rows, &[fault]);
        Files { site, foods, book }
    }

    /// The count of a group over these files, and its rows' pairs; engine and model say the same.
    fn group(&self, has_foods: bool, text: &[u8]) -> (u32, Vec<[u32; 2]>) {
        let Files { site, foods, book } = self;
        let foods = has_foods.then_some(foods.as_slice());
        let (mut list, mut due_list) = ([BEFORE; GROUP_ANSWERS], [BEFORE; GROUP_ANSWERS]);
        let due = card_group(site, foods, book, text, &mut due_list);
        let answer = ffi::card_group(site, foods, book, text, &mut list);
        assert_eq!((answer, list), (due, due_list));
        let pairs = list.chunks_exact(2).take(answer.rows as usize).map(|pair| [pair[0], pair[1]]);
        (answer.decodes, pairs.collect())
    }

    /// Every text over these files has this count, and all its rows are refused with this number.
    fn assert_refused(&self, has_foods: bool, number: u32, decodes: u32, what: &str) {
        for text in texts() {
            let (counted, pairs) = self.group(has_foods, &text);
            assert_eq!(counted, decodes, "{what}: {:?}", String::from_utf8_lossy(&text));
            assert!(pairs.iter().all(|pair| *pair == [kind::REFUSED, number]), "{what}: {pairs:?}");
        }
    }
}

/// Everything that block n can be refused for: its frame, and each limit of each of its five rows.
fn block_faults(n: usize) -> Vec<Fault> {
    let frame =
        [Fault::BlockCheck(n), Fault::BlockEdition(n), Fault::BlockNumber(n), Fault::BlockReserved(n)];
    let months = BLOCK_ROWS * n..BLOCK_ROWS * (n + 1);
    let rows = months.flat_map(|month| row_faults().into_iter().map(move |fault| Fault::Row(month, fault)));
    frame.into_iter().chain(rows).collect()
}

/// Each of the 17 blocks refused with each of its numbers, whatever follows it in the book.
#[test]
fn each_block_with_each_of_its_numbers() {
    let mut generator = Generator::new(900);
    let (mut met, mut books) = (BTreeSet::new(), 0);
    for n in 0..BOOK_BLOCKS {
        for fault in block_faults(n) {
            let mut files = Files::with(&mut generator, fault);
            let (number, decodes, what) = (fault.number(), n as u32 + 1, format!("{fault:?}"));
            files.assert_refused(false, number, decodes, &what);
            files.assert_refused(true, number, decodes, &what);
            for filler in [0, 0xFF] {
                files.book[BLOCK_BYTES * (n + 1)..].fill(filler);
                files.assert_refused(false, number, decodes, &format!("{what}, then bytes {filler}"));
            }
            met.insert((n, number));
            books += 1;
        }
    }
    let every = (0..BOOK_BLOCKS).flat_map(|n| BLOCK_NUMBERS.map(|number| (n, number)));
    assert_eq!(met, every.collect());
    println!("{books} books, each refused at one block");
}

/// Every refusal before the book's blocks counts nothing, over a good book, one whose block 0 is refused, and one of any bytes.
#[test]
fn every_earlier_refusal() {
    let mut generator = Generator::new(901);
    let mut met = BTreeSet::new();
    let foods = foods_faults().into_iter().map(Fault::Foods);
    for fault in file_faults().into_iter().chain(foods) {
        let turn = fault.order().0;
        if !matches!(turn, Turn::Lengths | Turn::Site | Turn::Foods) {
            continue;
        }
        let mut files = Files::with(&mut generator, fault);
        let number = fault.number();
        for bytes in [None, Some(0), Some(0xFF)] {
            if let Some(byte) = bytes {
                files.book.fill(byte);
            }
            files.assert_refused(true, number, 0, &format!("{fault:?}"));
            if turn != Turn::Foods {
                files.assert_refused(false, number, 0, &format!("{fault:?}"));
            }
        }
        met.insert((turn, number));
    }
    let due = [
        (Turn::Lengths, vec![1]),
        (Turn::Site, vec![3, 4, 5, 6, 7, 13]),
        (Turn::Foods, vec![1, 3, 4, 5, 6, 10, 11]),
    ];
    let due =
        due.into_iter().flat_map(|(turn, numbers)| numbers.into_iter().map(move |number| (turn, number)));
    assert_eq!(met, due.collect());
}

/// A wrong length of the book counts nothing, however near it is and whatever else is wrong.
#[test]
fn every_wrong_length_of_the_book() {
    let mut files = Files::whole();
    let twice = files.book.repeat(2);
    let blocks = (0..=2 * BOOK_BLOCKS).map(|blocks| BLOCK_BYTES * blocks);
    let near = blocks.flat_map(|length| [length.saturating_sub(1), length, length + 1]);
    for length in near.filter(|&length| length != BOOK_BYTES && length <= twice.len()) {
        files.book = twice[..length].to_vec();
        files.assert_refused(false, 1, 0, &format!("{length} bytes"));
        files.assert_refused(true, 1, 0, &format!("{length} bytes"));
    }
}

/// An accepted book counts 17: rows that live, are all skipped or refused, and none; refused by 9 or 22 too.
#[test]
fn an_accepted_book() {
    let mut generator = Generator::new(902);
    let mut all = vec![Files::whole(), Files::whole(), Files::whole()];
    let mut fields = published::fields();
    break_intake(&mut fields, Intake::ConstantWater, 0);
    all[1].site = site_file(&fields);
    let (mother, newborn) = newborn_of(&mut generator, BURDEN_LIMIT as u64 + 1);
    let (mut fields, mut rows) = (published::fields(), curves::rows());
    (fields[place::MOTHER], rows[0]) = (mother, newborn);
    (all[2].site, all[2].book) = (site_file(&fields), book_file(&rows));
    let mut met = BTreeSet::new();
    for files in &all {
        for (text, has_foods) in texts().into_iter().flat_map(|text| [(text.clone(), false), (text, true)]) {
            let (decodes, pairs) = files.group(has_foods, &text);
            assert_eq!(decodes, WHOLE, "{:?}", String::from_utf8_lossy(&text));
            met.extend(pairs.into_iter().filter(|pair| pair[0] != kind::BLOOD));
        }
    }
    let refused = [7, 9, 12, 22].map(|number| [kind::REFUSED, number]);
    assert_eq!(met, refused.into_iter().chain([[kind::SKIPPED, 0]]).collect());
}

/// Books of any damage: the first block that a good book would be refused for alone is the last that is decoded.
#[test]
fn books_of_any_damage() {
    let mut generator = Generator::new(903);
    let mut counts = BTreeSet::new();
    for _ in 0..2_000 {
        let mut files = Files::whole();
        let good = files.book.clone();
        for _ in 0..generator.index(4) {
            let at = generator.index(BOOK_BYTES);
            files.book[at] ^= 1 << generator.index(8);
        }
        let alone = |n: usize| {
            let mut book = good.clone();
            let block = BLOCK_BYTES * n..BLOCK_BYTES * (n + 1);
            book[block.clone()].copy_from_slice(&files.book[block]);
            ffi::read_book(&book).0
        };
        match (0..BOOK_BLOCKS).map(alone).enumerate().find(|(_, number)| *number != 0) {
            Some((n, number)) => files.assert_refused(false, number, n as u32 + 1, "any damage"),
            None => assert_eq!(files.group(false, LIVES).0, WHOLE),
        }
        counts.insert(files.group(true, b"").0);
    }
    assert_eq!(counts, (1..=WHOLE).collect());
}

/// Each group of a long text reads the book anew: the wear of a card is the sum of its groups' counts.
#[test]
fn each_group_of_a_long_text() {
    let text = SKIPPED.repeat(200);
    let wear = |files: &Files| -> Vec<u32> {
        text.chunks(GROUP_ROWS * SKIPPED.len()).map(|rows| files.group(false, rows).0).collect()
    };
    let mut files = Files::whole();
    assert_eq!(wear(&files), [17, 17, 17, 17]);
    files.book[BLOCK_BYTES * 5] ^= 1;
    assert_eq!(wear(&files), [6, 6, 6, 6]);
    files.site.pop();
    assert_eq!(wear(&files), [0, 0, 0, 0]);
}
