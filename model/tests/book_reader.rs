//! The engine's book reader held to the model: its number, and all 85 rows of 23 numbers (feature `engine`).

use jurengate_model::block::BLOCK_BYTES;
use jurengate_model::book::{read_table, RowFields, BOOK_BLOCKS, BOOK_BYTES, BOOK_ROWS, ROW_FIELDS};
use jurengate_model::cards::{self, curves, published};
use jurengate_model::ffi;
use jurengate_model::random::{self, damaged, file_faults, row_faults, Fault, Generator, Range};
use jurengate_model::refusal::number_of;
use std::collections::BTreeMap;

/// How many books were answered with each number.
#[derive(Default)]
struct Numbers {
    counts: BTreeMap<u32, usize>,
}

impl Numbers {
    /// Reads a book by both, and counts its number.
    fn compare(&mut self, book: &[u8]) -> u32 {
        let model = read_table(book);
        let (number, table) = ffi::read_book(book);
        assert_eq!(number, number_of(&model));
        let due = model.unwrap_or([[0; ROW_FIELDS]; BOOK_ROWS]);
        for (month, (row, due)) in table.iter().zip(&due).enumerate() {
            assert_eq!(row, due, "row {month}, number {number}");
        }
        *self.counts.entry(number).or_default() += 1;
        number
    }

    /// Prints the counts; the numbers met are `due`.
    fn met(self, what: &str, due: &[u32]) {
        let calls: usize = self.counts.values().sum();
        println!("{what}: {calls} books compared, by number {:?}", self.counts);
        assert!(self.counts.keys().eq(due), "{what}: {:?}", self.counts);
    }
}

#[test]
fn accepted_books() {
    let mut numbers = Numbers::default();
    let mut generator = Generator::new(120);
    assert_eq!(numbers.compare(&curves::book()), 0);
    for turn in 0..600 {
        numbers.compare(&random::book(&mut generator, Range::of_turn(turn)));
    }
    numbers.met("accepted books", &[0]);
}

/// A book whose 1,955 numbers all differ, so that no two can be exchanged unseen.
#[test]
fn each_number_stands_in_its_place() {
    let row = |month| std::array::from_fn(|column| 4_000 - (ROW_FIELDS * month + column) as u32);
    let rows: Vec<RowFields> = (0..BOOK_ROWS).map(row).collect();
    let (number, table) = ffi::read_book(&cards::book_file(&rows));
    assert_eq!((number, table.as_slice()), (0, rows.as_slice()));
}

/// Whether a fault stands in the book.
fn in_book(fault: &Fault) -> bool {
    use Fault::*;
    matches!(
        fault,
        BookLength(_) | BlockCheck(_) | BlockEdition(_) | BlockNumber(_) | BlockReserved(_) | Row(..)
    )
}

#[test]
fn every_single_fault() {
    let mut numbers = Numbers::default();
    let mut generator = Generator::new(121);
    let rows =
        (0..BOOK_ROWS).flat_map(|month| row_faults().into_iter().map(move |fault| Fault::Row(month, fault)));
    for fault in file_faults().into_iter().filter(in_book).chain(rows) {
        let (_, book) = damaged(&mut generator, &published::fields(), &curves::rows(), &[fault]);
        assert_eq!(numbers.compare(&book), fault.number(), "{fault:?}");
    }
    numbers.met("single faults", &[1, 3, 4, 5, 6, 8]);
}

#[test]
fn several_faults_at_once() {
    let mut numbers = Numbers::default();
    let mut generator = Generator::new(122);
    for turn in 0..2_000 {
        let faults = generator.between(1, 5) as usize;
        let (_, book) = random::card(&mut generator, Range::of_turn(turn), faults);
        numbers.compare(&book);
    }
    numbers.met("several faults", &[0, 1, 3, 4, 5, 6, 8]);
}

/// Books whose blocks are framed and sealed but hold any numbers from some row on.
#[test]
fn rows_of_any_numbers() {
    let mut numbers = Numbers::default();
    let mut generator = Generator::new(123);
    for turn in 0..400 {
        let mut rows = random::rows(&mut generator, Range::of_turn(turn));
        let first = generator.index(BOOK_ROWS);
        for number in rows[first..].iter_mut().flatten() {
            *number = generator.at_limits(u32::MAX.into()) as u32;
        }
        numbers.compare(&cards::book_file(&rows));
    }
    numbers.met("rows of any numbers", &[8]);
}

#[test]
fn random_bytes() {
    let mut numbers = Numbers::default();
    let mut generator = Generator::new(124);
    for turn in 0..600 {
        let length = if generator.once_in(4) { generator.index(2 * BOOK_BYTES) } else { BOOK_BYTES };
        let mut book: Vec<u8> = (0..length).map(|_| generator.any() as u8).collect();
        if turn % 2 == 0 {
            book.chunks_exact_mut(BLOCK_BYTES).for_each(cards::seal);
        }
        numbers.compare(&book);
    }
    assert_eq!(numbers.compare(&[]), 1);
    numbers.met("random bytes", &[1, 3, 4]);
}

/// The end of the book may be read no sooner and no later than the format says.
#[test]
fn books_of_every_block_count() {
    let mut numbers = Numbers::default();
    let book = [curves::book(), curves::book()].concat();
    for blocks in 0..=2 * BOOK_BLOCKS {
        let number = numbers.compare(&book[..BLOCK_BYTES * blocks]);
        assert_eq!(number, if blocks == BOOK_BLOCKS { 0 } else { 1 });
    }
    numbers.met("books of every block count", &[0, 1]);
}
