//! Writers: sealed blocks, site files, foods blocks and rate books from bare fields.

pub mod curves;
pub mod published;

use crate::block::{
    write_block, BLOCK_BYTES, BODY_BYTES, EDITION, EDITION_AT, FIELDS_AT, FIELD_BYTES, NUMBER_AT,
};
use crate::book::{RowFields, BLOCK_ROWS, BOOK_BYTES, BOOK_ROWS};
use crate::foods::{Foods, FOODS_NUMBER};
use crate::site::{Places, EDITION_2, SITE_FIELDS, SITE_NUMBER};

/// Makes the check of a 512-byte block anew.
pub fn seal(block: &mut [u8]) {
    let body = block[..BODY_BYTES].to_vec();
    write_block(&body, block).expect("a block is 512 bytes");
}

/// A sealed block of edition 1 from its number and fields.
pub fn block_of(number: u16, fields: &[u32]) -> Vec<u8> {
    block_of_edition(EDITION, number, fields)
}

/// A sealed block of an edition from its number and fields.
fn block_of_edition(edition: u16, number: u16, fields: &[u32]) -> Vec<u8> {
    let mut block = vec![0; BLOCK_BYTES];
    block[NUMBER_AT..NUMBER_AT + 2].copy_from_slice(&number.to_le_bytes());
    block[EDITION_AT..EDITION_AT + 2].copy_from_slice(&edition.to_le_bytes());
    for (index, field) in fields.iter().enumerate() {
        put_field(&mut block, index, *field);
    }
    seal(&mut block);
    block
}

/// Puts a field into a block without sealing it.
pub fn put_field(block: &mut [u8], index: usize, value: u32) {
    let at = FIELDS_AT + FIELD_BYTES * index;
    block[at..at + FIELD_BYTES].copy_from_slice(&value.to_le_bytes());
}

/// A site file of edition 1; limits are not checked here.
pub fn site_file(fields: &[u32; SITE_FIELDS]) -> Vec<u8> {
    block_of(SITE_NUMBER, fields)
}

/// A site file of edition 2; limits are not checked here.
pub fn site_file_2(fields: &[u32; SITE_FIELDS], places: &Places) -> Vec<u8> {
    block_of_edition(EDITION_2.number, SITE_NUMBER, &[&fields[..], &places.figures()].concat())
}

/// A site file of edition 2 if there are places, else of edition 1.
pub fn site_file_with(fields: &[u32; SITE_FIELDS], places: Option<&Places>) -> Vec<u8> {
    places.map_or_else(|| site_file(fields), |places| site_file_2(fields, places))
}

/// A foods block; limits are not checked here.
pub fn foods_file(foods: &Foods) -> Vec<u8> {
    let mut block = block_of(FOODS_NUMBER, &[]);
    foods.put(&mut block);
    seal(&mut block);
    block
}

/// A rate book from 85 rows; limits are not checked here.
pub fn book_file(rows: &[RowFields]) -> Vec<u8> {
    assert_eq!(rows.len(), BOOK_ROWS, "a book has rows for months 0 to 84");
    let mut book = Vec::with_capacity(BOOK_BYTES);
    for (number, rows) in rows.chunks_exact(BLOCK_ROWS).enumerate() {
        book.extend(block_of(number as u16, &rows.concat()));
    }
    book
}
