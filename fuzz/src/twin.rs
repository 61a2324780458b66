//! The model behind the signatures of jurengate.h and jurengate_cards.h, each call under the name `model_*`.
//!
//! The pointers are those of the headers' calls, and must be good for the same memory.

#![allow(clippy::missing_safety_doc)]

use jurengate_model::book::{Table, BOOK_ROWS, ROW_FIELDS};
use jurengate_model::foods::FOODS_FIGURES;
use jurengate_model::group::GROUP_ANSWERS;
use jurengate_model::refusal::number_of;
use jurengate_model::site::{PLACE_FIGURES, SITE_FIELDS};
use jurengate_model::state::State;
use jurengate_model::{block, book, card, convert, engine, foods, group, site};
use std::slice::{from_raw_parts, from_raw_parts_mut};

/// Eleven numbers of a state.
type Numbers = [u64; 11];

/// The bytes of three files.
unsafe fn files<'a>(lent: [(*const u8, usize); 3]) -> [&'a [u8]; 3] {
    lent.map(|(bytes, length)| unsafe { from_raw_parts(bytes, length) })
}

/// The model's site reader.
#[no_mangle]
pub unsafe extern "C" fn model_read_site(
    site: *const u8,
    site_len: usize,
    fields: *mut [u32; SITE_FIELDS],
) -> u32 {
    let read = site::read_site(unsafe { from_raw_parts(site, site_len) });
    unsafe { *fields = read.unwrap_or([0; SITE_FIELDS]) };
    number_of(&read)
}

/// The model's reader of a site file's places.
#[no_mangle]
pub unsafe extern "C" fn model_read_places(
    site: *const u8,
    site_len: usize,
    places: *mut [u32; PLACE_FIGURES],
) -> u32 {
    let read = site::read_places(unsafe { from_raw_parts(site, site_len) });
    unsafe { *places = read.unwrap_or_default().figures() };
    number_of(&read)
}

/// The model's converter to edition 2.
#[no_mangle]
pub unsafe extern "C" fn model_site_to_edition_2(
    site: *const u8,
    site_len: usize,
    target: *mut u8,
    target_len: usize,
) -> u32 {
    let (site, target) = unsafe { (from_raw_parts(site, site_len), from_raw_parts_mut(target, target_len)) };
    number_of(&convert::to_edition_2(site, target))
}

/// The model's converter to edition 1.
#[no_mangle]
pub unsafe extern "C" fn model_site_to_edition_1(
    site: *const u8,
    site_len: usize,
    target: *mut u8,
    target_len: usize,
) -> u32 {
    let (site, target) = unsafe { (from_raw_parts(site, site_len), from_raw_parts_mut(target, target_len)) };
    number_of(&convert::to_edition_1(site, target))
}

/// The model's book reader.
#[no_mangle]
pub unsafe extern "C" fn model_read_book(book: *const u8, book_len: usize, table: *mut Table) -> u32 {
    let read = book::read_table(unsafe { from_raw_parts(book, book_len) });
    unsafe { *table = read.unwrap_or([[0; ROW_FIELDS]; BOOK_ROWS]) };
    number_of(&read)
}

/// The model's block writer.
#[no_mangle]
pub unsafe extern "C" fn model_write_block(
    body: *const u8,
    body_len: usize,
    target: *mut u8,
    target_len: usize,
) -> u32 {
    let (body, target) = unsafe { (from_raw_parts(body, body_len), from_raw_parts_mut(target, target_len)) };
    number_of(&block::write_block(body, target))
}

/// The model's birth.
#[no_mangle]
pub unsafe extern "C" fn model_birth(
    site: *const u8,
    site_len: usize,
    book: *const u8,
    book_len: usize,
    state: *mut Numbers,
) -> u32 {
    let answer = unsafe { engine::birth(from_raw_parts(site, site_len), from_raw_parts(book, book_len)) };
    unsafe { *state = answer.state.to_numbers() };
    answer.number
}

/// The model's month.
#[no_mangle]
pub unsafe extern "C" fn model_month(
    site: *const u8,
    site_len: usize,
    book: *const u8,
    book_len: usize,
    state: *mut Numbers,
    blood: *mut u32,
) -> u32 {
    let before = State::from_numbers(unsafe { *state });
    let answer =
        unsafe { engine::month(from_raw_parts(site, site_len), from_raw_parts(book, book_len), &before) };
    unsafe { (*state, *blood) = (answer.state.to_numbers(), answer.blood) };
    answer.number
}

/// The model's run.
#[no_mangle]
pub unsafe extern "C" fn model_run(
    site: *const u8,
    site_len: usize,
    book: *const u8,
    book_len: usize,
    blood: *mut u32,
    blood_len: usize,
    state: *mut Numbers,
    months: *mut u32,
) -> u32 {
    let list = unsafe { from_raw_parts_mut(blood, blood_len) };
    let answer = unsafe { engine::run(from_raw_parts(site, site_len), from_raw_parts(book, book_len), list) };
    unsafe { (*state, *months) = (answer.state.to_numbers(), answer.months) };
    answer.number
}

/// The model's foods reader.
#[no_mangle]
pub unsafe extern "C" fn model_read_foods(
    foods: *const u8,
    foods_len: usize,
    figures: *mut [u32; FOODS_FIGURES],
) -> u32 {
    let read = foods::read_foods(unsafe { from_raw_parts(foods, foods_len) });
    unsafe { *figures = read.unwrap_or_default().figures() };
    number_of(&read)
}

/// The model's birth with a foods block.
#[no_mangle]
pub unsafe extern "C" fn model_birth_foods(
    site: *const u8,
    site_len: usize,
    foods: *const u8,
    foods_len: usize,
    book: *const u8,
    book_len: usize,
    state: *mut Numbers,
) -> u32 {
    let [site, foods, book] = unsafe { files([(site, site_len), (foods, foods_len), (book, book_len)]) };
    let answer = engine::birth_foods(site, Some(foods), book);
    unsafe { *state = answer.state.to_numbers() };
    answer.number
}

/// The model's month with a foods block.
#[no_mangle]
pub unsafe extern "C" fn model_month_foods(
    site: *const u8,
    site_len: usize,
    foods: *const u8,
    foods_len: usize,
    book: *const u8,
    book_len: usize,
    state: *mut Numbers,
    blood: *mut u32,
) -> u32 {
    let [site, foods, book] = unsafe { files([(site, site_len), (foods, foods_len), (book, book_len)]) };
    let before = State::from_numbers(unsafe { *state });
    let answer = engine::month_foods(site, Some(foods), book, &before);
    unsafe { (*state, *blood) = (answer.state.to_numbers(), answer.blood) };
    answer.number
}

/// The model's run with a foods block.
#[no_mangle]
pub unsafe extern "C" fn model_run_foods(
    site: *const u8,
    site_len: usize,
    foods: *const u8,
    foods_len: usize,
    book: *const u8,
    book_len: usize,
    blood: *mut u32,
    blood_len: usize,
    state: *mut Numbers,
    months: *mut u32,
) -> u32 {
    let [site, foods, book] = unsafe { files([(site, site_len), (foods, foods_len), (book, book_len)]) };
    let list = unsafe { from_raw_parts_mut(blood, blood_len) };
    let answer = engine::run_foods(site, Some(foods), book, list);
    unsafe { (*state, *months) = (answer.state.to_numbers(), answer.months) };
    answer.number
}

/// The model's row of a batch card.
#[no_mangle]
pub unsafe extern "C" fn model_card_row(
    site: *const u8,
    site_len: usize,
    has_foods: bool,
    foods: *const u8,
    foods_len: usize,
    book: *const u8,
    book_len: usize,
    row: *const u8,
    row_len: usize,
    blood: *mut u32,
    skipped: *mut u8,
) -> u32 {
    let [site, foods, book] = unsafe { files([(site, site_len), (foods, foods_len), (book, book_len)]) };
    let row = unsafe { from_raw_parts(row, row_len) };
    let answer = card::card_row(site, has_foods.then_some(foods), book, row);
    unsafe { (*blood, *skipped) = (answer.blood, answer.skipped.into()) };
    answer.number
}

/// The model's group of rows of a batch card.
#[no_mangle]
pub unsafe extern "C" fn model_card_group(
    site: *const u8,
    site_len: usize,
    has_foods: bool,
    foods: *const u8,
    foods_len: usize,
    book: *const u8,
    book_len: usize,
    rows: *const u8,
    rows_len: usize,
    answers: *mut [u32; GROUP_ANSWERS],
    decodes: *mut u32,
    next: *mut usize,
) -> u32 {
    let [site, foods, book] = unsafe { files([(site, site_len), (foods, foods_len), (book, book_len)]) };
    let (rows, answers) = unsafe { (from_raw_parts(rows, rows_len), &mut *answers) };
    let answer = group::card_group(site, has_foods.then_some(foods), book, rows, answers);
    unsafe { (*decodes, *next) = (answer.decodes, answer.next) };
    answer.rows
}
