//! The engine's C interface, of both its libraries, in safe Rust. Every place that the engine is to fill
//! holds a filler before the call, so that what it leaves out shows.

#![allow(unsafe_code)]

use crate::book::{Table, BOOK_ROWS, ROW_FIELDS};
use crate::card::RowCall;
use crate::engine::{BirthAnswer, MonthAnswer, RunAnswer};
use crate::foods::FOODS_FIGURES;
use crate::group::{GroupCall, GROUP_ANSWERS};
use crate::site::{Places, PLACE_FIGURES, SITE_FIELDS};
use crate::state::State;

/// What 32-bit places hold before a call.
const FILLER: u32 = 0xA5A5_5A5A;
/// What 64-bit places hold before a call.
const WIDE_FILLER: u64 = 0xA5A5_5A5A_C3C3_3C3C;
/// What the place of a bool holds before a call: neither of the two.
const BOOL_FILLER: u8 = 0xA5;

extern "C" {
    fn jurengate_read_site(site: *const u8, site_len: usize, fields: *mut u32) -> u32;
    fn jurengate_read_book(book: *const u8, book_len: usize, table: *mut u32) -> u32;
    fn jurengate_write_block(body: *const u8, body_len: usize, target: *mut u8, target_len: usize) -> u32;
    fn jurengate_birth(
        site: *const u8,
        site_len: usize,
        book: *const u8,
        book_len: usize,
        state: *mut u64,
    ) -> u32;
    fn jurengate_month(
        site: *const u8,
        site_len: usize,
        book: *const u8,
        book_len: usize,
        state: *mut u64,
        blood: *mut u32,
    ) -> u32;
    fn jurengate_run(
        site: *const u8,
        site_len: usize,
        book: *const u8,
        book_len: usize,
        blood: *mut u32,
        blood_len: usize,
        state: *mut u64,
        months: *mut u32,
    ) -> u32;
    fn jurengate_read_foods(foods: *const u8, foods_len: usize, figures: *mut u32) -> u32;
    fn jurengate_birth_foods(
        site: *const u8,
        site_len: usize,
        foods: *const u8,
        foods_len: usize,
        book: *const u8,
        book_len: usize,
        state: *mut u64,
    ) -> u32;
    fn jurengate_month_foods(
        site: *const u8,
        site_len: usize,
        foods: *const u8,
        foods_len: usize,
        book: *const u8,
        book_len: usize,
        state: *mut u64,
        blood: *mut u32,
    ) -> u32;
    fn jurengate_run_foods(
        site: *const u8,
        site_len: usize,
        foods: *const u8,
        foods_len: usize,
        book: *const u8,
        book_len: usize,
        blood: *mut u32,
        blood_len: usize,
        state: *mut u64,
        months: *mut u32,
    ) -> u32;
    fn jurengate_read_places(site: *const u8, site_len: usize, places: *mut u32) -> u32;
    fn jurengate_site_to_edition_2(
        site: *const u8,
        site_len: usize,
        target: *mut u8,
        target_len: usize,
    ) -> u32;
    fn jurengate_site_to_edition_1(
        site: *const u8,
        site_len: usize,
        target: *mut u8,
        target_len: usize,
    ) -> u32;
    // Of the second library, that of batch cards.
    fn jurengate_card_row(
        site: *const u8,
        site_len: usize,
        has_foods: bool,
        foods: *const u8,
        foods_len: usize,
        book: *const u8,
        book_len: usize,
        row: *const u8,
        row_len: usize,
        blood: *mut u32,
        skipped: *mut u8,
    ) -> u32;
    fn jurengate_card_group(
        site: *const u8,
        site_len: usize,
        has_foods: bool,
        foods: *const u8,
        foods_len: usize,
        book: *const u8,
        book_len: usize,
        rows: *const u8,
        rows_len: usize,
        answers: *mut u32,
        decodes: *mut u32,
        next: *mut usize,
    ) -> u32;
}

/// The engine's site reader: its number and the fields, zeros if refused.
pub fn read_site(site: &[u8]) -> (u32, [u32; SITE_FIELDS]) {
    let mut fields = [FILLER; SITE_FIELDS];
    // SAFETY: the pointers span `site` and 94 writable fields.
    let number = unsafe { jurengate_read_site(site.as_ptr(), site.len(), fields.as_mut_ptr()) };
    (number, fields)
}

/// The engine's reader of a site file's places: its number and the places, zeros if refused.
pub fn read_places(site: &[u8]) -> (u32, Places) {
    let mut figures = [FILLER; PLACE_FIGURES];
    // SAFETY: the pointers span `site` and ten writable figures.
    let number = unsafe { jurengate_read_places(site.as_ptr(), site.len(), figures.as_mut_ptr()) };
    (number, Places::of_figures(&figures))
}

/// The engine's converter to edition 2.
pub fn site_to_edition_2(site: &[u8], target: &mut [u8]) -> u32 {
    // SAFETY: the pointers and lengths are those of the two slices, which do not overlap.
    unsafe { jurengate_site_to_edition_2(site.as_ptr(), site.len(), target.as_mut_ptr(), target.len()) }
}

/// The engine's converter to edition 1.
pub fn site_to_edition_1(site: &[u8], target: &mut [u8]) -> u32 {
    // SAFETY: the pointers and lengths are those of the two slices, which do not overlap.
    unsafe { jurengate_site_to_edition_1(site.as_ptr(), site.len(), target.as_mut_ptr(), target.len()) }
}

/// The engine's book reader: its number and the rows, zeros if refused.
pub fn read_book(book: &[u8]) -> (u32, Table) {
    let mut table = [[FILLER; ROW_FIELDS]; BOOK_ROWS];
    // SAFETY: the pointers span `book` and 85 rows of 23 writable numbers.
    let number = unsafe { jurengate_read_book(book.as_ptr(), book.len(), table.as_mut_ptr().cast()) };
    (number, table)
}

/// The engine's foods reader: its number and the figures, zeros if refused.
pub fn read_foods(foods: &[u8]) -> (u32, [u32; FOODS_FIGURES]) {
    let mut figures = [FILLER; FOODS_FIGURES];
    // SAFETY: the pointers span `foods` and 128 writable figures.
    let number = unsafe { jurengate_read_foods(foods.as_ptr(), foods.len(), figures.as_mut_ptr()) };
    (number, figures)
}

/// The engine's block writer.
pub fn write_block(body: &[u8], target: &mut [u8]) -> u32 {
    // SAFETY: the pointers and lengths are those of the two slices, which do not overlap.
    unsafe { jurengate_write_block(body.as_ptr(), body.len(), target.as_mut_ptr(), target.len()) }
}

/// The engine's birth.
pub fn birth(site: &[u8], book: &[u8]) -> BirthAnswer {
    let mut state = [WIDE_FILLER; 11];
    // SAFETY: the pointers span the two slices and eleven writable numbers.
    let number =
        unsafe { jurengate_birth(site.as_ptr(), site.len(), book.as_ptr(), book.len(), state.as_mut_ptr()) };
    BirthAnswer { number, state: State::from_numbers(state) }
}

/// The engine's birth with a foods block, or the one without if there is none.
pub fn birth_foods(site: &[u8], foods: Option<&[u8]>, book: &[u8]) -> BirthAnswer {
    let Some(foods) = foods else { return birth(site, book) };
    let mut state = [WIDE_FILLER; 11];
    // SAFETY: the pointers span the three slices and eleven writable numbers.
    let number = unsafe {
        jurengate_birth_foods(
            site.as_ptr(),
            site.len(),
            foods.as_ptr(),
            foods.len(),
            book.as_ptr(),
            book.len(),
            state.as_mut_ptr(),
        )
    };
    BirthAnswer { number, state: State::from_numbers(state) }
}

/// The engine's month.
pub fn month(site: &[u8], book: &[u8], state: &State) -> MonthAnswer {
    let mut numbers = state.to_numbers();
    let mut blood = FILLER;
    // SAFETY: the pointers span the two slices, eleven writable numbers and one figure.
    let number = unsafe {
        jurengate_month(
            site.as_ptr(),
            site.len(),
            book.as_ptr(),
            book.len(),
            numbers.as_mut_ptr(),
            &mut blood,
        )
    };
    MonthAnswer { number, state: State::from_numbers(numbers), blood }
}

/// The engine's month with a foods block, or the one without if there is none.
pub fn month_foods(site: &[u8], foods: Option<&[u8]>, book: &[u8], state: &State) -> MonthAnswer {
    let Some(foods) = foods else { return month(site, book, state) };
    let mut numbers = state.to_numbers();
    let mut blood = FILLER;
    // SAFETY: the pointers span the three slices, eleven writable numbers and one figure.
    let number = unsafe {
        jurengate_month_foods(
            site.as_ptr(),
            site.len(),
            foods.as_ptr(),
            foods.len(),
            book.as_ptr(),
            book.len(),
            numbers.as_mut_ptr(),
            &mut blood,
        )
    };
    MonthAnswer { number, state: State::from_numbers(numbers), blood }
}

/// The engine's run over a lent list.
pub fn run(site: &[u8], book: &[u8], blood: &mut [u32]) -> RunAnswer {
    let mut state = [WIDE_FILLER; 11];
    let mut months = FILLER;
    // SAFETY: the pointers span the slices, eleven writable numbers and one count.
    let number = unsafe {
        jurengate_run(
            site.as_ptr(),
            site.len(),
            book.as_ptr(),
            book.len(),
            blood.as_mut_ptr(),
            blood.len(),
            state.as_mut_ptr(),
            &mut months,
        )
    };
    RunAnswer { number, state: State::from_numbers(state), months }
}

/// The engine's run with a foods block, or the one without if there is none, over a lent list.
pub fn run_foods(site: &[u8], foods: Option<&[u8]>, book: &[u8], blood: &mut [u32]) -> RunAnswer {
    let Some(foods) = foods else { return run(site, book, blood) };
    let mut state = [WIDE_FILLER; 11];
    let mut months = FILLER;
    // SAFETY: the pointers span the slices, eleven writable numbers and one count.
    let number = unsafe {
        jurengate_run_foods(
            site.as_ptr(),
            site.len(),
            foods.as_ptr(),
            foods.len(),
            book.as_ptr(),
            book.len(),
            blood.as_mut_ptr(),
            blood.len(),
            state.as_mut_ptr(),
            &mut months,
        )
    };
    RunAnswer { number, state: State::from_numbers(state), months }
}

/// The engine's call of one row of a batch card, with a foods block if there is one.
pub fn card_row(site: &[u8], foods: Option<&[u8]>, book: &[u8], row: &[u8]) -> RowCall {
    card_row_beside(site, foods.is_some(), foods.unwrap_or_default(), book, row)
}

/// The same call with the bytes of a foods block at hand, whether it has one or not.
pub fn card_row_beside(site: &[u8], has_foods: bool, foods: &[u8], book: &[u8], row: &[u8]) -> RowCall {
    let (mut blood, mut skipped) = (FILLER, BOOL_FILLER);
    // SAFETY: the pointers span the four slices, one figure and one byte, which is what a C bool takes.
    let number = unsafe {
        jurengate_card_row(
            site.as_ptr(),
            site.len(),
            has_foods,
            foods.as_ptr(),
            foods.len(),
            book.as_ptr(),
            book.len(),
            row.as_ptr(),
            row.len(),
            &mut blood,
            &mut skipped,
        )
    };
    assert!(skipped <= 1, "the engine left {skipped:#x} for a bool");
    RowCall { number, blood, skipped: skipped == 1 }
}

/// The engine's call of a group of rows of a batch card, with a foods block if there is one, over a lent list of pairs.
pub fn card_group(
    site: &[u8],
    foods: Option<&[u8]>,
    book: &[u8],
    rows: &[u8],
    answers: &mut [u32; GROUP_ANSWERS],
) -> GroupCall {
    card_group_beside(site, foods.is_some(), foods.unwrap_or_default(), book, rows, answers)
}

/// The same call with the bytes of a foods block at hand, whether it has one or not.
pub fn card_group_beside(
    site: &[u8],
    has_foods: bool,
    foods: &[u8],
    book: &[u8],
    rows: &[u8],
    answers: &mut [u32; GROUP_ANSWERS],
) -> GroupCall {
    let (mut decodes, mut next) = (FILLER, WIDE_FILLER as usize);
    // SAFETY: the pointers span the four slices, 128 writable numbers, one count and one length.
    let taken = unsafe {
        jurengate_card_group(
            site.as_ptr(),
            site.len(),
            has_foods,
            foods.as_ptr(),
            foods.len(),
            book.as_ptr(),
            book.len(),
            rows.as_ptr(),
            rows.len(),
            answers.as_mut_ptr(),
            &mut decodes,
            &mut next,
        )
    };
    GroupCall { rows: taken, decodes, next }
}
