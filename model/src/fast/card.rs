//! Rows of batch cards in quick Rust: one row over files that are read for it alone, and a text's rows one by one over
//! a book that is decoded anew for each.

use super::{decode_book, newborn, read, read_yard, step_month, Card, Diets, Fields, Rows};
use crate::book::{BOOK_ROWS, ROW_FIELDS};
use crate::card::{field, Form, RowCall, CARD_FIELDS, FIELD_MOST, FORMS, GOES};
use crate::group::{kind, GROUP_ANSWERS};
use crate::refusal::{Refusal, ACCEPTED};
use crate::site::place;
use crate::state::MONTHS;

/// A field in thousandths of its unit; a gap is none.
type Values = [Option<u32>; CARD_FIELDS];

/// A figure in thousandths; eight digits of them do not fit 32 bits, and are then the largest number.
fn figure(text: &[u8], form: Form) -> Result<u32, Refusal> {
    let (mut value, mut digits, mut decimals) = (0u64, 0, None);
    for &byte in text {
        match byte {
            b'0'..=b'9' => {
                value = 10 * value + u64::from(byte - b'0');
                digits += 1;
                decimals = decimals.map(|count: u32| count + 1);
            }
            b'.' if digits > 0 && decimals.is_none() && form == Form::Figure => decimals = Some(0),
            _ => return Err(Refusal::CardRow),
        }
    }
    match decimals {
        Some(0) => return Err(Refusal::CardRow),
        Some(count @ 1..=3) => value *= 10u64.pow(3 - count),
        Some(_) => return Err(Refusal::CardRow),
        None => value *= 1_000,
    }
    Ok(value.min(u32::MAX.into()) as u32)
}

/// The fields of a row, or refusal 12.
fn read_row(row: &[u8]) -> Result<Values, Refusal> {
    let mut values = [None; CARD_FIELDS];
    let mut count = 0;
    for text in row.split(|&byte| byte == b' ').filter(|text| !text.is_empty()) {
        if count == CARD_FIELDS || text.len() > FIELD_MOST {
            return Err(Refusal::CardRow);
        }
        if count != field::ID && text != b"*" {
            values[count] = Some(figure(text, FORMS[count])?);
        }
        count += 1;
    }
    if count == CARD_FIELDS {
        Ok(values)
    } else {
        Err(Refusal::CardRow)
    }
}

/// The row's figures put over the fields; refusal 7 if one is over its limit.
fn put(values: &Values, fields: &mut Fields) -> Result<(), Refusal> {
    (fields[place::DUST_MODE], fields[place::WATER_MODE]) = (0, 0);
    for goes in GOES {
        let copied = match goes.from {
            field::SOIL => values[field::DUST],
            field::DUST => values[field::SOIL],
            _ => None,
        };
        let Some(thousandths) = values[goes.from].or(copied) else { continue };
        let value = u64::from(thousandths) * goes.factor as u64 / 1_000;
        if value > super::SITE_MOST[goes.to].into() {
            return Err(Refusal::SiteLimits);
        }
        fields[goes.to..goes.to + goes.count].fill(value as u32);
    }
    Ok(())
}

/// Blood at AGE over files that are read, nothing for a skipped row.
fn answer(mut fields: Fields, diets: &Diets, rows: &Rows, row: &[u8]) -> Result<Option<u32>, Refusal> {
    let values = read_row(row)?;
    let age = values[field::AGE].unwrap_or(0) / 1_000;
    if age < 1 || age > MONTHS as u32 || (values[field::SOIL].is_none() && values[field::DUST].is_none()) {
        return Ok(None);
    }
    put(&values, &mut fields)?;
    let (mut state, mut blood) = (newborn(&fields, rows)?, 0);
    for _ in 0..age {
        (state, blood) = step_month(&fields, diets, rows, state)?;
    }
    Ok(Some(blood))
}

/// The call of one row.
pub fn card_row(site: &[u8], foods: Option<&[u8]>, book: &[u8], row: &[u8]) -> RowCall {
    let card = read(site, foods, book, MONTHS);
    match card.and_then(|Card { fields, diets, rows }| answer(fields, &diets, &rows, row)) {
        Ok(Some(blood)) => RowCall { number: ACCEPTED, blood, skipped: false },
        Ok(None) => RowCall { number: ACCEPTED, blood: 0, skipped: true },
        Err(refusal) => RowCall { number: refusal.number(), blood: 0, skipped: false },
    }
}

/// The first rows of a text without headings, 64 at most, each run by itself: site and foods are read once, the book is
/// decoded and checked anew for each row. Answers how many rows there were; each fills its pair of the list.
pub fn rows_one_by_one(
    site: &[u8],
    foods: Option<&[u8]>,
    book: &[u8],
    text: &[u8],
    answers: &mut [u32; GROUP_ANSWERS],
) -> u32 {
    let files = match (site.try_into(), book.try_into()) {
        (Ok(site), Ok(book)) => read_yard(site, foods).map(|(fields, diets)| (fields, diets, book)),
        _ => Err(Refusal::Length),
    };
    // The empty line behind the last line feed is no row.
    let text = text.strip_suffix(b"\n").map_or((!text.is_empty()).then_some(text), Some);
    let texts = text.into_iter().flat_map(|text| text.split(|&byte| byte == b'\n'));
    let mut rows = [[0; ROW_FIELDS]; BOOK_ROWS];
    let mut taken = 0;
    for (pair, row) in answers.chunks_exact_mut(2).zip(texts) {
        let outcome = files.and_then(|(fields, diets, book)| {
            decode_book(book, &mut rows)?;
            answer(fields, &diets, &rows, row)
        });
        let (kind, number) = match outcome {
            Ok(Some(blood)) => (kind::BLOOD, blood),
            Ok(None) => (kind::SKIPPED, 0),
            Err(refusal) => (kind::REFUSED, refusal.number()),
        };
        pair.copy_from_slice(&[kind, number]);
        taken += 1;
    }
    taken
}
