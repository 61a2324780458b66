//! Limits that are written down, held to the model's rules: each end passes, and one step past it is refused.

use jurengate_model::block::FIELD_BYTES;
use jurengate_model::book::{column, Row, RowFields, ROW_FIELDS};
use jurengate_model::cards::{foods_file, seal, site_file_2};
use jurengate_model::foods::{read_foods, Foods, FOODS, GRAMS_AT, GRAMS_BYTES, LEADS_AT};
use jurengate_model::site::{
    place, read_places, within_limits, Places, AGES, PLACE_FIGURES, SATURATION_LEAST, SITE_FIELDS,
};
use std::ops::Range;

/// The largest blood volume of a row.
pub const BLOOD_VOLUME_MOST: u32 = 60_000;

/// A number with thousands parted by commas.
pub fn number(text: &str) -> Option<u32> {
    text.replace(',', "").parse().ok()
}

/// Whether these are the ends of a number that `fits` takes.
fn are_ends(least: u32, most: u32, fits: impl Fn(u32) -> bool) -> bool {
    let below = least.checked_sub(1).is_some_and(&fits);
    let above = most.checked_add(1).is_some_and(&fits);
    fits(least) && fits(most) && !below && !above
}

/// Fields that leave each one free.
pub fn free_fields() -> [u32; SITE_FIELDS] {
    let mut fields = [0; SITE_FIELDS];
    fields[place::SATURATION] = SATURATION_LEAST;
    fields
}

/// Whether a site field has these ends by the model's rules.
pub fn are_site_ends(place: usize, least: u32, most: u32) -> bool {
    are_site_ends_by(within_limits, place, least, most)
}

/// Whether a site field has these ends by what a reader takes, if every other field leaves it free.
pub fn are_site_ends_by(
    takes: impl Fn(&[u32; SITE_FIELDS]) -> bool,
    place: usize,
    least: u32,
    most: u32,
) -> bool {
    are_ends(least, most, |value| {
        let mut fields = free_fields();
        fields[place] = value;
        takes(&fields)
    })
}

/// Whether a figure of the places has these ends if all others are 0.
#[allow(dead_code)] // not every file of tests has places
pub fn are_away_ends(place: usize, least: u32, most: u32) -> bool {
    are_ends(least, most, |value| {
        let mut figures = [0; PLACE_FIGURES];
        figures[place] = value;
        read_places(&site_file_2(&free_fields(), &Places::of_figures(&figures))).is_ok()
    })
}

/// The bytes of a foods block's figure.
pub fn foods_bytes(place: usize) -> Range<usize> {
    match place.checked_sub(AGES * FOODS) {
        None => GRAMS_AT + GRAMS_BYTES * place..GRAMS_AT + GRAMS_BYTES * (place + 1),
        Some(behind) => LEADS_AT + FIELD_BYTES * behind..LEADS_AT + FIELD_BYTES * (behind + 1),
    }
}

/// Whether a foods block's figure has these ends if all others are 0.
pub fn are_foods_ends(place: usize, least: u32, most: u32) -> bool {
    are_ends(least, most, |value| {
        let mut block = foods_file(&Foods::default());
        let bytes = foods_bytes(place);
        block[bytes.clone()].copy_from_slice(&value.to_le_bytes()[..bytes.len()]);
        seal(&mut block);
        read_foods(&block).is_ok()
    })
}

/// Whether a row's number has these ends if every other number leaves it free.
pub fn are_row_ends(place: usize, least: u32, most: u32) -> bool {
    are_ends(least, most, |value| {
        let mut row: RowFields = [0; ROW_FIELDS];
        row[column::VB] = BLOOD_VOLUME_MOST;
        row[column::VP] = 1;
        row[column::BODY] = 2_000;
        row[column::OUT] = 1;
        row[place] = value;
        Row::of_fields(&row).within_limits()
    })
}
