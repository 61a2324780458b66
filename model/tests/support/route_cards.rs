//! Cards whose routes through the gut are known beforehand.

use jurengate_model::book::{column, RowFields, BOOK_ROWS, ROW_FIELDS};
use jurengate_model::cards::published;
use jurengate_model::site::{place, AGES, SATURATION_LEAST, SITE_FIELDS};

/// The numbers of a site file and of a rate book.
pub type Numbers = ([u32; SITE_FIELDS], [RowFields; BOOK_ROWS]);

/// Rows of a child that sends nearly all its lead into the urine, so that no uptake fills it.
fn rows() -> [RowFields; BOOK_ROWS] {
    let mut row = [0; ROW_FIELDS];
    (row[column::VB], row[column::VP], row[column::BODY]) = (2_000, 1_000, 10_000);
    (row[column::OUT], row[column::URINE]) = (1, u32::MAX);
    [row; BOOK_ROWS]
}

/// Five q of 10^9, all passive: their sum does not fit 32 bits.
pub fn most_passive() -> Numbers {
    let mut fields = [0; SITE_FIELDS];
    let mut fill = |from: usize, values: [u32; AGES]| fields[from..from + AGES].copy_from_slice(&values);
    fill(place::AIR, [100_000; AGES]);
    fill(place::HOURS_OUT, [1, 2, 3, 4, 4, 4, 4]);
    fill(place::BREATHING, [3_220, 4_970, 6_090, 6_950, 7_680, 8_320, 8_890]);
    fill(place::AIR_ABSORBED, [32; AGES]);
    fill(place::DIET, [1_000_000_000; AGES]);
    fill(place::WATER_AMOUNT, [10_000; AGES]);
    fill(place::SOIL, [2_000_000; AGES]);
    fill(place::DUST, [2_000_000; AGES]);
    fill(place::EATEN, [1_000; AGES]);
    fill(place::ALTERNATE, [1_000_000_000; AGES]);
    (fields[place::INDOOR], fields[place::WEIGHT_SOIL]) = (30, 50);
    fields[place::CONSTANT_WATER] = 100_000;
    fields[place::ABSORBED..place::SATURATION].fill(100);
    fields[place::SATURATION] = SATURATION_LEAST;
    (fields, rows())
}

/// Five q of 10^9, none of it passive, at the highest saturation that files can have, 1.25×10^10, in all months but 24.
#[allow(dead_code)] // not every file of tests runs every card
pub fn most_active() -> Numbers {
    let (mut fields, mut rows) = most_passive();
    fields[place::PASSIVE..place::SATURATION].fill(0);
    fields[place::SATURATION] = 500_000_000;
    for row in &mut rows {
        row[column::BODY] = 50_000;
    }
    rows[24][column::BODY] = 2_000;
    (fields, rows)
}

/// Water, dust, soil and alternate of 250,000 each at a saturation of 10^6, with this much diet: 0 and 1 give T 500,000
/// and 499,996.
#[allow(dead_code)]
pub fn four_in_balance(diet: u32) -> Numbers {
    let mut fields = [0; SITE_FIELDS];
    fields[place::DIET..place::DIET + AGES].fill(diet);
    fields[place::WATER_AMOUNT..place::WATER_AMOUNT + AGES].fill(250);
    fields[place::SOIL..place::EATEN].fill(2_500);
    fields[place::EATEN..place::EATEN + AGES].fill(200);
    fields[place::ALTERNATE..place::ALTERNATE + AGES].fill(250_000);
    (fields[place::WEIGHT_SOIL], fields[place::CONSTANT_WATER]) = (50, 1_000);
    fields[place::ABSORBED..place::PASSIVE].fill(100);
    fields[place::SATURATION] = SATURATION_LEAST;
    (fields, rows())
}

/// A yard in which every medium, every share and every age differs, at a saturation that counts. It is run over the
/// realistic book.
#[allow(dead_code)]
pub fn mixed() -> [u32; SITE_FIELDS] {
    let mut fields = published::fields();
    for age in 0..AGES {
        fields[place::ALTERNATE + age] = 3_000_017 * (age as u32 + 1);
        fields[place::SOIL + age] = 400_003 + 70_001 * age as u32;
        fields[place::AIR + age] = 9_000_007;
    }
    (fields[place::FLUSHED], fields[place::FIRST_DRAW], fields[place::FOUNTAIN]) = (3_001, 17_003, 9_007);
    fields[place::WATER_MODE] = 1;
    fields[place::ABSORBED..place::PASSIVE].copy_from_slice(&[50, 45, 30, 25, 40]);
    fields[place::PASSIVE..place::SATURATION].copy_from_slice(&[20, 100, 0, 7, 33]);
    fields[place::SATURATION] = 37_654_321;
    fields
}
