//! Damaged files: each fault just out of bounds, sealed so that it alone is met.

use super::foods::{foods_fault, FoodsFault};
use super::{Generator, Yard, D, OUTFLOW_MOST};
use crate::block::{word16, BLOCK_BYTES, BODY_BYTES, EDITION_AT, NUMBER_AT};
use crate::book::{self, column, RowFields, BLOCK_ROWS, BOOK_BLOCKS, BOOK_ROWS};
use crate::cards;
use crate::foods::Foods;
use crate::site::{
    self, place, Place, AGES, EDITION_1, EDITION_2, PLACES, PLACE_DUST_MOST, PLACE_SHARES_MOST, SITE_FIELDS,
};

/// 10^9 + 1, the least intake that refusal 9 stops, as products that fit the fields.
pub(super) const PAST_INTAKE: [(u32, u32); 2] = [(77, 12_987_013), (1_001, 999_001)];

/// The same for the dust of a place, whose figure holds for all ages: no other age eats as much.
const PAST_PLACE: (u32, u32) = (247, 4_048_583);

/// What is wrong with a row.
#[derive(Clone, Copy, Debug, PartialEq, Eq)]
pub enum RowFault {
    /// VB below 1,000.
    BloodLow,
    /// VB over 60,000.
    BloodHigh,
    /// VP 0.
    PlasmaZero,
    /// VP not below VB.
    PlasmaHigh,
    /// W below 2,000.
    BodyLow,
    /// W over 50,000.
    BodyHigh,
    /// The kidney-to-cortical weight of this place (0 to 4) over 50,000.
    Organ(usize),
    /// a1 0.
    RedCellRateZero,
    /// a1 to a6 and au together over 64 D.
    Outflow,
    /// b of this tissue (0 to 5), with its c, over D.
    Back(usize),
    /// c2 over D/2.
    Faeces,
    /// c4 over D/2.
    Skin,
}

/// Every row fault.
pub fn row_faults() -> Vec<RowFault> {
    use RowFault::*;
    let mut faults = vec![BloodLow, BloodHigh, PlasmaZero, PlasmaHigh, BodyLow, BodyHigh];
    faults.extend((0..5).map(Organ));
    faults.extend([RedCellRateZero, Outflow]);
    faults.extend((0..6).map(Back));
    faults.extend([Faeces, Skin]);
    faults
}

/// Puts one limit of a good row just out of bounds.
pub fn break_row(row: &mut RowFields, fault: RowFault) {
    match fault {
        RowFault::BloodLow => (row[column::VB], row[column::VP]) = (999, 1),
        RowFault::BloodHigh => row[column::VB] = 60_001,
        RowFault::PlasmaZero => row[column::VP] = 0,
        RowFault::PlasmaHigh => row[column::VP] = row[column::VB],
        RowFault::BodyLow => row[column::BODY] = 1_999,
        RowFault::BodyHigh => row[column::BODY] = 50_001,
        RowFault::Organ(place) => row[column::KIDNEY + place] = 50_001,
        RowFault::RedCellRateZero => row[column::OUT] = 0,
        RowFault::Outflow => {
            row[column::OUT..column::BACK].fill(0);
            row[column::OUT] = u32::MAX;
            row[column::URINE] = (OUTFLOW_MOST + 1 - u64::from(u32::MAX)) as u32;
        }
        RowFault::Back(tissue) => {
            let exit = match tissue {
                1 => row[column::FAECES],
                3 => row[column::SKIN],
                _ => 0,
            };
            row[column::BACK + tissue] = D + 1 - exit;
        }
        RowFault::Faeces => (row[column::FAECES], row[column::BACK + 1]) = (D / 2 + 1, 0),
        RowFault::Skin => (row[column::SKIN], row[column::BACK + 3]) = (D / 2 + 1, 0),
    }
}

/// An intake that refusal 9 stops.
#[derive(Clone, Copy, Debug, PartialEq, Eq)]
pub enum Intake {
    /// Air, breathed.
    Air,
    /// Water of one concentration.
    ConstantWater,
    /// Water of three sources.
    MixedWater,
    /// Soil.
    Soil,
    /// Dust as given.
    GivenDust,
    /// Dust from soil and air.
    MixedDust,
}

/// Every intake.
pub const INTAKES: [Intake; 6] = [
    Intake::Air,
    Intake::ConstantWater,
    Intake::MixedWater,
    Intake::Soil,
    Intake::GivenDust,
    Intake::MixedDust,
];

/// Raises one intake of an age to 10^9 + 1 if the fields allow it, and nothing else over.
pub fn break_intake(fields: &mut [u32; SITE_FIELDS], intake: Intake, age: usize) {
    let [few, many] = PAST_INTAKE;
    match intake {
        Intake::Air => {
            fields[place::HOURS_OUT + age] = 24;
            fields[place::BREATHING + age] = 1_000 * few.0;
            fields[place::AIR + age] = few.1;
            fields[place::AIR_TO_DUST] = 0;
        }
        Intake::ConstantWater => {
            fields[place::WATER_MODE] = 0;
            fields[place::WATER_AMOUNT + age] = many.0;
            fields[place::CONSTANT_WATER] = many.1;
        }
        Intake::MixedWater => {
            fields[place::WATER_MODE] = 1;
            fields[place::WATER_AMOUNT + age] = many.0;
            fields[place::FLUSHED..=place::FOUNTAIN].fill(many.1);
        }
        Intake::Soil => {
            fields[place::WEIGHT_SOIL] = 100;
            fields[place::EATEN + age] = few.0;
            fields[place::SOIL + age] = few.1;
        }
        Intake::GivenDust => {
            fields[place::WEIGHT_SOIL] = 0;
            fields[place::DUST_MODE] = 0;
            fields[place::EATEN + age] = few.0;
            fields[place::DUST + age] = few.1;
        }
        Intake::MixedDust => {
            fields[place::WEIGHT_SOIL] = 0;
            fields[place::DUST_MODE] = 1;
            fields[place::CONTRIBUTION] = 100;
            fields[place::AIR_TO_DUST] = 0;
            fields[place::EATEN + age] = few.0;
            fields[place::SOIL + age] = few.1;
        }
    }
}

/// One thing wrong with the files of a card.
#[derive(Clone, Copy, Debug, PartialEq, Eq)]
pub enum Fault {
    /// A site file of this length.
    SiteLength(usize),
    /// A book of this length.
    BookLength(usize),
    /// A bit of the site's check, or of its body, turned.
    SiteCheck,
    /// An edition of the site block that is neither 1 nor 2.
    SiteEdition,
    /// A site file of edition 2 with something in its places that says it is of edition 1.
    SiteRelabelled,
    /// Another number of the site block.
    SiteNumber,
    /// A reserved byte of the site block.
    SiteReserved,
    /// A site field one over its limit.
    SiteField(usize),
    /// The two shares together 101.
    Shares,
    /// Saturation one below its least.
    SaturationLow,
    /// The share of a place 101.
    PlaceShare(usize),
    /// The dust of a place one over its limit.
    PlaceDust(usize),
    /// The shares of the five places together 101, none of them over 100.
    PlaceShares,
    /// The check of a book block.
    BlockCheck(usize),
    /// The edition of a book block.
    BlockEdition(usize),
    /// The number of a book block.
    BlockNumber(usize),
    /// A reserved byte of a book block.
    BlockReserved(usize),
    /// A row of the book.
    Row(usize, RowFault),
    /// An intake of an age over 10^9.
    Intake(Intake, usize),
    /// The dust of an age over 10^9 by that of a place, which has the whole share.
    PlaceIntake(usize, usize),
    /// Something of the foods block.
    Foods(FoodsFault),
}

impl Fault {
    /// The number that a run with this fault alone is refused with.
    pub fn number(self) -> u32 {
        match self {
            Fault::SiteLength(_) | Fault::BookLength(_) => 1,
            Fault::SiteCheck | Fault::BlockCheck(_) => 3,
            Fault::SiteEdition | Fault::BlockEdition(_) => 4,
            Fault::SiteNumber | Fault::BlockNumber(_) => 5,
            Fault::SiteReserved | Fault::SiteRelabelled | Fault::BlockReserved(_) => 6,
            Fault::SiteField(_) | Fault::Shares | Fault::SaturationLow => 7,
            Fault::PlaceShare(_) | Fault::PlaceDust(_) => 7,
            Fault::PlaceShares => 13,
            Fault::Row(..) => 8,
            Fault::Intake(..) | Fault::PlaceIntake(..) => 9,
            Fault::Foods(fault) => fault.number(),
        }
    }

    /// Where the fault stands in the order of refusals: by its turn, then by its number.
    pub fn order(self) -> (Turn, u32) {
        let turn = match self {
            Fault::SiteLength(_) | Fault::BookLength(_) => Turn::Lengths,
            Fault::BlockCheck(n)
            | Fault::BlockEdition(n)
            | Fault::BlockNumber(n)
            | Fault::BlockReserved(n) => Turn::BookBlock(n),
            Fault::Row(month, _) => Turn::BookBlock(month / BLOCK_ROWS),
            Fault::Intake(_, age) | Fault::PlaceIntake(_, age) | Fault::Foods(FoodsFault::Diet(_, age)) => {
                Turn::Age(age)
            }
            Fault::Foods(_) => Turn::Foods,
            _ => Turn::Site,
        };
        (turn, self.number())
    }

    /// How many blocks of the book are decoded to read files with this fault alone: none before its blocks, those up to
    /// the refused one and with it, or all.
    pub fn decodes(self) -> u32 {
        match self.order().0 {
            Turn::Lengths | Turn::Site | Turn::Foods => 0,
            Turn::BookBlock(block) => block as u32 + 1,
            Turn::State | Turn::Age(_) => BOOK_BLOCKS as u32,
        }
    }
}

/// What a call looks at, in its order.
#[derive(Clone, Copy, Debug, PartialEq, Eq, PartialOrd, Ord)]
pub enum Turn {
    /// The lengths of site and book, and of the run's list.
    Lengths,
    /// The site file.
    Site,
    /// The foods block, its length too.
    Foods,
    /// A block of the book.
    BookBlock(usize),
    /// The state handed in, or the newborn.
    State,
    /// The months of an age.
    Age(usize),
}

/// Every fault of the two files' lengths, of blocks' checks, editions, numbers and reserved bytes, and of site fields and
/// places.
pub fn file_faults() -> Vec<Fault> {
    let mut faults = vec![
        Fault::SiteCheck,
        Fault::SiteEdition,
        Fault::SiteRelabelled,
        Fault::SiteNumber,
        Fault::SiteReserved,
        Fault::Shares,
        Fault::SaturationLow,
        Fault::PlaceShares,
    ];
    faults.extend((0..PLACES).map(Fault::PlaceShare));
    faults.extend((0..PLACES).map(Fault::PlaceDust));
    faults.extend([0, 1, 4, 508, 511, 513, 1024].map(Fault::SiteLength));
    faults.extend([0, 1, 512, 8_192, 8_703, 8_705, 9_216].map(Fault::BookLength));
    faults.extend((0..SITE_FIELDS).map(Fault::SiteField));
    for block in 0..BOOK_BLOCKS {
        faults.extend([
            Fault::BlockCheck(block),
            Fault::BlockEdition(block),
            Fault::BlockNumber(block),
            Fault::BlockReserved(block),
        ]);
    }
    faults
}

/// A fault of any kind, in one of three of the foods block.
pub fn fault_with_foods(generator: &mut Generator) -> Fault {
    if generator.once_in(3) {
        Fault::Foods(foods_fault(generator))
    } else {
        fault(generator)
    }
}

/// A fault of any kind in the two files.
pub fn fault(generator: &mut Generator) -> Fault {
    let block = generator.index(BOOK_BLOCKS);
    match generator.index(20) {
        0 => Fault::SiteLength(length_off(generator, BLOCK_BYTES)),
        1 => Fault::BookLength(length_off(generator, BOOK_BLOCKS * BLOCK_BYTES)),
        2 => Fault::SiteCheck,
        3 => Fault::SiteEdition,
        4 => Fault::SiteNumber,
        5 => Fault::SiteReserved,
        6 => Fault::SiteField(generator.index(SITE_FIELDS)),
        7 => Fault::Shares,
        8 => Fault::SaturationLow,
        9 => Fault::BlockCheck(block),
        10 => Fault::BlockEdition(block),
        11 => Fault::BlockNumber(block),
        12 => Fault::BlockReserved(block),
        13 => {
            let faults = row_faults();
            Fault::Row(generator.index(BOOK_ROWS), faults[generator.index(faults.len())])
        }
        14 => Fault::Intake(INTAKES[generator.index(INTAKES.len())], generator.index(AGES)),
        15 => Fault::SiteRelabelled,
        16 => Fault::PlaceShare(generator.index(PLACES)),
        17 => Fault::PlaceDust(generator.index(PLACES)),
        18 => Fault::PlaceShares,
        _ => Fault::PlaceIntake(generator.index(PLACES), generator.index(AGES)),
    }
}

/// A length that is not the one due.
pub(super) fn length_off(generator: &mut Generator, due: usize) -> usize {
    match generator.index(6) {
        0 => 0,
        1 => due - 1,
        2 => due + 1,
        3 => due + BLOCK_BYTES,
        4 => due - BLOCK_BYTES,
        _ => generator.index(due),
    }
}

/// The two files of a card without a foods block, with faults in them.
pub fn damaged(
    generator: &mut Generator,
    yard: impl Into<Yard>,
    rows: &[RowFields],
    faults: &[Fault],
) -> (Vec<u8>, Vec<u8>) {
    let (site, _, book) = damaged_with_foods(generator, yard, &Foods::default(), rows, faults);
    (site, book)
}

/// A site file, a foods block and a book with faults in them. Faults in fields go in first,
/// then those in the blocks' frames, each sealed; then broken checks, then lengths, so that a
/// later fault of the order never hides behind an earlier one that was not asked for. A fault of
/// a place makes a site file of edition 2.
pub fn damaged_with_foods(
    generator: &mut Generator,
    yard: impl Into<Yard>,
    foods: &Foods,
    rows: &[RowFields],
    faults: &[Fault],
) -> (Vec<u8>, Vec<u8>, Vec<u8>) {
    let (mut yard, mut foods) = (yard.into(), *foods);
    let mut rows = rows.to_vec();
    for fault in in_field_order(faults) {
        break_fields(&mut yard, &mut foods, &mut rows, fault);
    }
    let mut files = [yard.file(), cards::foods_file(&foods), cards::book_file(&rows)];
    let edition = if yard.places.is_some() { EDITION_2 } else { EDITION_1 };
    if faults.contains(&Fault::SiteRelabelled) {
        put_edition(&mut files[0], EDITION_1.number);
    }
    for fault in faults {
        break_frame(generator, &mut files, edition.reserved_at, *fault);
    }
    for fault in faults {
        break_check(generator, &mut files, *fault);
    }
    for fault in faults {
        break_length(&mut files, *fault);
    }
    let [site, foods, book] = files;
    (site, foods, book)
}

/// Faults in the order in which they go into fields: intakes change several, a field's own fault must stay;
/// of two diets that take from the same foods, the earlier age's must.
fn in_field_order(faults: &[Fault]) -> Vec<Fault> {
    let mut faults = faults.to_vec();
    faults.sort_by_key(|fault| match fault {
        Fault::Intake(..) | Fault::PlaceIntake(..) => (0, 0),
        Fault::Foods(FoodsFault::Diet(_, age)) => (1, AGES - age),
        Fault::SiteField(_) | Fault::PlaceShare(_) | Fault::PlaceDust(_) => (3, 0),
        Fault::SiteRelabelled => (4, 0),
        _ => (2, 0),
    });
    faults
}

/// Faults in what the fields say.
fn break_fields(yard: &mut Yard, foods: &mut Foods, rows: &mut [RowFields], fault: Fault) {
    let fields = &mut yard.fields;
    match fault {
        Fault::SiteField(index) => fields[index] = site::most(index) + 1,
        Fault::Shares => (fields[place::FIRST_DRAW_SHARE], fields[place::FOUNTAIN_SHARE]) = (50, 51),
        Fault::SaturationLow => fields[place::SATURATION] = site::SATURATION_LEAST - 1,
        Fault::Row(month, fault) => break_row(&mut rows[month], fault),
        Fault::Intake(intake, age) => break_intake(fields, intake, age),
        Fault::PlaceShare(at) => yard.places_due()[at].share = PLACE_SHARES_MOST + 1,
        Fault::PlaceDust(at) => yard.places_due()[at].dust = PLACE_DUST_MOST + 1,
        Fault::PlaceShares => {
            yard.places_due().iter_mut().for_each(|place| place.share = 20);
            yard.places_due()[PLACES - 1].share = 21;
        }
        Fault::PlaceIntake(at, age) => {
            (fields[place::WEIGHT_SOIL], fields[place::EATEN + age]) = (0, PAST_PLACE.0);
            yard.places_due().iter_mut().for_each(|place| place.share = 0);
            yard.places_due()[at] = Place { share: PLACE_SHARES_MOST, dust: PAST_PLACE.1 };
        }
        Fault::SiteRelabelled => {
            let places = yard.places_due();
            places[0].dust = places[0].dust.max(1);
        }
        Fault::Foods(fault) => fault.break_figures(foods),
        _ => {}
    }
}

/// The files of a card: site, foods, book.
type Files = [Vec<u8>; 3];

/// Puts another edition into a block and seals it.
fn put_edition(block: &mut [u8], edition: u16) {
    block[EDITION_AT..EDITION_AT + 2].copy_from_slice(&edition.to_le_bytes());
    cards::seal(block);
}

/// Changes a site file's edition to one that there is not, and seals it.
fn break_site_edition(generator: &mut Generator, site: &mut [u8]) {
    break_word(generator, site, EDITION_AT);
    let edition = word16(site, EDITION_AT);
    if edition == EDITION_1.number || edition == EDITION_2.number {
        put_edition(site, edition | 1 << 15);
    }
}

/// Faults in edition, number and reserved bytes, the block sealed after each.
fn break_frame(
    generator: &mut Generator,
    [site, foods, book]: &mut Files,
    site_reserved_at: usize,
    fault: Fault,
) {
    match fault {
        Fault::SiteEdition => break_site_edition(generator, site),
        Fault::SiteNumber => break_word(generator, site, NUMBER_AT),
        Fault::SiteReserved => break_reserved(generator, site, site_reserved_at),
        Fault::BlockEdition(n) => break_word(generator, block_mut(book, n), EDITION_AT),
        Fault::BlockNumber(n) => break_word(generator, block_mut(book, n), NUMBER_AT),
        Fault::BlockReserved(n) => break_reserved(generator, block_mut(book, n), book::RESERVED_AT),
        Fault::Foods(fault) => fault.break_frame(generator, foods),
        _ => {}
    }
}

fn block_mut(book: &mut [u8], number: usize) -> &mut [u8] {
    &mut book[BLOCK_BYTES * number..BLOCK_BYTES * (number + 1)]
}

/// Changes a 16-bit word and seals the block.
pub(super) fn break_word(generator: &mut Generator, block: &mut [u8], at: usize) {
    let bit = generator.index(16);
    block[at + bit / 8] ^= 1 << (bit % 8);
    cards::seal(block);
}

/// Puts something into a reserved byte, often the first or the last, and seals the block.
pub(super) fn break_reserved(generator: &mut Generator, block: &mut [u8], from: usize) {
    let last = BODY_BYTES - 1;
    let at = match generator.index(3) {
        0 => from,
        1 => last,
        _ => generator.between(from as u64, last as u64) as usize,
    };
    block[at] = generator.between(1, 255) as u8;
    cards::seal(block);
}

/// Turns one bit of a block without sealing it: any change of one bit changes the check.
pub(super) fn break_bit(generator: &mut Generator, block: &mut [u8]) {
    let bit = generator.index(8 * BLOCK_BYTES);
    block[bit / 8] ^= 1 << (bit % 8);
}

fn break_check(generator: &mut Generator, [site, foods, book]: &mut Files, fault: Fault) {
    match fault {
        Fault::SiteCheck => break_bit(generator, site),
        Fault::BlockCheck(n) => break_bit(generator, block_mut(book, n)),
        Fault::Foods(fault) => fault.break_check(generator, foods),
        _ => {}
    }
}

fn break_length([site, foods, book]: &mut Files, fault: Fault) {
    match fault {
        Fault::SiteLength(length) => site.resize(length, 0),
        Fault::BookLength(length) => book.resize(length, 0),
        Fault::Foods(fault) => fault.break_length(foods),
        _ => {}
    }
}
