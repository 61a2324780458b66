//! Batch cards (request 2 of document 02): a survey's text cut into rows, a row's figures put over a site file, the
//! child run to its AGE, and `leadcard`'s printout.

use crate::block::BLOCK_BYTES;
use crate::book::{read_book_counted, Book, BOOK_BYTES};
use crate::engine::{newborn, walk_month};
use crate::foods::{read_foods, Foods};
use crate::printout::decimals;
use crate::refusal::{Refusal, ACCEPTED};
use crate::site::{self, place, read_site_file, Site, SiteFile, AGES, SITE_FIELDS};
use crate::state::MONTHS;

/// Lines before the first row.
pub const HEADING_LINES: usize = 3;
/// Fields of a row.
pub const CARD_FIELDS: usize = 12;
/// Longest field, bytes.
pub const FIELD_MOST: usize = 8;
/// What a skipped row prints.
pub const SKIPPED: &str = "---";

const LINE_FEED: u8 = b'\n';
const SPACE: u8 = b' ';
const GAP: &[u8] = b"*";
const POINT: u8 = b'.';
/// Most digits behind the point.
const DECIMALS: usize = 3;

/// Where each field stands in a row.
pub mod field {
    /// The child's name, any text.
    pub const ID: usize = 0;
    /// The family, a figure that changes nothing.
    pub const FAM: usize = 1;
    /// The neighbourhood, a figure that changes nothing.
    pub const BLOCK: usize = 2;
    /// Months.
    pub const AGE: usize = 3;
    /// Soil, µg/g.
    pub const SOIL: usize = 4;
    /// Dust, µg/g.
    pub const DUST: usize = 5;
    /// Water, µg/L.
    pub const WATER: usize = 6;
    /// Air, µg/m³.
    pub const AIR: usize = 7;
    /// Alternate source, µg/day.
    pub const OTHER: usize = 8;
    /// The blood lead that was measured, a figure that changes nothing.
    pub const PBB: usize = 9;
    /// Absorbed % of soil.
    pub const ABSSOIL: usize = 10;
    /// Absorbed % of dust.
    pub const ABSDUST: usize = 11;
}

/// What a field may be, beside an asterisk.
#[derive(Clone, Copy, Debug, PartialEq, Eq)]
pub enum Form {
    /// Any text.
    Text,
    /// Digits, then at most a point and one to three digits.
    Figure,
    /// Digits alone.
    Whole,
}

/// What each field may be.
pub const FORMS: [Form; CARD_FIELDS] = {
    let mut forms = [Form::Figure; CARD_FIELDS];
    forms[field::ID] = Form::Text;
    forms[field::AGE] = Form::Whole;
    forms[field::ABSSOIL] = Form::Whole;
    forms[field::ABSDUST] = Form::Whole;
    forms
};

/// Where a field's figure goes in a site file.
#[derive(Clone, Copy, Debug, PartialEq, Eq)]
pub struct Goes {
    /// The field of the row.
    pub from: usize,
    /// How many of the site's units are in one of the row's.
    pub factor: u128,
    /// The first site field.
    pub to: usize,
    /// How many site fields: one for each age, or one.
    pub count: usize,
}

/// The seven figures that go into the site file. The site's absorptions have dust before soil, the row soil before dust.
pub const GOES: [Goes; 7] = [
    Goes { from: field::SOIL, factor: 1_000, to: place::SOIL, count: AGES },
    Goes { from: field::DUST, factor: 1_000, to: place::DUST, count: AGES },
    Goes { from: field::WATER, factor: 1_000, to: place::CONSTANT_WATER, count: 1 },
    Goes { from: field::AIR, factor: 1_000_000, to: place::AIR, count: AGES },
    Goes { from: field::OTHER, factor: 1_000_000, to: place::ALTERNATE, count: AGES },
    Goes { from: field::ABSSOIL, factor: 1, to: place::ABSORBED + 3, count: 1 },
    Goes { from: field::ABSDUST, factor: 1, to: place::ABSORBED + 2, count: 1 },
];

/// The lines of a text: each ends at a line feed or at the end; nothing after the last line feed is no line.
pub fn lines(text: &[u8]) -> Vec<&[u8]> {
    let mut lines: Vec<&[u8]> = text.split(|&byte| byte == LINE_FEED).collect();
    if lines.last().is_some_and(|last| last.is_empty()) {
        lines.pop();
    }
    lines
}

/// The rows of a text: its lines behind the three of the heading.
pub fn rows(text: &[u8]) -> Vec<&[u8]> {
    lines(text).into_iter().skip(HEADING_LINES).collect()
}

/// The fields of a row: its longest stretches without a space. A tab or a carriage return is no space.
pub fn fields(row: &[u8]) -> Vec<&[u8]> {
    row.split(|&byte| byte == SPACE).filter(|field| !field.is_empty()).collect()
}

/// The number that digits stand for, if they are digits and one at least.
fn digits(text: &[u8]) -> Option<u128> {
    if text.is_empty() || !text.iter().all(u8::is_ascii_digit) {
        return None;
    }
    Some(text.iter().fold(0, |number, digit| 10 * number + u128::from(digit - b'0')))
}

/// A figure in thousandths, if it is one.
pub fn figure(text: &[u8]) -> Option<u128> {
    let Some(point) = text.iter().position(|&byte| byte == POINT) else {
        return Some(1_000 * digits(text)?);
    };
    let (whole, part) = (&text[..point], &text[point + 1..]);
    if part.len() > DECIMALS {
        return None;
    }
    let thousandths = digits(part)? * 10u128.pow((DECIMALS - part.len()) as u32);
    Some(1_000 * digits(whole)? + thousandths)
}

/// A row's fields in thousandths of the row's units; an asterisk is `None`, and so is ID, which is text.
pub type Read = [Option<u128>; CARD_FIELDS];

/// What one field says, or refusal 12.
fn read_field(text: &[u8], form: Form) -> Result<Option<u128>, Refusal> {
    if text.len() > FIELD_MOST {
        return Err(Refusal::CardRow);
    }
    if form == Form::Text || text == GAP {
        return Ok(None);
    }
    let thousandths =
        if form == Form::Whole { digits(text).map(|whole| 1_000 * whole) } else { figure(text) };
    thousandths.map(Some).ok_or(Refusal::CardRow)
}

/// The fields of a row, or refusal 12.
pub fn read_row(row: &[u8]) -> Result<Read, Refusal> {
    let fields: [&[u8]; CARD_FIELDS] = fields(row).try_into().map_err(|_| Refusal::CardRow)?;
    let mut read = [None; CARD_FIELDS];
    for (value, (text, form)) in read.iter_mut().zip(fields.into_iter().zip(FORMS)) {
        *value = read_field(text, form)?;
    }
    Ok(read)
}

/// The month that a row asks for, if AGE is there and is one of the 84.
fn month(row: &Read) -> Option<usize> {
    let age = row[field::AGE]? / 1_000;
    (1..=MONTHS as u128).contains(&age).then_some(age as usize)
}

/// What a row that is not refused with 12 asks for.
#[derive(Clone, Copy, Debug, PartialEq, Eq)]
pub struct Asked {
    /// The child's age in months, 1 to 84.
    pub month: usize,
    /// The site's fields with the row's figures over them.
    pub fields: [u32; SITE_FIELDS],
}

/// A row's figures over a site's fields: nothing if the row is skipped, or refusal 7 if a figure is over its limit. DUST
/// is the house's: a row has nothing for the places.
pub fn put_over(row: &Read, site_fields: &[u32; SITE_FIELDS]) -> Result<Option<Asked>, Refusal> {
    let (Some(month), Some(copied)) = (month(row), row[field::SOIL].or(row[field::DUST])) else {
        return Ok(None);
    };
    let mut row = *row;
    for missing in [field::SOIL, field::DUST] {
        row[missing] = row[missing].or(Some(copied));
    }
    let mut fields = *site_fields;
    (fields[place::DUST_MODE], fields[place::WATER_MODE]) = (0, 0);
    for goes in GOES {
        let Some(thousandths) = row[goes.from] else { continue };
        // Exact: a row with a factor of 1 has no decimals.
        let value = thousandths * goes.factor / 1_000;
        if value > site::most(goes.to).into() {
            return Err(Refusal::SiteLimits);
        }
        fields[goes.to..goes.to + goes.count].fill(value as u32);
    }
    Ok(Some(Asked { month, fields }))
}

/// What a row answers.
#[derive(Clone, Copy, Debug, PartialEq, Eq)]
pub enum RowAnswer {
    /// Blood at AGE, thousandths of µg/dL.
    Blood(u32),
    /// No age or no soil to go by.
    Skipped,
    /// The first refusal.
    Refused(Refusal),
}

impl RowAnswer {
    /// 0 or the refusal's number.
    pub fn number(self) -> u32 {
        match self {
            RowAnswer::Refused(refusal) => refusal.number(),
            RowAnswer::Blood(_) | RowAnswer::Skipped => ACCEPTED,
        }
    }

    /// The blood figure, 0 for a row without one.
    pub fn blood(self) -> u32 {
        match self {
            RowAnswer::Blood(blood) => blood,
            RowAnswer::Skipped | RowAnswer::Refused(_) => 0,
        }
    }

    /// The printed line without its newline.
    pub fn line(self) -> String {
        match self {
            RowAnswer::Blood(blood) => decimals(blood),
            RowAnswer::Skipped => SKIPPED.to_string(),
            RowAnswer::Refused(refusal) => format!("refused {}", refusal.number()),
        }
    }
}

/// What the call of one row answers.
#[derive(Clone, Copy, Debug, PartialEq, Eq)]
pub struct RowCall {
    /// 0 or the refusal number.
    pub number: u32,
    /// Blood at AGE in thousandths of µg/dL, 0 when skipped or refused.
    pub blood: u32,
    /// Whether the row was skipped.
    pub skipped: bool,
}

impl From<RowAnswer> for RowCall {
    fn from(answer: RowAnswer) -> RowCall {
        let skipped = answer == RowAnswer::Skipped;
        RowCall { number: answer.number(), blood: answer.blood(), skipped }
    }
}

/// The files beside a card, read.
#[derive(Clone, Debug)]
pub struct Files {
    site: SiteFile,
    foods: Option<Foods>,
    /// The rate book.
    pub book: Book,
}

impl Files {
    /// Refusals 1, 3 to 8, 10, 11 and 13, in the order of a birth call.
    pub fn read(site: &[u8], foods: Option<&[u8]>, book: &[u8]) -> Result<Files, Refusal> {
        Files::read_counted(site, foods, book, &mut 0)
    }

    /// The same; each block of the book that is decoded raises `decodes` by one.
    pub fn read_counted(
        site: &[u8],
        foods: Option<&[u8]>,
        book: &[u8],
        decodes: &mut u32,
    ) -> Result<Files, Refusal> {
        // A wrong length of the foods block is met where the block is read, after the site.
        if site.len() != BLOCK_BYTES || book.len() != BOOK_BYTES {
            return Err(Refusal::Length);
        }
        let site = read_site_file(site)?;
        let foods = foods.map(read_foods).transpose()?;
        Ok(Files { site, foods, book: read_book_counted(book, decodes)? })
    }

    /// What a row asks for over these files: nothing if it is skipped, or refusal 12 or 7.
    pub fn asked(&self, row: &[u8]) -> Result<Option<Asked>, Refusal> {
        put_over(&read_row(row)?, &self.site.fields)
    }

    /// The site that a row's child lives by, with the places of the site file, and the diet of the foods if they are there.
    pub fn site(&self, asked: &Asked) -> Site {
        let site = Site::of_file(&SiteFile { fields: asked.fields, ..self.site });
        self.foods.as_ref().map_or(site, |foods| site.with_foods(foods))
    }

    /// What a row answers over these files.
    pub fn answer(&self, row: &[u8]) -> RowAnswer {
        match self.asked(row) {
            Err(refusal) => RowAnswer::Refused(refusal),
            Ok(None) => RowAnswer::Skipped,
            Ok(Some(asked)) => self.course(&asked).map_or_else(RowAnswer::Refused, RowAnswer::Blood),
        }
    }

    /// Birth and the months up to AGE: the blood at its end, or the first refusal of 9 and 22.
    fn course(&self, asked: &Asked) -> Result<u32, Refusal> {
        let site = self.site(asked);
        let (mut state, mut blood) = (newborn(&site, &self.book)?, 0);
        for _ in 0..asked.month {
            (state, blood) = walk_month(&site, &self.book, &state, &mut |_| {})?;
        }
        Ok(blood)
    }
}

/// What each row answers over the bytes of the files: their own refusal comes before the row's.
pub fn answers<'a>(
    site: &[u8],
    foods: Option<&[u8]>,
    book: &[u8],
    rows: impl IntoIterator<Item = &'a [u8]>,
) -> Vec<RowAnswer> {
    let files = Files::read(site, foods, book);
    let answer = |row: &[u8]| {
        files.as_ref().map_or_else(|&refusal| RowAnswer::Refused(refusal), |files| files.answer(row))
    };
    rows.into_iter().map(answer).collect()
}

/// The call of one row.
pub fn card_row(site: &[u8], foods: Option<&[u8]>, book: &[u8], row: &[u8]) -> RowCall {
    answers(site, foods, book, [row])[0].into()
}

/// `leadcard`'s printout, a line for each row of the text; a missing file is handed in as no bytes.
pub fn card_printout(site: &[u8], book: &[u8], text: &[u8]) -> Vec<u8> {
    let lines = answers(site, None, book, rows(text)).into_iter().map(|answer| answer.line() + "\n");
    lines.collect::<String>().into_bytes()
}
