//! The rate book: 17 blocks of five month rows, months 0 to 84.

use crate::block::{self, Edition, BLOCK_BYTES, EDITION, FIELDS_AT, FIELD_BYTES};
use crate::refusal::Refusal;
use crate::state::TISSUES;

/// Blocks in a book.
pub const BOOK_BLOCKS: usize = 17;
/// Bytes in a book.
pub const BOOK_BYTES: usize = BOOK_BLOCKS * BLOCK_BYTES;
/// Rows in a block.
pub const BLOCK_ROWS: usize = 5;
/// Rows in a book, months 0 to 84.
pub const BOOK_ROWS: usize = BOOK_BLOCKS * BLOCK_ROWS;
/// Fields in a row.
pub const ROW_FIELDS: usize = 23;
/// Fields in a book block.
pub const BLOCK_FIELDS: usize = BLOCK_ROWS * ROW_FIELDS;
/// Where a book block's reserved bytes begin.
pub const RESERVED_AT: usize = FIELDS_AT + FIELD_BYTES * BLOCK_FIELDS;
/// Rates are in units of 1/D a step.
pub const D: u128 = 100_000_000;
/// Highest sum of the rates out of plasma.
pub const OUTFLOW_MOST: u128 = 64 * D;
/// Highest rate out of the body from a tissue.
pub const EXIT_MOST: u128 = D / 2;
/// Highest weight of any kind, g.
pub const WEIGHT_MOST: u128 = 50_000;

/// Where each figure stands in a row.
pub mod column {
    /// Blood volume, thousandths of dL.
    pub const VB: usize = 0;
    /// Plasma volume, thousandths of dL.
    pub const VP: usize = 1;
    /// Body weight, g.
    pub const BODY: usize = 2;
    /// Kidney weight, g.
    pub const KIDNEY: usize = 3;
    /// Liver weight, g.
    pub const LIVER: usize = 4;
    /// Other soft tissue, g.
    pub const OTHER: usize = 5;
    /// Trabecular bone, g.
    pub const TRABECULAR: usize = 6;
    /// Cortical bone, g.
    pub const CORTICAL: usize = 7;
    /// a1 to a6, out of plasma to red cells, liver, kidney, other, trabecular, cortical.
    pub const OUT: usize = 8;
    /// au, out of plasma to urine.
    pub const URINE: usize = 14;
    /// b1 to b6, back to plasma.
    pub const BACK: usize = 15;
    /// c2, liver to faeces.
    pub const FAECES: usize = 21;
    /// c4, other to skin, hair and nails.
    pub const SKIN: usize = 22;
}

/// A row as its bare fields.
pub type RowFields = [u32; ROW_FIELDS];
/// The rows of months 0 to 84 as their bare fields.
pub type Table = [RowFields; BOOK_ROWS];

/// A month's row.
#[derive(Clone, Copy, Debug)]
pub struct Row {
    /// VB, thousandths of dL.
    pub blood_volume: u128,
    /// VP, thousandths of dL.
    pub plasma_volume: u128,
    /// W, g.
    pub body: u128,
    /// Kidney, g.
    pub kidney: u128,
    /// Liver, g.
    pub liver: u128,
    /// Other soft tissue, g.
    pub other: u128,
    /// Trabecular bone, g.
    pub trabecular: u128,
    /// Cortical bone, g.
    pub cortical: u128,
    /// a1 to a6, per step in 1/D.
    pub out: [u128; TISSUES],
    /// au, per step in 1/D.
    pub urine: u128,
    /// b1 to b6, per step in 1/D.
    pub back: [u128; TISSUES],
    /// c1 to c6, per step in 1/D; only c2 and c4 are ever not 0.
    pub exit: [u128; TISSUES],
}

/// Place of c2 (liver) among the six.
pub const FAECES_EXIT: usize = 1;
/// Place of c4 (other) among the six.
pub const SKIN_EXIT: usize = 3;

impl Row {
    /// Names the fields of a row.
    pub fn of_fields(fields: &RowFields) -> Row {
        let at = |index: usize| u128::from(fields[index]);
        let six = |from: usize| std::array::from_fn(|tissue| at(from + tissue));
        let mut exit = [0; TISSUES];
        exit[FAECES_EXIT] = at(column::FAECES);
        exit[SKIN_EXIT] = at(column::SKIN);
        Row {
            blood_volume: at(column::VB),
            plasma_volume: at(column::VP),
            body: at(column::BODY),
            kidney: at(column::KIDNEY),
            liver: at(column::LIVER),
            other: at(column::OTHER),
            trabecular: at(column::TRABECULAR),
            cortical: at(column::CORTICAL),
            out: six(column::OUT),
            urine: at(column::URINE),
            back: six(column::BACK),
            exit,
        }
    }

    /// The row limits of the paper.
    pub fn within_limits(&self) -> bool {
        self.volumes_fit() && self.weights_fit() && self.rates_fit()
    }

    fn volumes_fit(&self) -> bool {
        (1_000..=60_000).contains(&self.blood_volume)
            && self.plasma_volume >= 1
            && self.plasma_volume < self.blood_volume
    }

    fn weights_fit(&self) -> bool {
        let organs = [self.kidney, self.liver, self.other, self.trabecular, self.cortical];
        (2_000..=WEIGHT_MOST).contains(&self.body) && organs.iter().all(|&weight| weight <= WEIGHT_MOST)
    }

    fn rates_fit(&self) -> bool {
        let outflow = self.out.iter().sum::<u128>() + self.urine;
        let tissues = (0..TISSUES).all(|i| self.back[i] + self.exit[i] <= D && self.exit[i] <= EXIT_MOST);
        self.out[0] >= 1 && outflow <= OUTFLOW_MOST && tissues
    }
}

/// The 85 rows of an accepted book.
#[derive(Clone, Debug)]
pub struct Book {
    /// Rows of months 0 to 84.
    pub rows: Vec<Row>,
}

/// The bare fields of row `row` in a block.
pub fn row_fields(block: &[u8], row: usize) -> RowFields {
    std::array::from_fn(|index| block::field(block, ROW_FIELDS * row + index))
}

/// Refusals 3 to 6 and 8 of block `number`, then its five rows.
fn read_block(block: &[u8], number: usize) -> Result<Vec<Row>, Refusal> {
    block::inspect(block, number as u16, &[Edition { number: EDITION, reserved_at: RESERVED_AT }])?;
    let rows: Vec<Row> = (0..BLOCK_ROWS).map(|row| Row::of_fields(&row_fields(block, row))).collect();
    if rows.iter().all(Row::within_limits) {
        Ok(rows)
    } else {
        Err(Refusal::BookLimits)
    }
}

/// The book reader: refusal 1, then each block in turn.
pub fn read_book(book: &[u8]) -> Result<Book, Refusal> {
    read_book_counted(book, &mut 0)
}

/// The book reader; each block that is decoded, the refused one too, raises `decodes` by one.
pub fn read_book_counted(book: &[u8], decodes: &mut u32) -> Result<Book, Refusal> {
    if book.len() != BOOK_BYTES {
        return Err(Refusal::Length);
    }
    let mut rows = Vec::with_capacity(BOOK_ROWS);
    for (number, block) in book.chunks_exact(BLOCK_BYTES).enumerate() {
        *decodes += 1;
        rows.extend(read_block(block, number)?);
    }
    Ok(Book { rows })
}

/// The bare fields of an accepted book.
pub fn read_table(book: &[u8]) -> Result<Table, Refusal> {
    read_book(book)?;
    Ok(std::array::from_fn(|month| {
        row_fields(&book[BLOCK_BYTES * (month / BLOCK_ROWS)..][..BLOCK_BYTES], month % BLOCK_ROWS)
    }))
}
