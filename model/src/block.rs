//! The 512-byte block: number, edition, fields, reserved zeros and check.

use crate::refusal::Refusal;

/// Bytes in a block.
pub const BLOCK_BYTES: usize = 512;
/// Bytes before the check: what the writer takes as its body.
pub const BODY_BYTES: usize = 508;
/// Where the block number stands (16 bits).
pub const NUMBER_AT: usize = 0;
/// Where the edition stands (16 bits).
pub const EDITION_AT: usize = 2;
/// Where the fields begin.
pub const FIELDS_AT: usize = 4;
/// Bytes in a field.
pub const FIELD_BYTES: usize = 4;
/// The edition of foods blocks and of a book's blocks, and the first of site files.
pub const EDITION: u16 = 1;

/// An edition that a reader takes.
#[derive(Clone, Copy, Debug, PartialEq, Eq)]
pub struct Edition {
    /// Its number.
    pub number: u16,
    /// Where the block's reserved bytes begin.
    pub reserved_at: usize,
}

/// The little-endian 16-bit word at a byte position.
pub fn word16(bytes: &[u8], at: usize) -> u16 {
    u16::from_le_bytes([bytes[at], bytes[at + 1]])
}

/// The little-endian 32-bit word at a byte position.
pub fn word32(bytes: &[u8], at: usize) -> u32 {
    u32::from_le_bytes([bytes[at], bytes[at + 1], bytes[at + 2], bytes[at + 3]])
}

/// The check over a body: each 16-bit word times its position from 1, summed.
/// At most 65,535 × 32,385, so it fits 32 bits.
pub fn check_of(body: &[u8]) -> u32 {
    let mut sum: u64 = 0;
    for position in 1..=BODY_BYTES / 2 {
        let word = u64::from(word16(body, 2 * (position - 1)));
        sum += word * position as u64;
    }
    u32::try_from(sum).expect("254 words cannot pass 32 bits")
}

/// Field `index` of a block.
pub fn field(block: &[u8], index: usize) -> u32 {
    word32(block, FIELDS_AT + FIELD_BYTES * index)
}

/// Refusals 3 to 6 in their order, for a block of 512 bytes that may have any of these editions; answers which it has.
pub fn inspect(block: &[u8], number_due: u16, editions: &[Edition]) -> Result<Edition, Refusal> {
    if word32(block, BODY_BYTES) != check_of(block) {
        return Err(Refusal::Check);
    }
    let has = word16(block, EDITION_AT);
    let edition = *editions.iter().find(|edition| edition.number == has).ok_or(Refusal::Edition)?;
    if word16(block, NUMBER_AT) != number_due {
        return Err(Refusal::Number);
    }
    if block[edition.reserved_at..BODY_BYTES].iter().any(|&byte| byte != 0) {
        return Err(Refusal::Reserved);
    }
    Ok(edition)
}

/// The block writer: checks lengths alone, and fills the target only on success.
pub fn write_block(body: &[u8], target: &mut [u8]) -> Result<(), Refusal> {
    if body.len() != BODY_BYTES || target.len() != BLOCK_BYTES {
        return Err(Refusal::Length);
    }
    target[..BODY_BYTES].copy_from_slice(body);
    target[BODY_BYTES..].copy_from_slice(&check_of(body).to_le_bytes());
    Ok(())
}
