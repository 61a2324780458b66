//! The converters in quick Rust: the file read, and its fields laid out in the other edition with their check.

use super::{check_of, edition, read_site, share, Fields};
use crate::block::{BLOCK_BYTES, BODY_BYTES, EDITION_AT, FIELDS_AT, FIELD_BYTES};
use crate::refusal::Refusal;
use crate::site::{PLACES, SITE_FIELDS};

type Block = [u8; BLOCK_BYTES];

/// Refusals 1, 3 to 7 and 13 of a file that must have this edition.
fn read(site: &[u8], target: &[u8], due: usize) -> Result<Fields, Refusal> {
    let site: &Block = site.try_into().map_err(|_| Refusal::Length)?;
    if target.len() != BLOCK_BYTES {
        return Err(Refusal::Length);
    }
    match read_site(site) {
        // The check is looked at before the edition, all else after it.
        Err(refusal) if refusal != Refusal::Check && edition(site) != due => Err(Refusal::Edition),
        Ok(_) if edition(site) != due => Err(Refusal::Edition),
        read => read,
    }
}

/// The file's fields in another edition, without places, and their check.
fn put(fields: &Fields, target: &mut [u8], edition: u16) {
    let mut body = [0; BODY_BYTES];
    body[EDITION_AT..FIELDS_AT].copy_from_slice(&edition.to_le_bytes());
    for (bytes, field) in body[FIELDS_AT..].chunks_exact_mut(FIELD_BYTES).zip(&fields[..SITE_FIELDS]) {
        bytes.copy_from_slice(&field.to_le_bytes());
    }
    target[..BODY_BYTES].copy_from_slice(&body);
    target[BODY_BYTES..].copy_from_slice(&check_of(&body).to_le_bytes());
}

/// Edition 1 to edition 2.
pub fn to_edition_2(site: &[u8], target: &mut [u8]) -> Result<(), Refusal> {
    let fields = read(site, target, 1)?;
    put(&fields, target, 2);
    Ok(())
}

/// Edition 2 to edition 1.
pub fn to_edition_1(site: &[u8], target: &mut [u8]) -> Result<(), Refusal> {
    let fields = read(site, target, 2)?;
    if (0..PLACES).any(|at| share(&fields, at) > 0) {
        return Err(Refusal::ShareAbove0);
    }
    put(&fields, target, 1);
    Ok(())
}
