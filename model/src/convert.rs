//! The converter (request 7 of document 02): a site file of edition 1 to edition 2, and back.

use crate::block::{Edition, BLOCK_BYTES};
use crate::cards::{site_file, site_file_2};
use crate::refusal::Refusal;
use crate::site::{read_of_editions, Places, SiteFile, EDITION_1, EDITION_2};

/// One way of the converter: a site file and the target that it fills.
pub type Converter = fn(&[u8], &mut [u8]) -> Result<(), Refusal>;

/// Refusal 1 of site or target, then the site's own 3 to 7 and 13; an edition that is not the one due is 4.
fn read(site: &[u8], target: &[u8], due: Edition) -> Result<SiteFile, Refusal> {
    if site.len() != BLOCK_BYTES || target.len() != BLOCK_BYTES {
        return Err(Refusal::Length);
    }
    read_of_editions(site, &[due])
}

/// Converts edition 1 to edition 2, with shares and figures of 0. The target is filled only on success.
pub fn to_edition_2(site: &[u8], target: &mut [u8]) -> Result<(), Refusal> {
    let file = read(site, target, EDITION_1)?;
    target.copy_from_slice(&site_file_2(&file.fields, &Places::default()));
    Ok(())
}

/// Converts edition 2 to edition 1 if no share is above 0, the last refusal (14); figures are dropped. The target is
/// filled only on success.
pub fn to_edition_1(site: &[u8], target: &mut [u8]) -> Result<(), Refusal> {
    let file = read(site, target, EDITION_2)?;
    if file.places.shares() > 0 {
        return Err(Refusal::ShareAbove0);
    }
    target.copy_from_slice(&site_file(&file.fields));
    Ok(())
}
