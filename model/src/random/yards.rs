//! Random places away from home, and random site files of either edition.

use super::{site_fields, Generator, Range};
use crate::block::{BLOCK_BYTES, EDITION_AT};
use crate::cards::{self, published};
use crate::site::{
    place, Place, Places, AGES, PLACES, PLACE_DUST_MOST, PLACE_SHARES_MOST, RESERVED_2_AT, RESERVED_AT,
    SITE_FIELDS,
};
use crate::uptake::INTAKE_MOST;

/// What a site file is made of: of edition 2 if it has places, else of edition 1.
#[derive(Clone, Copy, Debug, PartialEq, Eq)]
pub struct Yard {
    /// The 94 fields.
    pub fields: [u32; SITE_FIELDS],
    /// The places of edition 2.
    pub places: Option<Places>,
}

impl From<&[u32; SITE_FIELDS]> for Yard {
    fn from(fields: &[u32; SITE_FIELDS]) -> Yard {
        Yard { fields: *fields, places: None }
    }
}

impl Yard {
    /// Its site file; limits are not checked here.
    pub fn file(&self) -> Vec<u8> {
        cards::site_file_with(&self.fields, self.places.as_ref())
    }

    /// Its places, which it now has: at first five without share and dust.
    pub(super) fn places_due(&mut self) -> &mut [Place; PLACES] {
        &mut self.places.get_or_insert_with(Places::default).0
    }
}

/// A random yard that 7 and 13 let pass, in one of two with places.
pub fn yard(generator: &mut Generator, range: Range) -> Yard {
    let fields = site_fields(generator, range);
    let places = generator.once_in(2).then(|| places(generator, range, &fields));
    Yard { fields, places }
}

/// Random places that 7 and 13 let pass beside these fields: often without a share, often with the whole of it.
pub fn places(generator: &mut Generator, range: Range, fields: &[u32; SITE_FIELDS]) -> Places {
    let shares = shares(generator);
    // In the wide range every part of the dust stays within its share of 10^9.
    let eaten = (0..AGES).map(|age| fields[place::EATEN + age]).max().unwrap_or(0);
    let wide_most = (INTAKE_MOST as u64 / u64::from(eaten.max(1))).min(PLACE_DUST_MOST.into());
    Places(shares.map(|share| {
        let dust = match range {
            Range::Near => generator.between(0, 2 * u64::from(published::DUST[0])),
            Range::Wide => generator.sized(wide_most),
            Range::Limits => generator.at_limits(PLACE_DUST_MOST.into()),
        };
        Place { share, dust: dust as u32 }
    }))
}

/// Five shares of at most 100 together: 0, 100, a neighbour of it or any sum, in parts of any size.
fn shares(generator: &mut Generator) -> [u32; PLACES] {
    let mut rest = match generator.index(4) {
        0 => 0,
        1 => u64::from(PLACE_SHARES_MOST),
        _ => generator.at_limits(PLACE_SHARES_MOST.into()),
    };
    let first = generator.index(PLACES);
    let mut shares = [0; PLACES];
    for turn in 0..PLACES - 1 {
        let share = if generator.once_in(3) { 0 } else { generator.between(0, rest) };
        shares[(first + turn) % PLACES] = share as u32;
        rest -= share;
    }
    shares[(first + PLACES - 1) % PLACES] = rest as u32;
    shares
}

/// Figures of places at which a rule changes.
const TURNS: [u32; 12] =
    [0, 1, 2, 50, 51, 99, 100, 101, PLACE_DUST_MOST - 1, PLACE_DUST_MOST, PLACE_DUST_MOST + 1, u32::MAX];

/// Changes a site file where the two editions differ, in the edition, a figure of the places or a byte of theirs, or
/// anywhere, and mostly makes the check anew; whatever comes of it.
pub fn scratched_site(generator: &mut Generator, mut site: Vec<u8>) -> Vec<u8> {
    for _ in 0..=generator.index(2) {
        match generator.index(8) {
            0 => site[EDITION_AT + generator.index(2)] = generator.index(4) as u8,
            1 => site[generator.index(BLOCK_BYTES)] = generator.any() as u8,
            2 => {
                let at = generator.between(RESERVED_AT as u64, RESERVED_2_AT as u64 + 1) as usize;
                site[at] = generator.index(3) as u8;
            }
            3 => {
                let dust = 2 * generator.index(PLACES) + 1;
                cards::put_field(&mut site, SITE_FIELDS + dust, TURNS[generator.index(TURNS.len())]);
            }
            _ => {
                let share = 2 * generator.index(PLACES);
                cards::put_field(&mut site, SITE_FIELDS + share, TURNS[generator.index(8)]);
            }
        }
    }
    if !generator.once_in(8) {
        cards::seal(&mut site);
    }
    site
}
