//! Plain text figures for a card: `key = v` or `key = v v v v v v v`, in the units
//! that people have on paper. Everything is read exactly, without fractions of the
//! machine; what a line leaves out keeps its published default. A key of a place makes
//! a site file of edition 2, a key of a food a foods block.

mod keys;
mod needs;
mod reading;
mod spelling;
mod unused;
mod ways;
mod writing;

pub use keys::{Key, Place, KEYS};
pub use reading::{outside_foods, outside_site, read, site_fields, text_of_bytes, Figures, Mistake};
pub use unused::{unused, Unused};
pub use writing::text_of;

use crate::cards::published;
use crate::foods::Foods;
use crate::site::{Places, SITE_FIELDS};

/// The 94 fields of a site.
type Fields = [u32; SITE_FIELDS];

/// What a card says, its book aside.
#[derive(Clone, Debug, PartialEq, Eq)]
pub struct Card {
    /// The fields of its site file.
    pub site: Fields,
    /// The places of its site file, if that is of edition 2.
    pub places: Option<Places>,
    /// Its foods block, if it has one.
    pub foods: Option<Foods>,
}

impl Card {
    /// The published default site, without places and without a foods block.
    pub fn published() -> Card {
        Card { site: published::fields(), places: None, foods: None }
    }

    /// Its places, which it now has: at first five without share and dust.
    fn places_due(&mut self) -> &mut Places {
        self.places.get_or_insert_with(Places::default)
    }

    /// Its foods block, which it now has: at first the published foods.
    fn foods_due(&mut self) -> &mut Foods {
        self.foods.get_or_insert_with(published::foods)
    }
}
