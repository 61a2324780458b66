//! A site of which nothing is absorbed, so that no burden refusal comes before 9.

use jurengate_model::cards::published;
use jurengate_model::site::{place, AGES, SITE_FIELDS};

/// The published site with every absorption 0.
pub fn fields() -> [u32; SITE_FIELDS] {
    let mut fields = published::fields();
    fields[place::ABSORBED..place::PASSIVE].fill(0);
    fields[place::AIR_ABSORBED..place::AIR_ABSORBED + AGES].fill(0);
    fields
}
