//! A reader of site files held to the leaflet: it takes each figure up to its ends, and refuses one step past them.

use crate::limits::{are_site_ends_by, free_fields};
use crate::places::SITE;
use jurengate_model::leaflet::leaflet;
use jurengate_model::site::{place, SITE_FIELDS};

/// Each of the 94 fields has the ends of its line, and the two rules are what the reader goes by.
pub fn hold_to_leaflet(takes: impl Fn(&[u32; SITE_FIELDS]) -> bool) {
    let leaflet = leaflet();
    for (name, place, count) in SITE {
        let line = leaflet.line(name);
        for field in place..place + count {
            assert!(are_site_ends_by(&takes, field, line.least, line.most), "{name}, field {field}");
        }
    }
    let saturation_most = leaflet.line("saturation").most;
    assert!(are_site_ends_by(&takes, place::SATURATION, leaflet.saturation_least, saturation_most));
    let takes_shares = |first_draw: u32, fountain: u32| {
        let mut fields = free_fields();
        (fields[place::FIRST_DRAW_SHARE], fields[place::FOUNTAIN_SHARE]) = (first_draw, fountain);
        takes(&fields)
    };
    for share in 0..=leaflet.shares_most {
        let rest = leaflet.shares_most - share;
        assert!(takes_shares(share, rest) && !takes_shares(share, rest + 1), "{share} and {rest}");
    }
}
