//! The parts of a day's uptake, worked out from the bare numbers of a card: every equation in one place, none of the model's own.

use jurengate_model::book::{column, RowFields};
use jurengate_model::site::{place, EATEN_MEDIA, SITE_FIELDS};

/// What a day of a month brings, pg; media in the order diet, water, dust, soil, alternate.
#[derive(Clone, Copy, Debug, PartialEq, Eq)]
#[allow(dead_code)] // not every file of tests looks at every part
pub struct Day {
    /// What could be absorbed of each medium.
    pub q: [u128; EATEN_MEDIA],
    /// The passive part of each.
    pub passive: [u128; EATEN_MEDIA],
    /// The active part of each.
    pub active: [u128; EATEN_MEDIA],
    /// By air.
    pub air: u128,
}

/// The day of a month; none if an intake is over 10^9.
pub fn day(fields: &[u32; SITE_FIELDS], rows: &[RowFields], month: usize) -> Option<Day> {
    let one = |at: usize| u128::from(fields[at]);
    let now = |group: usize| one(group + (month - 1) / 12);
    let weight = |row: usize| u128::from(rows[row][column::BODY]);

    let out = now(place::HOURS_OUT);
    let air =
        now(place::AIR) * (100 * out + (24 - out) * one(place::INDOOR)) * now(place::BREATHING) / 2_400_000;
    let (f, g) = (one(place::FIRST_DRAW_SHARE), one(place::FOUNTAIN_SHARE));
    let mixed = one(place::FLUSHED) * (100 - f - g) + one(place::FIRST_DRAW) * f + one(place::FOUNTAIN) * g;
    let water = match fields[place::WATER_MODE] {
        0 => now(place::WATER_AMOUNT) * one(place::CONSTANT_WATER),
        _ => now(place::WATER_AMOUNT) * mixed / 100,
    };
    let brought =
        10 * one(place::CONTRIBUTION) * now(place::SOIL) + one(place::AIR_TO_DUST) * now(place::AIR);
    let in_dust = if fields[place::DUST_MODE] == 0 { now(place::DUST) } else { brought / 1_000 };
    let soil = now(place::SOIL) * now(place::EATEN) * one(place::WEIGHT_SOIL) / 100;
    let dust = in_dust * now(place::EATEN) * (100 - one(place::WEIGHT_SOIL)) / 100;
    if [air, water, soil, dust].iter().any(|&intake| intake > 1_000_000_000) {
        return None;
    }

    let eaten = [now(place::DIET), water, dust, soil, now(place::ALTERNATE)];
    let sat = one(place::SATURATION) * weight(month) / weight(24);
    let (mut q, mut passive, mut active) = ([0; EATEN_MEDIA], [0; EATEN_MEDIA], [0; EATEN_MEDIA]);
    for j in 0..EATEN_MEDIA {
        q[j] = one(place::ABSORBED + j) * eaten[j] / 100;
    }
    let a = q[0] + q[1] + q[2] + q[3] + q[4];
    for j in 0..EATEN_MEDIA {
        passive[j] = one(place::PASSIVE + j) * q[j] / 100;
        active[j] = (q[j] - passive[j]) * sat / (sat + a);
    }
    Some(Day { q, passive, active, air: now(place::AIR_ABSORBED) * air / 100 })
}
