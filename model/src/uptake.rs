//! Intake (E-) and uptake (U-) of a day, in pg.

use crate::book::Book;
use crate::refusal::Refusal;
use crate::site::{AgeFigures, Away, DustSource, Site, WaterSource, EATEN_MEDIA, PLACES};

/// Highest intake of air, water, soil, dust or diet, pg/day.
pub const INTAKE_MOST: u128 = 1_000_000_000;
/// The row whose body weight the saturation is quoted for.
pub const SATURATION_MONTH: usize = 24;

/// The age whose figures month 1 to 84 uses.
pub fn age_of(month: usize) -> usize {
    (month - 1) / 12
}

/// Air intake (E-1 to E-3).
pub fn air_intake(figures: &AgeFigures, indoor: u128) -> u128 {
    let hours = 100 * figures.hours_out + (24 - figures.hours_out) * indoor;
    figures.air * hours * figures.litres / 2_400_000
}

/// Water intake (E-6, E-7).
pub fn water_intake(amount: u128, source: &WaterSource) -> u128 {
    match *source {
        WaterSource::Constant(concentration) => amount * concentration,
        WaterSource::ThreeSources { flushed, first_draw, fountain, first_draw_share, fountain_share } => {
            let flushed_share = 100 - first_draw_share - fountain_share;
            let mixed = flushed * flushed_share + first_draw * first_draw_share + fountain * fountain_share;
            amount * mixed / 100
        }
    }
}

/// Soil intake (E-8).
pub fn soil_intake(soil: u128, eaten: u128, weight_soil: u128) -> u128 {
    soil * eaten * weight_soil / 100
}

/// The house's share of the dust, hundredths (E-9.5): what the five places leave of it.
pub fn house_share(away: &[Away; PLACES]) -> u128 {
    100 - away.iter().map(|place| place.share).sum::<u128>()
}

/// The part of a house or place in the dust intake (E-9, E-12): its share in hundredths of the dust eaten, of its own dust.
pub fn dust_part(dust: u128, eaten: u128, weight_soil: u128, share: u128) -> u128 {
    dust * eaten * (100 - weight_soil) * share / 10_000
}

/// The six parts of the dust intake: the house, then the five places.
pub fn dust_parts(dust: u128, eaten: u128, weight_soil: u128, away: &[Away; PLACES]) -> [u128; PLACES + 1] {
    let mut parts = [dust_part(dust, eaten, weight_soil, house_share(away)); PLACES + 1];
    for (part, place) in parts[1..].iter_mut().zip(away) {
        *part = dust_part(place.dust, eaten, weight_soil, place.share);
    }
    parts
}

/// Dust intake (E-9, E-12): the six parts together.
pub fn dust_intake(dust: u128, eaten: u128, weight_soil: u128, away: &[Away; PLACES]) -> u128 {
    dust_parts(dust, eaten, weight_soil, away).iter().sum()
}

/// The house's dust figure: given, or from soil and air (E-11).
pub fn dust_figure(figures: &AgeFigures, source: &DustSource) -> u128 {
    match *source {
        DustSource::Given => figures.dust,
        DustSource::MultipleSource { contribution, factor } => {
            (10 * contribution * figures.soil + factor * figures.air) / 1000
        }
    }
}

/// A day's intakes, pg.
#[derive(Clone, Copy, Debug, PartialEq, Eq)]
pub struct Intakes {
    /// Breathed.
    pub air: u128,
    /// Eaten, in the order diet, water, dust, soil, alternate.
    pub eaten: [u128; EATEN_MEDIA],
}

/// The day's intakes at an age, or refusal 9.
pub fn intakes(site: &Site, age: usize) -> Result<Intakes, Refusal> {
    let figures = &site.ages[age];
    let air = air_intake(figures, site.indoor);
    let water = water_intake(figures.water_amount, &site.water_source);
    let soil = soil_intake(figures.soil, figures.eaten, site.weight_soil);
    let house_dust = dust_figure(figures, &site.dust_source);
    let dust = dust_intake(house_dust, figures.eaten, site.weight_soil, &site.away);
    // Only a diet from foods can be over: a site's own is within its field's limit.
    if [air, water, soil, dust, figures.diet].iter().any(|&intake| intake > INTAKE_MOST) {
        return Err(Refusal::Intake);
    }
    Ok(Intakes { air, eaten: [figures.diet, water, dust, soil, figures.alternate] })
}

/// Saturation at a month (U-3).
pub fn saturation(site: &Site, book: &Book, month: usize) -> u128 {
    site.saturation * book.rows[month].body / book.rows[SATURATION_MONTH].body
}

/// The passive part of an eaten medium (U-1a to U-1f): the share of q that passes whatever the saturation.
pub fn passive_part(q: u128, share: u128) -> u128 {
    share * q / 100
}

/// The active part of an eaten medium (U-1g to U-1l): what saturation lets through of the rest of its q.
pub fn active_part(q: u128, passive_part: u128, saturation: u128, all_q: u128) -> u128 {
    (q - passive_part) * saturation / (saturation + all_q)
}

/// A day's uptake by its routes, pg. Media stand in the order diet, water, dust, soil, alternate.
#[derive(Clone, Copy, Debug, PartialEq, Eq)]
pub struct Routes {
    /// Passive part of each eaten medium.
    pub passive: [u128; EATEN_MEDIA],
    /// Active part of each eaten medium.
    pub active: [u128; EATEN_MEDIA],
    /// By air, which is no gut route (U-4).
    pub air: u128,
}

impl Routes {
    /// The routes of five q with their passive shares in %, a saturation and an uptake by air (U-1, U-2).
    pub fn of_q(
        q: &[u128; EATEN_MEDIA],
        shares: &[u128; EATEN_MEDIA],
        saturation: u128,
        air: u128,
    ) -> Routes {
        let all_q = q.iter().sum();
        let passive = std::array::from_fn(|medium| passive_part(q[medium], shares[medium]));
        let active = std::array::from_fn(|medium| active_part(q[medium], passive[medium], saturation, all_q));
        Routes { passive, active, air }
    }

    /// The passive parts of the five together.
    pub fn all_passive(&self) -> u128 {
        self.passive.iter().sum()
    }

    /// The active parts of the five together.
    pub fn all_active(&self) -> u128 {
        self.active.iter().sum()
    }

    /// T, the day's uptake (U-5): the sum of the eleven.
    pub fn uptake(&self) -> u128 {
        self.all_passive() + self.all_active() + self.air
    }
}

/// The routes of the day's uptake in month 1 to 84, or refusal 9.
pub fn day_routes(site: &Site, book: &Book, month: usize) -> Result<Routes, Refusal> {
    let age = age_of(month);
    let intakes = intakes(site, age)?;
    let q = std::array::from_fn(|medium| site.absorbed[medium] * intakes.eaten[medium] / 100);
    let air = site.ages[age].air_absorbed * intakes.air / 100;
    Ok(Routes::of_q(&q, &site.passive, saturation(site, book, month), air))
}

/// T, the day's uptake in month 1 to 84 (U-5), or refusal 9.
pub fn day_uptake(site: &Site, book: &Book, month: usize) -> Result<u128, Refusal> {
    day_routes(site, book, month).map(|routes| routes.uptake())
}
