//! The site file: one block of 94 fields and, in edition 2 (request 7), five places away from home, decoded into a
//! scenario.

use crate::block::{self, Edition, BLOCK_BYTES, EDITION, FIELDS_AT, FIELD_BYTES};
use crate::foods::Foods;
use crate::refusal::Refusal;

/// Fields in a site file, its places aside.
pub const SITE_FIELDS: usize = 94;
/// Places away from home: work, school, daycare, second home, other.
pub const PLACES: usize = 5;
/// Figures of the places: a share and a dust figure each.
pub const PLACE_FIGURES: usize = 2 * PLACES;
/// Where the reserved bytes of edition 1 begin, and the places of edition 2.
pub const RESERVED_AT: usize = FIELDS_AT + FIELD_BYTES * SITE_FIELDS;
/// Where the reserved bytes of edition 2 begin.
pub const RESERVED_2_AT: usize = RESERVED_AT + FIELD_BYTES * PLACE_FIGURES;
/// The edition that has no places.
pub const EDITION_1: Edition = Edition { number: EDITION, reserved_at: RESERVED_AT };
/// The edition that has the places.
pub const EDITION_2: Edition = Edition { number: 2, reserved_at: RESERVED_2_AT };
/// Ages 0 to 6.
pub const AGES: usize = 7;
/// The site block's number.
pub const SITE_NUMBER: u16 = 0;
/// Eaten media: diet, water, dust, soil, alternate.
pub const EATEN_MEDIA: usize = 5;

/// Where each figure stands among the 94 fields; the first ten are groups of seven.
pub mod place {
    /// Air, pg/m³.
    pub const AIR: usize = 0;
    /// Hours out of doors a day.
    pub const HOURS_OUT: usize = 7;
    /// Breathing, litres a day.
    pub const BREATHING: usize = 14;
    /// Air absorption, %.
    pub const AIR_ABSORBED: usize = 21;
    /// Diet, pg/day.
    pub const DIET: usize = 28;
    /// Water drunk, mL/day.
    pub const WATER_AMOUNT: usize = 35;
    /// Soil, thousandths of µg/g.
    pub const SOIL: usize = 42;
    /// Dust, thousandths of µg/g.
    pub const DUST: usize = 49;
    /// Soil and dust eaten, mg/day.
    pub const EATEN: usize = 56;
    /// Alternate source, pg/day.
    pub const ALTERNATE: usize = 63;
    /// Indoor air as % of outdoor.
    pub const INDOOR: usize = 70;
    /// Share of soil in what is eaten, %.
    pub const WEIGHT_SOIL: usize = 71;
    /// Contribution of soil to dust, hundredths.
    pub const CONTRIBUTION: usize = 72;
    /// Air-to-dust factor.
    pub const AIR_TO_DUST: usize = 73;
    /// 0 dust given, 1 multiple source.
    pub const DUST_MODE: usize = 74;
    /// 0 constant water, 1 three sources.
    pub const WATER_MODE: usize = 75;
    /// Constant water, pg/mL.
    pub const CONSTANT_WATER: usize = 76;
    /// Flushed water, pg/mL.
    pub const FLUSHED: usize = 77;
    /// First-draw water, pg/mL.
    pub const FIRST_DRAW: usize = 78;
    /// Fountain water, pg/mL.
    pub const FOUNTAIN: usize = 79;
    /// First-draw share, hundredths.
    pub const FIRST_DRAW_SHARE: usize = 80;
    /// Fountain share, hundredths.
    pub const FOUNTAIN_SHARE: usize = 81;
    /// Absorbed % of diet, water, dust, soil, alternate.
    pub const ABSORBED: usize = 82;
    /// Passive % in the same order.
    pub const PASSIVE: usize = 87;
    /// Saturation at 24 months, pg/day.
    pub const SATURATION: usize = 92;
    /// Mother's blood lead, thousandths of µg/dL.
    pub const MOTHER: usize = 93;
}

/// Where each place stands among the five.
pub mod away {
    /// A parent's work.
    pub const WORK: usize = 0;
    /// School.
    pub const SCHOOL: usize = 1;
    /// Daycare.
    pub const DAYCARE: usize = 2;
    /// A second home.
    pub const SECOND_HOME: usize = 3;
    /// Anywhere else.
    pub const OTHER: usize = 4;
}

/// The highest share of a place, and of the five together, hundredths.
pub const PLACE_SHARES_MOST: u32 = 100;
/// The highest dust figure of a place, thousandths of µg/g.
pub const PLACE_DUST_MOST: u32 = 50_000_000;

/// Lowest saturation, pg/day.
pub const SATURATION_LEAST: u32 = 1_000_000;
/// The two water shares together, hundredths.
pub const SHARES_MOST: u32 = 100;

/// The highest value that a field may hold.
pub fn most(index: usize) -> u32 {
    match index {
        0..=6 => 100_000_000,
        7..=13 => 24,
        14..=20 => 100_000,
        21..=27 => 100,
        28..=34 => 1_000_000_000,
        35..=41 => 10_000,
        42..=55 => 50_000_000,
        56..=62 => 1_000,
        63..=69 => 1_000_000_000,
        place::INDOOR | place::WEIGHT_SOIL | place::CONTRIBUTION => 100,
        place::AIR_TO_DUST => 10_000,
        place::DUST_MODE | place::WATER_MODE => 1,
        place::CONSTANT_WATER..=place::FOUNTAIN => 10_000_000,
        place::FIRST_DRAW_SHARE | place::FOUNTAIN_SHARE => SHARES_MOST,
        82..=91 => 100,
        place::SATURATION => 500_000_000,
        place::MOTHER => 100_000,
        _ => panic!("a site file has no field {index}"),
    }
}

/// The lowest value that a field may hold.
pub fn least(index: usize) -> u32 {
    if index == place::SATURATION {
        SATURATION_LEAST
    } else {
        0
    }
}

/// Refusal 7: every field is checked, used by its mode or not.
pub fn within_limits(fields: &[u32; SITE_FIELDS]) -> bool {
    let each = (0..SITE_FIELDS).all(|index| (least(index)..=most(index)).contains(&fields[index]));
    let shares = u64::from(fields[place::FIRST_DRAW_SHARE]) + u64::from(fields[place::FOUNTAIN_SHARE]);
    each && shares <= u64::from(SHARES_MOST)
}

/// A place away from home.
#[derive(Clone, Copy, Debug, Default, PartialEq, Eq)]
pub struct Place {
    /// Its share of the dust that is eaten, hundredths.
    pub share: u32,
    /// Its dust, thousandths of µg/g.
    pub dust: u32,
}

/// The five places, in their order.
#[derive(Clone, Copy, Debug, Default, PartialEq, Eq)]
pub struct Places(pub [Place; PLACES]);

impl Places {
    /// The places of ten figures: share and dust of each.
    pub fn of_figures(figures: &[u32; PLACE_FIGURES]) -> Places {
        Places(std::array::from_fn(|at| Place { share: figures[2 * at], dust: figures[2 * at + 1] }))
    }

    /// Share and dust of each place, as a file and the engine's reader have them.
    pub fn figures(&self) -> [u32; PLACE_FIGURES] {
        std::array::from_fn(|at| {
            let place = self.0[at / 2];
            [place.share, place.dust][at % 2]
        })
    }

    /// The same shares, each place with the dust figure 0.
    pub fn without_dust(&self) -> Places {
        Places(self.0.map(|place| Place { dust: 0, ..place }))
    }

    /// Refusal 7: each share and each dust figure, that of a share of 0 too.
    pub fn within_limits(&self) -> bool {
        self.0.iter().all(|place| place.share <= PLACE_SHARES_MOST && place.dust <= PLACE_DUST_MOST)
    }

    /// The five shares together, hundredths.
    pub fn shares(&self) -> u64 {
        self.0.iter().map(|place| u64::from(place.share)).sum()
    }
}

/// What a site file holds.
#[derive(Clone, Copy, Debug, PartialEq, Eq)]
pub struct SiteFile {
    /// Its 94 fields.
    pub fields: [u32; SITE_FIELDS],
    /// Its places; those of edition 1 are all 0.
    pub places: Places,
}

/// Refusal 1, then 3 to 7 and 13 of a site file that may have any of these editions.
pub fn read_of_editions(site: &[u8], editions: &[Edition]) -> Result<SiteFile, Refusal> {
    if site.len() != BLOCK_BYTES {
        return Err(Refusal::Length);
    }
    let edition = block::inspect(site, SITE_NUMBER, editions)?;
    let fields = std::array::from_fn(|index| block::field(site, index));
    let mut places = Places::default();
    if edition == EDITION_2 {
        places = Places::of_figures(&std::array::from_fn(|at| block::field(site, SITE_FIELDS + at)));
    }
    if !within_limits(&fields) || !places.within_limits() {
        return Err(Refusal::SiteLimits);
    }
    if places.shares() > u64::from(PLACE_SHARES_MOST) {
        return Err(Refusal::PlaceShares);
    }
    Ok(SiteFile { fields, places })
}

/// The site reader: refusals 1, 3 to 7 and 13, then what a file of either edition holds.
pub fn read_site_file(site: &[u8]) -> Result<SiteFile, Refusal> {
    read_of_editions(site, &[EDITION_1, EDITION_2])
}

/// The 94 fields of a site file, or its refusal.
pub fn read_site(site: &[u8]) -> Result<[u32; SITE_FIELDS], Refusal> {
    read_site_file(site).map(|file| file.fields)
}

/// The places of a site file, or its refusal.
pub fn read_places(site: &[u8]) -> Result<Places, Refusal> {
    read_site_file(site).map(|file| file.places)
}

/// What an age of the child meets.
#[derive(Clone, Copy, Debug, Default)]
pub struct AgeFigures {
    /// Air, pg/m³.
    pub air: u128,
    /// Hours out of doors a day.
    pub hours_out: u128,
    /// Breathing, litres a day.
    pub litres: u128,
    /// Air absorption, %.
    pub air_absorbed: u128,
    /// Diet, pg/day: the site file's, or what the foods give.
    pub diet: u128,
    /// Water drunk, mL/day.
    pub water_amount: u128,
    /// Soil, pg/mg.
    pub soil: u128,
    /// Dust as given, pg/mg.
    pub dust: u128,
    /// Soil and dust eaten, mg/day.
    pub eaten: u128,
    /// Alternate source, pg/day.
    pub alternate: u128,
}

/// Where the dust figure comes from.
#[derive(Clone, Copy, Debug)]
pub enum DustSource {
    /// The site file's own dust figures.
    Given,
    /// Soil and air brought indoors (E-11).
    MultipleSource {
        /// Contribution of soil, hundredths.
        contribution: u128,
        /// Air-to-dust factor.
        factor: u128,
    },
}

/// Where the water comes from.
#[derive(Clone, Copy, Debug)]
pub enum WaterSource {
    /// One concentration, pg/mL.
    Constant(u128),
    /// Flushed, first-draw and fountain water (E-6b, E-7).
    ThreeSources {
        /// Flushed water, pg/mL.
        flushed: u128,
        /// First-draw water, pg/mL.
        first_draw: u128,
        /// Fountain water, pg/mL.
        fountain: u128,
        /// First-draw share, hundredths.
        first_draw_share: u128,
        /// Fountain share, hundredths.
        fountain_share: u128,
    },
}

/// What a place away from home gives of the dust.
#[derive(Clone, Copy, Debug, Default)]
pub struct Away {
    /// Its share of the dust that is eaten, hundredths.
    pub share: u128,
    /// Its dust, pg/mg.
    pub dust: u128,
}

/// A site file's meaning.
#[derive(Clone, Copy, Debug)]
pub struct Site {
    /// Figures by age.
    pub ages: [AgeFigures; AGES],
    /// Indoor air, % of outdoor.
    pub indoor: u128,
    /// Share of soil in what is eaten, %.
    pub weight_soil: u128,
    /// Dust source.
    pub dust_source: DustSource,
    /// Places away from home, which take their shares of the dust from the house.
    pub away: [Away; PLACES],
    /// Water source.
    pub water_source: WaterSource,
    /// Absorbed % of diet, water, dust, soil, alternate.
    pub absorbed: [u128; EATEN_MEDIA],
    /// Passive % in that order.
    pub passive: [u128; EATEN_MEDIA],
    /// Saturation at 24 months, pg/day.
    pub saturation: u128,
    /// Mother's blood lead, thousandths of µg/dL.
    pub mother: u128,
}

impl Site {
    /// Decodes a file that passed the reader.
    pub fn of_file(file: &SiteFile) -> Site {
        let away = file.places.0.map(|place| Away { share: place.share.into(), dust: place.dust.into() });
        Site { away, ..Site::of_fields(&file.fields) }
    }

    /// Decodes fields that passed the reader, without a place away from home.
    pub fn of_fields(fields: &[u32; SITE_FIELDS]) -> Site {
        let at = |index: usize| u128::from(fields[index]);
        let media = |from: usize| std::array::from_fn(|medium| at(from + medium));
        Site {
            ages: std::array::from_fn(|age| age_figures(fields, age)),
            indoor: at(place::INDOOR),
            weight_soil: at(place::WEIGHT_SOIL),
            dust_source: dust_source(fields),
            away: [Away::default(); PLACES],
            water_source: water_source(fields),
            absorbed: media(place::ABSORBED),
            passive: media(place::PASSIVE),
            saturation: at(place::SATURATION),
            mother: at(place::MOTHER),
        }
    }

    /// The site with the diet of a foods block at every age, whatever its own diet is.
    pub fn with_foods(mut self, foods: &Foods) -> Site {
        for (age, figures) in self.ages.iter_mut().enumerate() {
            figures.diet = foods.diet(age);
        }
        self
    }
}

fn age_figures(fields: &[u32; SITE_FIELDS], age: usize) -> AgeFigures {
    let at = |group: usize| u128::from(fields[group + age]);
    AgeFigures {
        air: at(place::AIR),
        hours_out: at(place::HOURS_OUT),
        litres: at(place::BREATHING),
        air_absorbed: at(place::AIR_ABSORBED),
        diet: at(place::DIET),
        water_amount: at(place::WATER_AMOUNT),
        soil: at(place::SOIL),
        dust: at(place::DUST),
        eaten: at(place::EATEN),
        alternate: at(place::ALTERNATE),
    }
}

fn dust_source(fields: &[u32; SITE_FIELDS]) -> DustSource {
    match fields[place::DUST_MODE] {
        0 => DustSource::Given,
        _ => DustSource::MultipleSource {
            contribution: fields[place::CONTRIBUTION].into(),
            factor: fields[place::AIR_TO_DUST].into(),
        },
    }
}

fn water_source(fields: &[u32; SITE_FIELDS]) -> WaterSource {
    match fields[place::WATER_MODE] {
        0 => WaterSource::Constant(fields[place::CONSTANT_WATER].into()),
        _ => WaterSource::ThreeSources {
            flushed: fields[place::FLUSHED].into(),
            first_draw: fields[place::FIRST_DRAW].into(),
            fountain: fields[place::FOUNTAIN].into(),
            first_draw_share: fields[place::FIRST_DRAW_SHARE].into(),
            fountain_share: fields[place::FOUNTAIN_SHARE].into(),
        },
    }
}
