//! The published default site: document 003, Table 2-2 (the user's guide), with
//! document 000, Appendix B (crosswalk, column V.2.0) and its default tables; and
//! the foods that its diet is made of.

use crate::foods::{Foods, FOODS, LOCAL_FOODS};
use crate::site::{place, AGES, SITE_FIELDS};

/// Outdoor air, pg/m³: 0.10 µg/m³ at every age (003 Table 2-2, 000 air_concentration).
pub const AIR: [u32; AGES] = [100_000; AGES];
/// Hours out of doors: 1, 2, 3, then 4 (003 Table 2-2, 000 time_out).
pub const HOURS_OUT: [u32; AGES] = [1, 2, 3, 4, 4, 4, 4];
/// Breathing, litres a day: 4.233 × AGE^0.396 m³ (000, E-1a) at the middle of each
/// year, 0.5 to 6.5. The middle is what makes 000's default table come out: that
/// table, headed INAIR, prints 0.034 to 0.119 µg/day, which is 32 % of TWA × this.
pub const BREATHING: [u32; AGES] = [3_217, 4_970, 6_085, 6_952, 7_679, 8_314, 8_883];
/// Air absorbed, % (003 "Lung absorption", 000 air_absorp).
pub const AIR_ABSORBED: [u32; AGES] = [32; AGES];
/// Diet, pg/day: 2.66 to 5.95 µg/day (003 Table 2-2, 000 diet_intake V.2.0).
pub const DIET: [u32; AGES] = [2_660_000, 5_030_000, 5_210_000, 5_380_000, 5_640_000, 6_040_000, 5_950_000];
/// Water drunk, mL/day: 0.40 to 0.63 L (003 Table 2-2, 000 water_consumption V.2.0).
pub const WATER_AMOUNT: [u32; AGES] = [400, 430, 510, 540, 570, 600, 630];
/// Soil, thousandths of µg/g: 200 µg/g (003 Table 2-2, 000 constant_soil_conc).
pub const SOIL: [u32; AGES] = [200_000; AGES];
/// Dust, thousandths of µg/g: 150 µg/g (003 Table 2-2). 000 prints 200 for the
/// given dust and 150 for the multiple source; the mode below makes it 150 anyway.
pub const DUST: [u32; AGES] = [150_000; AGES];
/// Soil and dust eaten, mg/day: 0.086 to 0.055 g (003 Table 2-2, 000 soil_ingested V.2.0).
pub const EATEN: [u32; AGES] = [86, 94, 67, 63, 67, 52, 55];
/// Alternate source, pg/day: none (003 Table 2-2, 000 INOTHER).
pub const ALTERNATE: [u32; AGES] = [0; AGES];
/// Indoor air, % of outdoor (003 Table 2-2, 000 indoorpercent).
pub const INDOOR: u32 = 30;
/// Share of soil in what is eaten, % (003 Table 2-2, 000 weight_soil).
pub const WEIGHT_SOIL: u32 = 45;
/// Contribution of soil to dust, hundredths: 0.70 (003 Table 2-2, 000 contrib_percent).
pub const CONTRIBUTION: u32 = 70;
/// Air-to-dust factor, µg/g per µg/m³ (003 Table 2-2, 000 multiply_factor).
pub const AIR_TO_DUST: u32 = 100;
/// Multiple source: the default of 003, section 2.3.4.3.
pub const DUST_MODE: u32 = 1;
/// Constant water: alternate water values are off by default (003, section 2.3.3).
pub const WATER_MODE: u32 = 0;
/// Water, pg/mL: 0.9 µg/L (003 Table 2-2). 000's crosswalk still prints 4, but its
/// default intakes, 0.36 to 0.57 µg/day, are those of 0.9.
pub const WATER: u32 = 900;
/// First-draw share, hundredths (003 Table 2-2, 000 FirstDrawFraction).
pub const FIRST_DRAW_SHARE: u32 = 50;
/// Fountain share, hundredths (003 Table 2-2, 000 FountainFraction).
pub const FOUNTAIN_SHARE: u32 = 15;
/// Absorbed % of diet, water, dust, soil, alternate (003 Table 2-2; 000 ABSF, ABSW, ABSD, ABSS, ABSO).
pub const ABSORBED: [u32; 5] = [50, 50, 30, 30, 0];
/// Passive % of each (003 Table 2-2 "0.2"; 000 PAFF, PAFW, PAFD, PAFS, PAFP).
pub const PASSIVE: [u32; 5] = [20; 5];
/// Saturation at 24 months, pg/day: 100 µg/day (000 SATINTAKE2).
pub const SATURATION: u32 = 100_000_000;
/// Mother's blood lead, thousandths of µg/dL: 0.6 µg/dL (003 Table 2-2, 000 PBBLDMAT V.2.0).
pub const MOTHER: u32 = 600;

/// Grams a day of the fifteen foods at each age, in the order E-4d to E-4r: 000 Table 2 (and crosswalk,
/// column V.2.0), rounded to whole grams, which a foods block has.
pub const FOOD_GRAMS: [[u16; AGES]; FOODS] = [
    [63, 162, 169, 188, 202, 234, 243],
    [32, 92, 113, 135, 142, 162, 174],
    [10, 9, 9, 11, 12, 14, 12],
    [4, 5, 6, 7, 6, 8, 7],
    [6, 11, 17, 21, 23, 25, 26],
    [171, 501, 424, 413, 397, 429, 394],
    [36, 60, 63, 75, 74, 76, 87],
    [34, 51, 59, 63, 73, 74, 70],
    [124, 68, 56, 0, 0, 0, 0],
    [20, 22, 30, 0, 0, 0, 0],
    [53, 106, 107, 121, 116, 109, 98],
    [35, 64, 80, 88, 98, 99, 100],
    [6, 5, 5, 7, 6, 10, 7],
    [40, 56, 69, 80, 95, 93, 92],
    [1, 2, 2, 2, 3, 2, 2],
];
/// Lead of the fifteen foods, pg/g (000 crosswalk, column V.2.0, beverageConc to sauceConc). 000's dictionary
/// says µg/kg; in µg/g they make its default diet of Table 2's grams.
pub const FOOD_LEADS: [u32; FOODS] = [
    2_469, 7_097, 12_952, 4_923, 6_842, 3_676, 4_325, 9_326, 2_523, 5_009, 2_256, 4_447, 7_256, 5_746, 12_815,
];

/// The published foods: nothing home-grown, no fish, no game (000, below its default diet).
pub fn foods() -> Foods {
    Foods {
        grams: std::array::from_fn(|age| FOOD_GRAMS.map(|grams| grams[age])),
        leads: FOOD_LEADS,
        local_shares: [0; LOCAL_FOODS],
        local_leads: [0; LOCAL_FOODS],
    }
}

/// The 94 fields of the published default site.
pub fn fields() -> [u32; SITE_FIELDS] {
    let mut fields = [0; SITE_FIELDS];
    let mut put = |from: usize, values: &[u32]| fields[from..from + values.len()].copy_from_slice(values);
    put(place::AIR, &AIR);
    put(place::HOURS_OUT, &HOURS_OUT);
    put(place::BREATHING, &BREATHING);
    put(place::AIR_ABSORBED, &AIR_ABSORBED);
    put(place::DIET, &DIET);
    put(place::WATER_AMOUNT, &WATER_AMOUNT);
    put(place::SOIL, &SOIL);
    put(place::DUST, &DUST);
    put(place::EATEN, &EATEN);
    put(place::ALTERNATE, &ALTERNATE);
    put(place::INDOOR, &[INDOOR, WEIGHT_SOIL, CONTRIBUTION, AIR_TO_DUST, DUST_MODE, WATER_MODE]);
    put(place::CONSTANT_WATER, &[WATER; 4]);
    put(place::FIRST_DRAW_SHARE, &[FIRST_DRAW_SHARE, FOUNTAIN_SHARE]);
    put(place::ABSORBED, &ABSORBED);
    put(place::PASSIVE, &PASSIVE);
    put(place::SATURATION, &[SATURATION, MOTHER]);
    fields
}

/// The published default site file's bytes.
pub fn site() -> Vec<u8> {
    super::site_file(&fields())
}
