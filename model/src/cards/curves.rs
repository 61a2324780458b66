//! A realistic rate book, from the growth curves and transfer times of source
//! documents 002 and 000 (Table A-3), months as age.
//!
//! A rate per four-hour step in units of 1/D is NS / T × D, with NS = 1/6 day
//! (document 000, parameter NS) and T the transfer time in days. Rounding is to
//! the nearest whole number.
//!
//! How the scans were read where they are unclear or disagree:
//! - B-5a, B-5c, B-5f: both terms and the plus between them as printed in 000
//!   (002 lost the plus); the same numbers stand in the change requests, item 14.
//! - B-5g: 002's form, as document 01 takes its labels from 002 and 000's own
//!   parameter table repeats it. 000's Table A-3 prints 0.03 + 0.105 × weight
//!   instead; the weights differ by a twentieth at most, the default child's blood by 0.02 µg/dL.
//! - B-5j, B-5k: 002 repeats the first numerator in the second term; 000 prints
//!   0.106 and 0.584, which give a seven-year-old's kidneys and liver.
//! - B-1f, B-1g: TBLFEC and TBLOUT follow from TBLUR by 0.75 and 0.75 again.
//! - B-2b: 000's form, RATBLPL − 0.55/(0.55 + 0.73); 002 lost the minus.
//! - B-2e, B-2n: the divisor 1 − TBL../TBLFEC (1 − TBLOTH/TBLOUT) as 000 prints it.
//! - B-2o: 000 prints a minus before the weight bracket; it is a product, as in
//!   its sister B-2f and as 002 sets it.
//! - B-2.5 slows the red-cell transfer near a ceiling; document 01 keeps a1
//!   constant, so TPLRBC itself is used.

use crate::book::{column, RowFields, BOOK_ROWS, ROW_FIELDS};

/// Rates are in units of 1/D.
const D: f64 = 100_000_000.0;
/// NS, step length in days (document 000).
const STEP_DAYS: f64 = 1.0 / 6.0;

/// TPLRBC, days (B-2a).
const PLASMA_TO_RED_CELLS: f64 = 0.1;
/// RATBLPL, blood-to-plasma lead ratio (B-3).
const BLOOD_TO_PLASMA: f64 = 100.0;
/// TBLUR at 24 months, days (ResCoef, document 000).
const BLOOD_TO_URINE_24: f64 = 20.0;
/// TBLLIV at 24 months, days.
const BLOOD_TO_LIVER_24: f64 = 10.0;
/// TBLOTH at 24 months, days.
const BLOOD_TO_OTHER_24: f64 = 10.0;
/// TBLKID at 24 months, days.
const BLOOD_TO_KIDNEY_24: f64 = 10.0;
/// TBLBONE at 24 months, days.
const BLOOD_TO_BONE_24: f64 = 1.0;
/// RATFECUR.
const FAECES_TO_URINE: f64 = 0.75;
/// RATOUTFEC.
const SKIN_TO_FAECES: f64 = 0.75;
/// WTBODY(24), kg, as the agency's code fixes it (document 000).
const BODY_24: f64 = 12.3;
/// ALLOMET, the exponent of B-1a to B-1e.
const ALLOMETRIC: f64 = 0.333;
/// Share of bone that is trabecular (B-2i, B-5i).
const TRABECULAR_SHARE: f64 = 0.2;
/// Share of bone that is cortical (B-2k, B-5h).
const CORTICAL_SHARE: f64 = 0.8;
/// VOLECF over VOLBLOOD (B-5d).
const ECF_SHARE: f64 = 0.73;
/// Density of blood, kg/L (B-5m).
const BLOOD_DENSITY: f64 = 1.056;
/// dL in a litre.
const DECILITRES: f64 = 10.0;

/// One term of a growth curve: h / (1 + exp(−(m − s)/w)).
fn term(month: f64, height: f64, middle: f64, width: f64) -> f64 {
    height / (1.0 + (-(month - middle) / width).exp())
}

/// VOLBLOOD, dL (B-5a).
pub fn blood_volume(month: f64) -> f64 {
    term(month, 10.67, 6.87, 7.09) + term(month, 21.86, 88.15, 26.73)
}

/// VOLPLASM, dL (B-5c).
pub fn plasma_volume(month: f64) -> f64 {
    term(month, 6.46, 6.81, 5.74) + term(month, 8.83, 65.66, 23.62)
}

/// WTBODY, kg (B-5f).
pub fn body_weight(month: f64) -> f64 {
    term(month, 8.375, 3.80, 3.60) + term(month, 17.261, 48.76, 20.63)
}

/// WTBONE, kg (B-5g).
pub fn bone_weight(month: f64) -> f64 {
    if month <= 12.0 {
        0.111 * body_weight(month)
    } else {
        0.838 + 0.02 * month
    }
}

/// WTKIDNEY, kg (B-5j).
pub fn kidney_weight(month: f64) -> f64 {
    term(month, 0.050, 5.24, 4.24) + term(month, 0.106, 65.37, 34.11)
}

/// WTLIVER, kg (B-5k).
pub fn liver_weight(month: f64) -> f64 {
    term(month, 0.261, 9.82, 3.67) + term(month, 0.584, 55.65, 37.64)
}

/// WTOTHER, kg (B-5l): what the body weighs beside organs, bone, blood (B-5m) and ECF (B-5e).
pub fn other_weight(month: f64) -> f64 {
    let blood_litres = blood_volume(month) / DECILITRES;
    body_weight(month)
        - kidney_weight(month)
        - liver_weight(month)
        - bone_weight(month)
        - BLOOD_DENSITY * blood_litres
        - ECF_SHARE * blood_litres
}

/// Tissue-to-blood concentration ratio: start + rise × (1 − exp(−speed × m)).
fn ratio(month: f64, start: f64, rise: f64, speed: f64) -> f64 {
    start + rise * (1.0 - (-speed * month).exp())
}

/// CRKIDBL (B-4a).
fn kidney_ratio(month: f64) -> f64 {
    ratio(month, 0.777, 2.35, 0.0468)
}

/// CRLIVBL (B-4b).
fn liver_ratio(month: f64) -> f64 {
    ratio(month, 1.1, 3.5, 0.0462)
}

/// CRBONEBL (B-4c).
fn bone_ratio(month: f64) -> f64 {
    ratio(month, 6.0, 215.0, 0.000942)
}

/// CROTHBL (B-4d).
fn other_ratio(month: f64) -> f64 {
    ratio(month, 0.931, 0.437, 0.00749)
}

/// A blood-to-tissue time scaled from 24 months by body weight (B-1a to B-1e).
fn scaled(days_at_24: f64, month: f64) -> f64 {
    days_at_24 * (body_weight(month) / BODY_24).powf(ALLOMETRIC)
}

/// Weight of a tissue over litres of blood, the last bracket of B-1h, B-2e, f, h, n, o.
fn per_blood(weight: f64, month: f64) -> f64 {
    weight / (blood_volume(month) / DECILITRES)
}

/// Transfer times of a month, days.
struct Times {
    /// TPLRBC, TPLLIV, TPLKID, TPLOTH, TPLTRAB, TPLCORT.
    out: [f64; 6],
    /// TPLUR.
    urine: f64,
    /// TRBCPL, TLIVPL, TKIDPL, TOTHPL, TTRABPL, TCORTPL.
    back: [f64; 6],
    /// TLIVFEC.
    faeces: f64,
    /// TOTHOUT.
    skin: f64,
}

fn times(month: f64) -> Times {
    let to_urine = scaled(BLOOD_TO_URINE_24, month); // B-1a
    let to_liver = scaled(BLOOD_TO_LIVER_24, month); // B-1b
    let to_other = scaled(BLOOD_TO_OTHER_24, month); // B-1c
    let to_kidney = scaled(BLOOD_TO_KIDNEY_24, month); // B-1d
    let to_bone = scaled(BLOOD_TO_BONE_24, month); // B-1e
    let to_faeces = FAECES_TO_URINE * to_urine; // B-1f
    let to_skin = SKIN_TO_FAECES * to_faeces; // B-1g
    let liver = liver_ratio(month) * per_blood(liver_weight(month), month);
    let kidney = kidney_ratio(month) * per_blood(kidney_weight(month), month);
    let other = other_ratio(month) * per_blood(other_weight(month), month);
    let bone_back = bone_ratio(month) * to_bone * per_blood(bone_weight(month), month); // B-1h
    Times {
        out: [
            PLASMA_TO_RED_CELLS,                            // B-2a
            to_liver / BLOOD_TO_PLASMA,                     // B-2d
            to_kidney / BLOOD_TO_PLASMA,                    // B-2g
            to_other / BLOOD_TO_PLASMA,                     // B-2m
            to_bone / (TRABECULAR_SHARE * BLOOD_TO_PLASMA), // B-2i
            to_bone / (CORTICAL_SHARE * BLOOD_TO_PLASMA),   // B-2k
        ],
        urine: to_urine / BLOOD_TO_PLASMA, // B-2c
        back: [
            PLASMA_TO_RED_CELLS * (BLOOD_TO_PLASMA - 0.55 / (0.55 + 0.73)), // B-2b
            liver * to_liver / (1.0 - to_liver / to_faeces),                // B-2e
            kidney * to_kidney,                                             // B-2h
            other * to_other / (1.0 - to_other / to_skin),                  // B-2n
            bone_back,                                                      // B-2j
            bone_back,                                                      // B-2l
        ],
        faeces: liver * to_faeces, // B-2f
        skin: other * to_skin,     // B-2o
    }
}

/// A transfer time as a rate per step in units of 1/D.
fn rate(days: f64) -> u32 {
    nearest(STEP_DAYS / days * D)
}

/// kg or dL as g or thousandths of dL.
fn thousandths(value: f64) -> u32 {
    nearest(1000.0 * value)
}

fn nearest(value: f64) -> u32 {
    value.round() as u32
}

/// The row of a month, 0 to 84.
pub fn row(month: usize) -> RowFields {
    let m = month as f64;
    let times = times(m);
    let mut row = [0; ROW_FIELDS];
    row[column::VB] = thousandths(blood_volume(m));
    row[column::VP] = thousandths(plasma_volume(m));
    row[column::BODY] = thousandths(body_weight(m));
    row[column::KIDNEY] = thousandths(kidney_weight(m));
    row[column::LIVER] = thousandths(liver_weight(m));
    row[column::OTHER] = thousandths(other_weight(m));
    row[column::TRABECULAR] = thousandths(TRABECULAR_SHARE * bone_weight(m));
    row[column::CORTICAL] = thousandths(CORTICAL_SHARE * bone_weight(m));
    for tissue in 0..6 {
        row[column::OUT + tissue] = rate(times.out[tissue]);
        row[column::BACK + tissue] = rate(times.back[tissue]);
    }
    row[column::URINE] = rate(times.urine);
    row[column::FAECES] = rate(times.faeces);
    row[column::SKIN] = rate(times.skin);
    row
}

/// The rows of months 0 to 84.
pub fn rows() -> Vec<RowFields> {
    (0..BOOK_ROWS).map(row).collect()
}

/// The realistic rate book's bytes.
pub fn book() -> Vec<u8> {
    super::book_file(&rows())
}
