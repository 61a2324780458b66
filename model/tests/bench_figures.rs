//! The bench figures of document 01, each on the definition it belongs to.

use jurengate_model::block::{check_of, BODY_BYTES, EDITION_AT};
use jurengate_model::book::{Row, D, ROW_FIELDS};
use jurengate_model::kinetics::{birth_blood, birth_tissue, blood_figure, step, step_uptake};
use jurengate_model::site::{AgeFigures, Away, DustSource, WaterSource, PLACES};
use jurengate_model::uptake::{
    age_of, air_intake, dust_figure, dust_intake, soil_intake, water_intake, Routes,
};

/// A row with nothing in it; the figures below fill what they name.
fn empty_row() -> Row {
    Row::of_fields(&[0; ROW_FIELDS])
}

#[test]
fn soil() {
    assert_eq!(soil_intake(200_000, 100, 45), 9_000_000);
}

#[test]
fn multiple_source_dust() {
    let figures = AgeFigures { soil: 200_000, air: 100_000, ..AgeFigures::default() };
    let source = DustSource::MultipleSource { contribution: 70, factor: 100 };
    assert_eq!(dust_figure(&figures, &source), 150_000);
}

#[test]
fn dust() {
    assert_eq!(dust_intake(150_000, 100, 45, &[Away::default(); PLACES]), 8_250_000);
}

#[test]
fn air() {
    let figures = AgeFigures { air: 100_000, hours_out: 2, litres: 4_000, ..AgeFigures::default() };
    assert_eq!(air_intake(&figures, 30), 143_333);
}

#[test]
fn three_waters() {
    let source = WaterSource::ThreeSources {
        flushed: 1_000,
        first_draw: 4_000,
        fountain: 10_000,
        first_draw_share: 50,
        fountain_share: 15,
    };
    assert_eq!(water_intake(200, &source), 770_000);
}

#[test]
fn one_medium_alone() {
    let routes = Routes::of_q(&[2_700_000, 0, 0, 0, 0], &[20; 5], 24_300_000, 0);
    assert_eq!(routes.uptake(), 2_484_000);
    assert_eq!((routes.all_passive(), routes.all_active()), (540_000, 1_944_000));
}

#[test]
fn six_shares_of_ten() {
    let shares: Vec<u64> = (0..6).map(|k| step_uptake(10, k)).collect();
    assert_eq!(shares, [1, 2, 2, 1, 2, 2]);
}

#[test]
fn a_step_of_urine_alone() {
    let mut row = empty_row();
    row.urine = D;
    row.out[0] = 1;
    let stepped = step(&row, &[9, 0, 0, 0, 0, 0, 0], 0);
    assert_eq!(stepped.solution, 4);
    assert_eq!(stepped.exits, [4, 0, 0]);
    assert_eq!(stepped.compartments, [5, 0, 0, 0, 0, 0, 0]);
}

#[test]
fn kidney_at_birth() {
    assert_eq!(birth_tissue(106, birth_blood(1_000), 20), 180_200);
}

#[test]
fn blood() {
    let mut row = empty_row();
    row.blood_volume = 2_000;
    row.plasma_volume = 1_000;
    assert_eq!(blood_figure(&row, &[1_000_000, 25_000_000, 0, 0, 0, 0, 0]), 12_703);
}

#[test]
fn check_of_an_empty_block() {
    let mut body = [0; BODY_BYTES];
    body[EDITION_AT] = 1;
    assert_eq!(check_of(&body), 2);
}

#[test]
fn ages() {
    assert_eq!([12, 13, 84].map(age_of), [0, 1, 6]);
}
