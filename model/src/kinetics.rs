//! One four-hour step, birth's compartments and the blood figure (B-).

use crate::book::{Row, D, FAECES_EXIT, SKIN_EXIT};
use crate::state::{compartment, ledger, sum, COMPARTMENTS, LEDGERS, TISSUES};

/// Steps in a day.
pub const DAY_STEPS: u128 = 6;
/// Days in a month.
pub const MONTH_DAYS: u128 = 30;

/// What step k (0 to 5) of a day absorbs of the day's uptake; the six add up to it.
pub fn step_uptake(day_uptake: u128, k: u128) -> u64 {
    let share = day_uptake * (k + 1) / DAY_STEPS - day_uptake * k / DAY_STEPS;
    narrow(share)
}

/// What a step leaves.
#[derive(Clone, Copy, Debug, PartialEq, Eq)]
pub struct Stepped {
    /// p of B-8, the rounded plasma solution that feeds the tissues.
    pub solution: u128,
    /// The new compartments.
    pub compartments: [u64; COMPARTMENTS],
    /// Urine, faeces and skin of this step.
    pub exits: [u64; LEDGERS],
}

/// One step (points 1 to 4 of "One step").
pub fn step(row: &Row, old: &[u64; COMPARTMENTS], uptake: u64) -> Stepped {
    let solution = plasma_solution(row, old, uptake);
    let mut compartments = [0; COMPARTMENTS];
    for tissue in 0..TISSUES {
        compartments[tissue + 1] = narrow(new_tissue(row, tissue, old[tissue + 1], solution));
    }
    let exits = exits(row, solution, &compartments);
    compartments[compartment::PLASMA] = new_plasma(old, uptake, &compartments, &exits);
    Stepped { solution, compartments, exits }
}

/// Ei = D + bi + ci.
pub fn tissue_divisor(row: &Row, tissue: usize) -> u128 {
    D + row.back[tissue] + row.exit[tissue]
}

/// p of B-8.
fn plasma_solution(row: &Row, old: &[u64; COMPARTMENTS], uptake: u64) -> u128 {
    let mut supply = u128::from(old[compartment::PLASMA]) + u128::from(uptake);
    let mut divisor = D + row.urine;
    for tissue in 0..TISSUES {
        let e = tissue_divisor(row, tissue);
        supply += row.back[tissue] * u128::from(old[tissue + 1]) / e;
        divisor += row.out[tissue] - row.out[tissue] * row.back[tissue] / e;
    }
    supply * D / divisor
}

/// New Mi of B-9.
fn new_tissue(row: &Row, tissue: usize, old: u64, solution: u128) -> u128 {
    (u128::from(old) * D + row.out[tissue] * solution) / tissue_divisor(row, tissue)
}

/// Urine, faeces and skin, each computed from its own rate.
fn exits(row: &Row, solution: u128, new: &[u64; COMPARTMENTS]) -> [u64; LEDGERS] {
    let mut exits = [0; LEDGERS];
    exits[ledger::URINE] = narrow(row.urine * solution / D);
    exits[ledger::FAECES] = narrow(row.exit[FAECES_EXIT] * u128::from(new[compartment::LIVER]) / D);
    exits[ledger::SKIN] = narrow(row.exit[SKIN_EXIT] * u128::from(new[compartment::OTHER]) / D);
    exits
}

/// New P: what was there and came, less what the tissues hold and what left.
fn new_plasma(
    old: &[u64; COMPARTMENTS],
    uptake: u64,
    new: &[u64; COMPARTMENTS],
    exits: &[u64; LEDGERS],
) -> u64 {
    let there = sum(old) + u128::from(uptake);
    let elsewhere = sum(&new[1..]) + sum(exits);
    narrow(there.checked_sub(elsewhere).expect("tissues and exits never take more than there is"))
}

/// Share of the mother's blood lead that the child is born with (B-7a), thousandths of µg/dL.
pub fn birth_blood(mother: u128) -> u128 {
    85 * mother / 100
}

/// Tissue-to-blood ratios at birth in tenths (B-7e to B-7i): liver, kidney, other, trabecular, cortical.
pub const BIRTH_RATIOS: [u128; 5] = [130, 106, 160, 512, 789];

/// Lead of a tissue at birth.
pub fn birth_tissue(ratio: u128, blood: u128, weight: u128) -> u128 {
    ratio * blood * weight / 10
}

/// The seven compartments at birth, from row 0.
pub fn birth_compartments(row: &Row, mother: u128) -> [u128; COMPARTMENTS] {
    let blood = birth_blood(mother);
    let total = blood * row.blood_volume;
    let (out, back) = (row.out[0], row.back[0]);
    let plasma = total * back / (out + back);
    let weights = [row.liver, row.kidney, row.other, row.trabecular, row.cortical];
    let mut compartments = [0; COMPARTMENTS];
    compartments[compartment::PLASMA] = plasma;
    compartments[compartment::RED_CELLS] = total - plasma;
    for (i, weight) in weights.iter().enumerate() {
        compartments[compartment::LIVER + i] = birth_tissue(BIRTH_RATIOS[i], blood, *weight);
    }
    compartments
}

/// The blood figure, thousandths of µg/dL (B-9g, B-10).
pub fn blood_figure(row: &Row, compartments: &[u64; COMPARTMENTS]) -> u32 {
    let ecf_volume = 73 * row.blood_volume / 100;
    let plasma =
        u128::from(compartments[compartment::PLASMA]) * row.plasma_volume / (ecf_volume + row.plasma_volume);
    let blood = (u128::from(compartments[compartment::RED_CELLS]) + plasma) / row.blood_volume;
    u32::try_from(blood).expect("5×10^10 pg in 1,000 thousandths of dL is 5×10^7")
}

/// Back to the 64 bits of a state; the burden limit keeps every value far below.
fn narrow(value: u128) -> u64 {
    u64::try_from(value).expect("lead stays under the burden limit")
}
