//! Demand 3 on numbers: every step's plasma beside the exact solution, and the
//! balance of burden, uptake and exits between any two month ends of a list.

use crate::big::Big;
use crate::book::{Row, D};
use crate::engine::{read_files, walk_month, WatchedStep};
use crate::kinetics::{tissue_divisor, MONTH_DAYS};
use crate::refusal::Refusal;
use crate::state::{compartment, State, COMPARTMENTS, LEDGERS, TISSUES};
use crate::uptake::day_uptake;

/// Whole part of the margin, pg.
const MARGIN: u64 = 459;
/// Part of the margin that grows with plasma lead, per D.
const MARGIN_RATE: u64 = 384;

/// A row's part of the exact solution: F/Ei for each tissue, F and Q.
#[derive(Clone, Debug)]
pub struct ExactRow {
    without: [Big; TISSUES],
    back: [Big; TISSUES],
    all: Big,
    divisor: Big,
}

impl ExactRow {
    /// F, the F/Ei (as products of the other five) and Q of a row.
    pub fn of(row: &Row) -> ExactRow {
        let e: [Big; TISSUES] = std::array::from_fn(|i| Big::from(tissue_divisor(row, i)));
        let product_but = |skip: usize| {
            (0..TISSUES).filter(|&i| i != skip).fold(Big::ONE, |product, i| product.times(e[i]))
        };
        let without: [Big; TISSUES] = std::array::from_fn(product_but);
        let all = without[0].times(e[0]);
        let outflow = D + row.urine + row.out.iter().sum::<u128>();
        let returned = (0..TISSUES)
            .fold(Big::ZERO, |sum, i| sum.plus(Big::from(row.out[i] * row.back[i]).times(without[i])));
        let divisor = all.times(Big::from(outflow)).minus(returned);
        ExactRow { without, back: row.back.map(Big::from), all, divisor }
    }

    /// N of a step: p' = N/Q.
    pub fn numerator(&self, before: &[u64; COMPARTMENTS], uptake: u64) -> Big {
        let supply = Big::from(before[compartment::PLASMA]).plus(Big::from(uptake));
        let returned = (0..TISSUES).fold(Big::ZERO, |sum, i| {
            sum.plus(self.back[i].times(Big::from(before[i + 1])).times(self.without[i]))
        });
        Big::from(D).times(self.all.times(supply).plus(returned))
    }

    /// Q.
    pub fn divisor(&self) -> Big {
        self.divisor
    }

    /// N ≤ P'·Q and D(P'Q − N) < 459·D·Q + 384·N.
    pub fn margin_holds(&self, before: &[u64; COMPARTMENTS], uptake: u64, new_plasma: u64) -> bool {
        let exact = self.numerator(before, uptake);
        let reached = Big::from(new_plasma).times(self.divisor);
        if exact > reached {
            return false;
        }
        let distance = Big::from(D).times(reached.minus(exact));
        let margin = Big::from(MARGIN)
            .times(Big::from(D))
            .times(self.divisor)
            .plus(Big::from(MARGIN_RATE).times(exact));
        distance < margin
    }
}

/// What an accepted month brought and lost, from its steps.
#[derive(Clone, Copy, Debug, Default, PartialEq, Eq)]
pub struct MonthFlow {
    /// Sum of the steps' uptakes.
    pub uptake: u128,
    /// Sum of the steps' exits, by ledger.
    pub exits: [u128; LEDGERS],
    /// Steps taken.
    pub steps: usize,
    /// Steps outside demand 3's margin.
    pub outside: usize,
}

/// Walks the month after `state`, holding every step to the margin.
pub fn audit_month(
    site: &[u8],
    foods: Option<&[u8]>,
    book: &[u8],
    state: &State,
) -> Result<(State, MonthFlow), Refusal> {
    let (site, book) = read_files(site, foods, book)?;
    let exact = ExactRow::of(&book.rows[state.month as usize + 1]);
    let mut flow = MonthFlow::default();
    let (end, _) = walk_month(&site, &book, state, &mut |step| flow.count(&exact, step))?;
    Ok((end, flow))
}

impl MonthFlow {
    fn count(&mut self, exact: &ExactRow, step: &WatchedStep) {
        let new_plasma = step.stepped.compartments[compartment::PLASMA];
        let holds = exact.margin_holds(&step.before.compartments, step.uptake, new_plasma);
        self.outside += usize::from(!holds);
        self.steps += 1;
        self.uptake += u128::from(step.uptake);
        for (sum, exit) in self.exits.iter_mut().zip(step.stepped.exits) {
            *sum += u128::from(exit);
        }
    }
}

/// Thirty days of the uptake that the month after `month` takes from these files.
pub fn month_uptake(site: &[u8], foods: Option<&[u8]>, book: &[u8], month: u64) -> Result<u128, Refusal> {
    let (site, book) = read_files(site, foods, book)?;
    Ok(MONTH_DAYS * day_uptake(&site, &book, month as usize + 1)?)
}

/// Month ends of a list of calls, each with what was absorbed on the way to it.
#[derive(Clone, Debug, Default)]
pub struct Ends {
    ends: Vec<(State, u128)>,
}

impl Ends {
    /// Notes an accepted birth or month; `uptake` is 0 at birth and 30 × T in a month.
    pub fn note(&mut self, state: State, uptake: u128) {
        self.ends.push((state, uptake));
    }

    /// Month ends noted.
    pub fn count(&self) -> usize {
        self.ends.len()
    }

    /// Checks every two ends: later burden + what left = earlier burden + uptake, and
    /// no ledger ever falls. Answers how many pairs were checked, or the pair that fails.
    pub fn balance(&self) -> Result<usize, (usize, usize)> {
        let mut pairs = 0;
        for earlier in 0..self.ends.len() {
            let mut absorbed = 0;
            for later in earlier + 1..self.ends.len() {
                absorbed += self.ends[later].1;
                if !balanced(&self.ends[earlier].0, &self.ends[later].0, absorbed) {
                    return Err((earlier, later));
                }
                pairs += 1;
            }
        }
        Ok(pairs)
    }
}

fn balanced(earlier: &State, later: &State, absorbed: u128) -> bool {
    let risen = earlier.ledgers.iter().zip(later.ledgers).all(|(&before, after)| before <= after);
    risen && later.burden() + later.left() == earlier.burden() + earlier.left() + absorbed
}
