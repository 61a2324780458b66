//! Random states: within every limit, at one, past one, or any numbers at all.

use super::Generator;
use crate::state::{State, BURDEN_LIMIT, COMPARTMENTS, LEDGERS, MONTHS, MONTH_LIMIT};

/// A state in this month whose burden is as asked for, its ledgers empty.
pub fn burdened(generator: &mut Generator, month: u64, burden: u64) -> State {
    State { month, compartments: split(generator, burden), ..State::default() }
}

/// Cuts `total` into parts of any size; they add up to it.
fn split<const N: usize>(generator: &mut Generator, total: u64) -> [u64; N] {
    let mut parts = [0; N];
    let mut rest = total;
    let first = generator.index(N);
    for turn in 0..N - 1 {
        let part = generator.sized(rest);
        parts[(first + turn) % N] = part;
        rest -= part;
    }
    parts[(first + N - 1) % N] = rest;
    parts
}

/// A state that 20 lets pass, its month below 84 unless `last` is asked for.
pub fn state(generator: &mut Generator, last: bool) -> State {
    let month = if last { MONTHS as u64 } else { generator.between(0, MONTHS as u64 - 1) };
    let burden_most = BURDEN_LIMIT as u64;
    let burden =
        if generator.once_in(2) { generator.sized(burden_most) } else { generator.at_limits(burden_most) };
    let room = (BURDEN_LIMIT + u128::from(month) * MONTH_LIMIT) as u64 - burden;
    let left = if generator.once_in(2) { generator.sized(room) } else { generator.at_limits(room) };
    State {
        month,
        compartments: split::<COMPARTMENTS>(generator, burden),
        ledgers: split::<LEDGERS>(generator, left),
    }
}

/// Numbers that 20 refuses, each by one of its limits passed by one, or any numbers at all.
pub fn no_state(generator: &mut Generator) -> State {
    let mut state = state(generator, false);
    match generator.index(7) {
        0 => state.month = MONTHS as u64 + 1,
        1 => state.compartments = split(generator, BURDEN_LIMIT as u64 + 1),
        2 => {
            let room = BURDEN_LIMIT + u128::from(state.month) * MONTH_LIMIT - state.burden();
            state.ledgers = split(generator, room as u64 + 1);
        }
        3 => state = any_numbers(generator),
        4 => wrap(generator, &mut state.compartments),
        5 => wrap(generator, &mut state.ledgers),
        _ => state = State { compartments: [u64::MAX; COMPARTMENTS], ledgers: [u64::MAX; LEDGERS], ..state },
    }
    state
}

/// Changes two of the numbers so that the sum passes 2^64 and looks small in 64 bits.
fn wrap(generator: &mut Generator, numbers: &mut [u64]) {
    let first = generator.index(numbers.len());
    let second = (first + 1 + generator.index(numbers.len() - 1)) % numbers.len();
    numbers[first] = generator.any() | 1 << 63;
    numbers[second] = numbers[first].wrapping_neg();
}

/// Eleven numbers of 64 bits, without regard to any limit.
pub fn any_numbers(generator: &mut Generator) -> State {
    State::from_numbers(std::array::from_fn(|_| {
        if generator.once_in(3) {
            generator.any()
        } else {
            generator.at_limits(u64::MAX)
        }
    }))
}

/// A state near the limits: at them, one past them, or anything.
pub fn any_state(generator: &mut Generator) -> State {
    match generator.index(8) {
        0 => no_state(generator),
        1 => state(generator, true),
        2 => any_numbers(generator),
        _ => state(generator, false),
    }
}
