//! The child's state: month, seven compartments and three ledgers.

/// Months a run lasts.
pub const MONTHS: usize = 84;
/// Compartments: plasma-with-ECF and the six others.
pub const COMPARTMENTS: usize = 7;
/// Compartments beside plasma, in rate order.
pub const TISSUES: usize = 6;
/// Ledgers: urine, faeces, skin.
pub const LEDGERS: usize = 3;
/// Most lead the seven compartments may hold, pg.
pub const BURDEN_LIMIT: u128 = 50_000_000_000;
/// Most lead a month may bring, pg: 30 days of six intakes of 10^9.
pub const MONTH_LIMIT: u128 = 180_000_000_000;

/// Places of the compartments in a state, in rate order after plasma.
pub mod compartment {
    /// Plasma with extra-cellular fluid.
    pub const PLASMA: usize = 0;
    /// Red cells (M1).
    pub const RED_CELLS: usize = 1;
    /// Liver (M2).
    pub const LIVER: usize = 2;
    /// Kidney (M3).
    pub const KIDNEY: usize = 3;
    /// Other soft tissue (M4).
    pub const OTHER: usize = 4;
    /// Trabecular bone (M5).
    pub const TRABECULAR: usize = 5;
    /// Cortical bone (M6).
    pub const CORTICAL: usize = 6;
}

/// Places of the ledgers in a state.
pub mod ledger {
    /// Lead lost in urine.
    pub const URINE: usize = 0;
    /// Lead lost in faeces, from the liver.
    pub const FAECES: usize = 1;
    /// Lead lost in skin, hair and nails, from other tissue.
    pub const SKIN: usize = 2;
}

/// A child at a month end. What is handed in may hold any numbers at all.
#[derive(Clone, Copy, Debug, Default, PartialEq, Eq)]
pub struct State {
    /// Months since birth.
    pub month: u64,
    /// Lead in the seven compartments, pg.
    pub compartments: [u64; COMPARTMENTS],
    /// Lead that has left by urine, faeces and skin, pg.
    pub ledgers: [u64; LEDGERS],
}

impl State {
    /// Lead in the seven compartments.
    pub fn burden(&self) -> u128 {
        sum(&self.compartments)
    }

    /// Lead in the three ledgers.
    pub fn left(&self) -> u128 {
        sum(&self.ledgers)
    }

    /// Whether refusal 20 lets these numbers pass as a state.
    pub fn is_state(&self) -> bool {
        let month = u128::from(self.month);
        month <= MONTHS as u128
            && self.burden() <= BURDEN_LIMIT
            && self.burden() + self.left() <= BURDEN_LIMIT + month * MONTH_LIMIT
    }

    /// The state as eleven numbers: month, compartments, ledgers.
    pub fn to_numbers(&self) -> [u64; 11] {
        let mut numbers = [0; 11];
        numbers[0] = self.month;
        numbers[1..8].copy_from_slice(&self.compartments);
        numbers[8..].copy_from_slice(&self.ledgers);
        numbers
    }

    /// The state that eleven numbers stand for.
    pub fn from_numbers(numbers: [u64; 11]) -> State {
        let mut state = State { month: numbers[0], ..State::default() };
        state.compartments.copy_from_slice(&numbers[1..8]);
        state.ledgers.copy_from_slice(&numbers[8..]);
        state
    }
}

/// A sum of 64-bit numbers that cannot overflow.
pub fn sum(numbers: &[u64]) -> u128 {
    numbers.iter().map(|&number| u128::from(number)).sum()
}
