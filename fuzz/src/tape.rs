//! A fuzz input read from front to end; noughts once it is spent.

/// Numbers at which the rules turn; an input names one of them and a small distance.
const TURNS: [u64; 25] = [
    0,
    24,
    84,
    100,
    508,
    512,
    1_000,
    2_000,
    8_704,
    10_000,
    50_000,
    60_000,
    1 << 16,
    100_000,
    1_000_000,
    10_000_000,
    50_000_000,
    100_000_000,
    500_000_000,
    1_000_000_000,
    6_400_000_000 - u32::MAX as u64,
    1 << 32,
    50_000_000_000,
    180_000_000_000,
    1 << 63,
];

/// What is left of an input.
pub struct Tape<'a> {
    rest: &'a [u8],
}

impl<'a> Tape<'a> {
    /// The whole input.
    pub fn new(input: &'a [u8]) -> Tape<'a> {
        Tape { rest: input }
    }

    /// Whether nothing is left.
    pub fn is_spent(&self) -> bool {
        self.rest.is_empty()
    }

    /// All that is left.
    pub fn rest(&self) -> &'a [u8] {
        self.rest
    }

    /// The next byte.
    pub fn byte(&mut self) -> u8 {
        let [byte] = self.take();
        byte
    }

    /// The next 16 bits.
    pub fn word(&mut self) -> u16 {
        u16::from_le_bytes(self.take())
    }

    /// A place in a list of `length`, at most 256 long.
    pub fn index(&mut self, length: usize) -> usize {
        usize::from(self.byte()) % length
    }

    /// A number near one at which a rule changes, or any 64 bits.
    pub fn number(&mut self) -> u64 {
        match self.index(TURNS.len() + 4) {
            turn if turn < TURNS.len() => TURNS[turn].wrapping_add_signed(i64::from(self.byte() as i8)),
            _ => u64::from_le_bytes(self.take()),
        }
    }

    fn take<const N: usize>(&mut self) -> [u8; N] {
        let (taken, rest) = self.rest.split_at(N.min(self.rest.len()));
        self.rest = rest;
        let mut bytes = [0; N];
        bytes[..taken.len()].copy_from_slice(taken);
        bytes
    }
}
