//! The stack that each call must stay within: the headers say the same numbers.

/// A call, and the bytes of stack that it may take: what was measured (docs/MEASURED.md) and a tenth of it,
/// 256 bytes at least.
pub const STACK_BOUNDS: [(&str, usize); 13] = [
    ("read_site", 2_384),
    ("read_book", 360),
    ("write_block", 272),
    ("birth", 14_820),
    ("month", 15_160),
    ("run", 15_120),
    ("read_foods", 384),
    ("birth_foods", 14_840),
    ("month_foods", 15_180),
    ("run_foods", 15_160),
    ("read_places", 1_650),
    ("site_to_edition_2", 2_200),
    ("site_to_edition_1", 2_080),
];

/// The same for the calls of the second library.
pub const CARDS_STACK_BOUNDS: [(&str, usize); 2] = [("card_row", 15_250), ("card_group", 31_020)];
