//! An independent model of the counter box's engine, written from document 01
//! ("The counter box: IEUBK in whole numbers"), requests 1, 2 and 4 to 7 of document 02 and the
//! agency's papers alone.
//!
//! The model is made to be read beside the paper, not to be fast: every sum is
//! taken in 128 bits, and `cargo test` checks each for overflow. `fast` is a second,
//! quick writing of the same rules, and `ffi` (feature `engine`) calls the engine itself.
//! `leaflet` is what the engine's own program prints: `makecard` goes by its limits, the
//! model by those of the paper.

#![deny(unsafe_code)]
#![warn(missing_docs)]

pub mod big;
pub mod block;
pub mod book;
pub mod card;
pub mod cards;
pub mod console;
pub mod convert;
pub mod demand3;
pub mod engine;
pub mod fast;
#[cfg(feature = "engine")]
pub mod ffi;
pub mod figures;
pub mod foods;
pub mod group;
pub mod kinetics;
pub mod leaflet;
pub mod printout;
pub mod random;
pub mod refusal;
pub mod site;
pub mod state;
pub mod uptake;

#[cfg(all(test, debug_assertions))]
mod tests {
    use std::hint::black_box;

    /// What the tests rely on: in their profile no sum wraps unseen.
    #[test]
    #[should_panic(expected = "attempt to add with overflow")]
    fn sums_are_checked_for_overflow() {
        black_box(black_box(u128::MAX) + black_box(1));
    }
}
