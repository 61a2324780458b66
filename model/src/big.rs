//! Unsigned whole numbers of 512 bits, enough for demand 3 on any accepted step.
//! The widest product there, D × new P × Q, stays under 270 bits.

use std::cmp::Ordering;

/// Limbs of 64 bits.
const LIMBS: usize = 8;

/// A number, least limb first. Overflow and underflow panic: a test may not wrap.
#[derive(Clone, Copy, Debug, PartialEq, Eq)]
pub struct Big {
    limbs: [u64; LIMBS],
}

impl Big {
    /// Zero.
    pub const ZERO: Big = Big { limbs: [0; LIMBS] };
    /// One.
    pub const ONE: Big = {
        let mut limbs = [0; LIMBS];
        limbs[0] = 1;
        Big { limbs }
    };

    /// Sum.
    pub fn plus(self, other: Big) -> Big {
        let mut carry = 0u128;
        let limbs = std::array::from_fn(|i| {
            let total = u128::from(self.limbs[i]) + u128::from(other.limbs[i]) + carry;
            carry = total >> 64;
            total as u64
        });
        assert_eq!(carry, 0, "sum over 512 bits");
        Big { limbs }
    }

    /// Difference, if `other` is not the greater.
    pub fn minus(self, other: Big) -> Big {
        let mut borrow = false;
        let limbs = std::array::from_fn(|i| {
            let (first, under) = self.limbs[i].overflowing_sub(other.limbs[i]);
            let (second, under_again) = first.overflowing_sub(u64::from(borrow));
            borrow = under || under_again;
            second
        });
        assert!(!borrow, "difference below zero");
        Big { limbs }
    }

    /// Product.
    pub fn times(self, other: Big) -> Big {
        let mut product = Big::ZERO;
        for (place, &limb) in other.limbs.iter().enumerate() {
            if limb != 0 {
                product.add_shifted(&self, limb, place);
            }
        }
        product
    }

    /// Adds `number` × `limb` × 2^(64 × place).
    fn add_shifted(&mut self, number: &Big, limb: u64, place: usize) {
        let mut carry = 0u128;
        for i in 0..LIMBS {
            let part = u128::from(number.limbs[i]) * u128::from(limb) + carry;
            if i + place < LIMBS {
                let total = u128::from(self.limbs[i + place]) + (part & u128::from(u64::MAX));
                self.limbs[i + place] = total as u64;
                carry = (part >> 64) + (total >> 64);
            } else {
                assert_eq!(part, 0, "product over 512 bits");
                carry = 0;
            }
        }
        assert_eq!(carry, 0, "product over 512 bits");
    }
}

impl From<u128> for Big {
    fn from(value: u128) -> Big {
        let mut limbs = [0; LIMBS];
        limbs[0] = value as u64;
        limbs[1] = (value >> 64) as u64;
        Big { limbs }
    }
}

impl From<u64> for Big {
    fn from(value: u64) -> Big {
        Big::from(u128::from(value))
    }
}

impl Ord for Big {
    fn cmp(&self, other: &Big) -> Ordering {
        self.limbs.iter().rev().cmp(other.limbs.iter().rev())
    }
}

impl PartialOrd for Big {
    fn partial_cmp(&self, other: &Big) -> Option<Ordering> {
        Some(self.cmp(other))
    }
}

#[cfg(test)]
mod tests {
    use super::*;

    fn power_of_two(bits: u32) -> Big {
        (0..bits).fold(Big::ONE, |number, _| number.plus(number))
    }

    #[test]
    fn small_numbers_agree_with_128_bits() {
        let samples = [0u128, 1, 2, 255, 1 << 63, u64::MAX.into(), (1 << 64) + 7, 99_999_999_999_999];
        for &a in &samples {
            for &b in &samples {
                assert_eq!(Big::from(a).plus(Big::from(b)), Big::from(a + b));
                assert_eq!(Big::from(a).cmp(&Big::from(b)), a.cmp(&b));
                if a >= b {
                    assert_eq!(Big::from(a).minus(Big::from(b)), Big::from(a - b));
                }
                if let Some(product) = a.checked_mul(b) {
                    assert_eq!(Big::from(a).times(Big::from(b)), Big::from(product));
                }
            }
        }
    }

    #[test]
    fn wide_numbers_obey_arithmetic() {
        let a = power_of_two(250).minus(Big::from(12_345u64));
        let b = power_of_two(130).plus(Big::from(u64::MAX));
        assert_eq!(a.times(b), b.times(a));
        assert_eq!(a.plus(b).times(b), a.times(b).plus(b.times(b)));
        assert_eq!(a.plus(b).minus(b), a);
        assert!(a > b && a.times(b) > a);
        assert_eq!(power_of_two(200).times(power_of_two(300)), power_of_two(500));
    }

    #[test]
    #[should_panic(expected = "over 512 bits")]
    fn a_product_that_does_not_fit_panics() {
        let _ = power_of_two(300).times(power_of_two(212));
    }

    #[test]
    #[should_panic(expected = "over 512 bits")]
    fn a_sum_that_does_not_fit_panics() {
        let _ = power_of_two(511).plus(power_of_two(511));
    }

    #[test]
    #[should_panic(expected = "below zero")]
    fn a_negative_difference_panics() {
        let _ = Big::ONE.minus(Big::from(2u64));
    }
}
