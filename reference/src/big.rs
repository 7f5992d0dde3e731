//! Whole numbers of any size, as far as the tables A and B need them: product, power and order.

use std::cmp::Ordering;

/// Base 2^64 digits, the lowest first, without zeros at the high end.
#[derive(Clone, Debug, PartialEq, Eq)]
pub struct Big(Vec<u64>);

impl Big {
    pub fn new(value: u64) -> Big {
        Big(if value == 0 { vec![] } else { vec![value] })
    }

    pub fn times(&self, other: &Big) -> Big {
        let mut digits = vec![0u64; self.0.len() + other.0.len()];
        for (i, &x) in self.0.iter().enumerate() {
            let mut carry = 0u128;
            for (digit, &y) in digits[i..].iter_mut().zip(&other.0) {
                carry += u128::from(*digit) + u128::from(x) * u128::from(y);
                *digit = carry as u64;
                carry >>= 64;
            }
            digits[i + other.0.len()] = carry as u64;
        }
        while digits.last() == Some(&0) {
            digits.pop();
        }
        Big(digits)
    }

    pub fn power(&self, exponent: u32) -> Big {
        let mut result = Big::new(1);
        for bit in (0..u32::BITS - exponent.leading_zeros()).rev() {
            result = result.times(&result);
            if exponent >> bit & 1 == 1 {
                result = result.times(self);
            }
        }
        result
    }
}

impl Ord for Big {
    fn cmp(&self, other: &Big) -> Ordering {
        let highest_first = |big: &Big| big.0.iter().rev().copied().collect::<Vec<_>>();
        self.0.len().cmp(&other.0.len()).then_with(|| highest_first(self).cmp(&highest_first(other)))
    }
}

impl PartialOrd for Big {
    fn partial_cmp(&self, other: &Big) -> Option<Ordering> {
        Some(self.cmp(other))
    }
}

/// The largest whole number whose `degree`th power is at most `bound`, looked for from a guess.
pub fn root(degree: u32, bound: &Big, guess: u64) -> u64 {
    let fits = |candidate: u64| Big::new(candidate).power(degree) <= *bound;
    let mut found = guess;
    while !fits(found) {
        found -= 1;
    }
    while fits(found + 1) {
        found += 1;
    }
    found
}

#[cfg(test)]
mod tests {
    use super::*;

    #[test]
    fn products_and_powers_of_more_than_one_digit() {
        let ten = Big::new(10);
        assert_eq!(ten.power(0), Big::new(1));
        assert_eq!(ten.power(19), Big::new(10_000_000_000_000_000_000));
        assert_eq!(Big::new(u64::MAX).times(&Big::new(u64::MAX)), Big(vec![1, u64::MAX - 1]));
        assert_eq!(Big::new(0).times(&ten), Big::new(0));
        assert!(ten.power(40) > ten.power(39) && ten.power(39) < ten.power(40));
    }

    #[test]
    fn roots_are_exact_on_both_sides_of_a_power_and_from_any_guess() {
        let power = Big::new(1_000_003).power(1000);
        assert_eq!(root(1000, &power, 1_000_000), 1_000_003);
        assert_eq!(root(1000, &power, 1_000_009), 1_000_003);
        assert_eq!(root(2, &Big::new(15), 0), 3);
    }
}
