//! Energies and levels (RULES, Energy and load): the tables A and B, energy, M, level.

use crate::big::{root, Big};
use std::sync::OnceLock;

/// The tables have one number for each hundredth of a decade.
const STEPS: u32 = 1000;

/// A(k): the largest whole number whose 1000th power is at most 10^(6000+k).
pub fn table_a() -> &'static [u64] {
    static TABLE: OnceLock<Vec<u64>> = OnceLock::new();
    TABLE.get_or_init(|| roots(1000, |k| 6000 + k))
}

/// B(k): the largest whole number whose 2000th power is at most 10^(12000+2k+1).
pub fn table_b() -> &'static [u64] {
    static TABLE: OnceLock<Vec<u64>> = OnceLock::new();
    TABLE.get_or_init(|| roots(2000, |k| 12000 + 2 * k + 1))
}

/// The whole `degree`th roots of 10^exponent(k); binary64 gives the guess, exact powers decide.
fn roots(degree: u32, exponent: impl Fn(u32) -> u32) -> Vec<u64> {
    let ten = Big::new(10);
    let step = ten.power(exponent(1) - exponent(0));
    let mut bound = ten.power(exponent(0));
    let mut table = Vec::new();
    for k in 0..STEPS {
        let guess = 10f64.powf(f64::from(exponent(k)) / f64::from(degree));
        table.push(root(degree, &bound, guess as u64));
        bound = bound.times(&step);
    }
    table
}

/// The energy of c hundredths of a dB, c = 1000q + k: A(k)·10^q / 10^6, rounded down.
pub fn energy(c: u32) -> u64 {
    let scaled = u128::from(table_a()[(c % STEPS) as usize]) * 10u128.pow(c / STEPS);
    (scaled / 1_000_000) as u64
}

/// M = 1000·total / (86,400·days), rounded down.
pub fn mean(total: u64, days: u32) -> u64 {
    (1000 * u128::from(total) / (86_400 * u128::from(days))) as u64
}

/// The level of M in hundredths, or none for "below zero".
pub fn level(mean: u64) -> Option<u32> {
    let reaches = |n: u32| u128::from(table_b()[(n % STEPS) as usize]) * 10u128.pow(n / STEPS) / 1000;
    (mean >= 1000).then(|| (0..).find(|&n| u128::from(mean) <= reaches(n)).expect("every M is reached"))
}

#[cfg(test)]
mod tests {
    use super::*;

    #[test]
    fn worked_energies() {
        let worked = [(0, 1), (500, 3), (3500, 3_162), (6500, 3_162_277), (7500, 31_622_770), (13_000, 10u64.pow(13))];
        for (c, expected) in worked {
            assert_eq!(energy(c), expected, "energy of {c}");
        }
    }

    #[test]
    fn tables_rise_within_one_decade() {
        for table in [table_a(), table_b()] {
            assert_eq!(table.len(), 1000);
            assert!(table.windows(2).all(|pair| pair[0] < pair[1]));
            assert!(table[0] >= 1_000_000 && table[999] < 10_000_000);
        }
        assert_eq!(table_a()[0], 1_000_000);
        assert!((0..1000).all(|k| table_a()[k] < table_b()[k]));
    }

    #[test]
    fn levels_begin_at_a_thousand() {
        assert_eq!(level(999), None);
        assert_eq!(level(1000), Some(0));
        assert_eq!(level(1001), Some(0));
        assert_eq!(level(1002), Some(1));
        assert_eq!(level(462_962_962), Some(5666));
        assert_eq!(mean(4 * 10u64.pow(10), 1), 462_962_962);
    }

    #[test]
    fn a_level_is_the_smallest_that_reaches() {
        // 10^(n/1000) thousand lies half a hundredth under the upper end of n's range.
        for n in [0u32, 1, 999, 1000, 5666, 12_000, 13_000] {
            let middle = 10f64.powf(f64::from(n) / 1000.0) * 1000.0;
            assert_eq!(level(middle as u64), Some(n));
        }
    }
}
