//! The code's parameter for every counter below 2^11: the lines that the proved
//! program `parameters` must write.
//!
//! A line has the hash of k for every depth of `DEPTHS`, for sums one below, at
//! and one above each 2^k and each Γ·2^k, in this order. Depths go on until D−2
//! is above every k, so that the bound is tried from both sides.

use std::ops::Range;

use crate::coder::Statistics;
use crate::feed::Hash;

const COUNTERS: Range<u64> = 1..2048;
const DEPTHS: Range<i32> = 2..36;
const EXPONENTS: Range<u32> = 0..33;

/// The lines, one a counter.
pub fn parameter_lines() -> String {
    COUNTERS
        .map(|count| format!("parameter 0 {count} {:x}\n", hash_of(count).0))
        .collect()
}

fn hash_of(count: u64) -> Hash {
    sums_of(count)
        .filter_map(|sum| statistics_of(count, sum))
        .flat_map(|statistics| DEPTHS.map(move |depth| statistics.code_parameter(depth)))
        .fold(Hash::default(), Hash::word)
}

fn sums_of(count: u64) -> impl Iterator<Item = u64> {
    EXPONENTS
        .flat_map(move |exponent| [1 << exponent, count << exponent])
        .filter(|&middle| middle <= 2 * u64::from(u32::MAX))
        .flat_map(|middle| [middle - 1, middle, middle + 1])
}

/// The statistics that make a sum, if an accumulator of 32 bits does.
fn statistics_of(count: u64, sum: u64) -> Option<Statistics> {
    let accumulator = sum.checked_sub(49 * count / 128)?;
    (accumulator <= u64::from(u32::MAX)).then_some(Statistics { count, accumulator })
}

#[cfg(test)]
mod tests {
    use super::*;

    #[test]
    fn sums_stand_on_both_sides_of_each_change() {
        for count in [1, 2, 3, 127, 128, 1000, 2047] {
            for k in 1..12 {
                let parameters: Vec<u32> = sums_of(count)
                    .filter(|sum| sum.abs_diff(count << k) <= 1)
                    .filter_map(|sum| statistics_of(count, sum))
                    .map(|statistics| statistics.code_parameter(16))
                    .collect();
                assert!(parameters.contains(&(k - 1)), "{count} {k}");
                assert!(parameters.contains(&k), "{count} {k}");
            }
        }
    }
}
