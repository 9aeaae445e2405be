//! Where a split hashes to: its place and its identifier.

use crate::sets::taxa_of;

/// "The sum of the first constants over its mask's taxa, modulo m."
pub fn place(mask: u64, first: &[u64], places: u64) -> u64 {
    (sum_over(mask, first) % u128::from(places)) as u64
}

/// "The sum of the second constants, modulo 2^64."
pub fn identifier(mask: u64, second: &[u64]) -> u64 {
    (sum_over(mask, second) % 2u128.pow(64)) as u64
}

/// A bit that is no taxon's adds nothing.
fn sum_over(mask: u64, constants: &[u64]) -> u128 {
    taxa_of(mask).into_iter().filter_map(|i| constants.get(i as usize)).map(|c| u128::from(*c)).sum()
}
