//! The weighted distance of two trees, and the lengths of a split over the trees that have it; "each step rounded".

use crate::double::Double;
use crate::verdict::{Masks, Tree};

/// "Adds, from 0 and over the masks of either tree in rising order, the size of each difference, a lacking split
/// counting as 0"; none if a split of either tree has no length.
pub fn weighted(a: &Tree, b: &Tree) -> Option<Double> {
    let has_all = |tree: &Tree| tree.lengths.len() == tree.splits.len();
    if !has_all(a) || !has_all(b) {
        return None;
    }
    let either: Masks = a.splits.union(&b.splits).copied().collect();
    let of = |tree: &Tree, mask: &u64| tree.lengths.get(mask).copied().unwrap_or(Double::ZERO);
    let sizes = either.iter().map(|mask| of(a, mask).minus(of(b, mask)).size());
    Some(sizes.fold(Double::ZERO, Double::plus))
}

/// "The shortest, longest and summed length over the trees having it."
pub struct Summed {
    pub shortest: Double,
    pub longest: Double,
    pub sum: Double,
}

/// "Added from 0 in tree order"; none if one of the trees has no length for it.
pub fn summed(trees: &[Tree], mask: u64) -> Option<Summed> {
    let having = trees.iter().filter(|tree| tree.splits.contains(&mask));
    let lengths: Vec<Double> = having.map(|tree| tree.lengths.get(&mask).copied()).collect::<Option<_>>()?;
    Some(Summed {
        shortest: lengths.iter().copied().min_by_key(|length| length.rank())?,
        longest: lengths.iter().copied().max_by_key(|length| length.rank())?,
        sum: lengths.into_iter().fold(Double::ZERO, Double::plus),
    })
}
