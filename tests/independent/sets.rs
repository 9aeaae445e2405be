//! Sets of taxa, and the masks that stand for them: bit i for taxon i.

use std::collections::BTreeSet;

pub type Taxa = BTreeSet<u32>;

pub fn taxa_of(mask: u64) -> Taxa {
    (0..64).filter(|i| mask >> i & 1 == 1).collect()
}

pub fn mask_of(taxa: &Taxa) -> u64 {
    let sum: u128 = taxa.iter().map(|i| 2u128.pow(*i)).sum();
    u64::try_from(sum).expect("at most 64 taxa")
}

pub fn every_taxon(n: u32) -> Taxa {
    (0..n).collect()
}

/// "The side WITHOUT taxon 0" of the split that parts a cluster from the other taxa.
pub fn side(cluster: &Taxa, n: u32) -> Taxa {
    if cluster.contains(&0) {
        every_taxon(n).difference(cluster).copied().collect()
    } else {
        cluster.clone()
    }
}

/// A side without taxon 0 whose split counts: both sides have two taxa or more.
pub fn is_proper(side: &Taxa, n: u32) -> bool {
    let inside = side.iter().all(|taxon| *taxon < n);
    inside && !side.contains(&0) && side.len() >= 2 && n as usize - side.len() >= 2
}

/// "No common bit or one mask lies within the other."
pub fn agree(a: &Taxa, b: &Taxa) -> bool {
    a.is_disjoint(b) || a.is_subset(b) || b.is_subset(a)
}
