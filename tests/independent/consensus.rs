//! Strict and majority splits, and the written tree.

use crate::labels::written_name;
use crate::sets::{every_taxon, taxa_of, Taxa};
use crate::verdict::Masks;
use std::collections::BTreeMap;

pub type Counts = BTreeMap<u64, u64>;

/// "Strict if all t trees have it."
pub fn strict(counts: &Counts, trees: u64) -> Masks {
    chosen(counts, |count| count == trees)
}

/// "Majority if twice its count is more than t."
pub fn majority(counts: &Counts, trees: u64) -> Masks {
    chosen(counts, |count| 2 * count > trees)
}

fn chosen(counts: &Counts, rule: impl Fn(u64) -> bool) -> Masks {
    counts.iter().filter(|(_, count)| rule(**count)).map(|(mask, _)| *mask).collect()
}

/// The tree with exactly these splits: taxon 0 at the root, children by their smallest taxon, and a semicolon.
pub fn written(names: &[Vec<u8>], splits: &Masks) -> Vec<u8> {
    let all = every_taxon(names.len() as u32);
    let clusters: Vec<Taxa> = splits.iter().map(|mask| taxa_of(*mask)).collect();
    let mut out = written_node(names, &all, &clusters);
    out.push(b';');
    out
}

/// A node with these taxa below it.
fn written_node(names: &[Vec<u8>], taxa: &Taxa, clusters: &[Taxa]) -> Vec<u8> {
    if taxa.len() == 1 {
        return written_name(&names[*taxa.first().expect("one taxon") as usize]);
    }
    let children = children(taxa, clusters);
    let parts: Vec<Vec<u8>> = children.iter().map(|child| written_node(names, child, clusters)).collect();
    let mut out = vec![b'('];
    out.extend(parts.join(&b','));
    out.push(b')');
    out
}

/// For each taxon from the smallest, the largest cluster inside the node that has it, or it alone; each once.
pub fn children(taxa: &Taxa, clusters: &[Taxa]) -> Vec<Taxa> {
    let inside: Vec<&Taxa> = clusters.iter().filter(|c| c.is_subset(taxa) && c.len() < taxa.len()).collect();
    let mut children: Vec<Taxa> = Vec::new();
    for taxon in taxa {
        let with_it = inside.iter().filter(|c| c.contains(taxon)).max_by_key(|c| c.len());
        let child = with_it.map_or_else(|| Taxa::from([*taxon]), |c| (*c).clone());
        if !children.contains(&child) {
            children.push(child);
        }
    }
    children
}
