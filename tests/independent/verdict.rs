//! The verdict on a text over the names: a refusal from 6 to 10 or 17, or its splits and their lengths.

use crate::double::Double;
use crate::length::value;
use crate::sets::{is_proper, mask_of, side, Taxa};
use crate::text::{read_text, Kind, Node};
use std::collections::{BTreeMap, BTreeSet};

/// "A text may now hold 4,608 bytes."
pub const MOST_BYTES: usize = 4608;

pub type Masks = BTreeSet<u64>;
/// The lengths of those splits that have one.
pub type Lengths = BTreeMap<u64, Double>;

#[derive(Clone, Default, PartialEq)]
pub struct Tree {
    pub splits: Masks,
    /// None where lengths are not kept.
    pub lengths: Lengths,
}

/// "A verdict checks 6, then 7 over all the text, then leaves from left to right for 8 or 9, then 10."
pub fn judge(names: &[Vec<u8>], text: &[u8]) -> Result<Masks, u32> {
    let root = checked(names, text)?;
    Ok(edges(names, &root).into_iter().map(|(mask, _)| mask).collect())
}

/// The same where lengths are kept: "17 any length in the text outside the exact range, after 10".
pub fn judge_with_lengths(names: &[Vec<u8>], text: &[u8]) -> Result<Tree, u32> {
    let root = checked(names, text)?;
    if tokens(&root).into_iter().any(|token| value(token).is_none()) {
        return Err(17);
    }
    Ok(tree_of(edges(names, &root)))
}

/// The root of a text that passes 6 to 10.
fn checked(names: &[Vec<u8>], text: &[u8]) -> Result<Node, u32> {
    if text.len() > MOST_BYTES {
        return Err(6);
    }
    let Ok(root) = read_text(text) else {
        return Err(7);
    };
    let found = taxa_of_leaves(names, &root)?;
    if found.len() < names.len() {
        return Err(10);
    }
    Ok(root)
}

// Leaves

/// The taxa of a node's leaves; 8 or 9 by the first faulty leaf.
fn taxa_of_leaves(names: &[Vec<u8>], root: &Node) -> Result<Taxa, u32> {
    let mut found = Taxa::new();
    for label in leaves(root) {
        let taxon = taxon_named(names, label).ok_or(8u32)?;
        if !found.insert(taxon) {
            return Err(9);
        }
    }
    Ok(found)
}

/// The leaf labels from left to right.
fn leaves(node: &Node) -> Vec<&Vec<u8>> {
    match &node.kind {
        Kind::Leaf(label) => vec![label],
        Kind::Inner(children) => children.iter().flat_map(leaves).collect(),
    }
}

/// Leaf labels match names by equal bytes, both as they read.
fn taxon_named(names: &[Vec<u8>], label: &[u8]) -> Option<u32> {
    let at = names.iter().position(|name| name == label)?;
    u32::try_from(at).ok()
}

// Splits and lengths

/// Every length of a text, that of the root too.
fn tokens(node: &Node) -> Vec<&Vec<u8>> {
    let below = match &node.kind {
        Kind::Leaf(_) => Vec::new(),
        Kind::Inner(children) => children.iter().flat_map(tokens).collect(),
    };
    below.into_iter().chain(&node.length).collect()
}

/// An edge's mask, and the node that hangs on it.
type Edge<'a> = (u64, &'a Node);

/// Every node but the root hangs on an edge; cutting it parts the node's taxa from the others. Only edges whose split
/// counts; where a root has two children they give one split, and so two edges.
fn edges<'a>(names: &[Vec<u8>], root: &'a Node) -> Vec<Edge<'a>> {
    let n = u32::try_from(names.len()).expect("at most 64 names");
    let mut edges = Vec::new();
    gather(names, n, root, &mut edges);
    edges
}

fn gather<'a>(names: &[Vec<u8>], n: u32, node: &'a Node, edges: &mut Vec<Edge<'a>>) {
    let Kind::Inner(children) = &node.kind else {
        return;
    };
    for child in children {
        let cluster: Taxa = leaves(child).into_iter().filter_map(|label| taxon_named(names, label)).collect();
        let side = side(&cluster, n);
        if is_proper(&side, n) {
            edges.push((mask_of(&side), child));
        }
        gather(names, n, child, edges);
    }
}

/// "A two-child root's single split has the sum of both lengths, or none if either has none."
fn tree_of(edges: Vec<Edge>) -> Tree {
    let mut lengths: BTreeMap<u64, Option<Double>> = BTreeMap::new();
    for (mask, node) in edges {
        let length = node.length.as_deref().and_then(value);
        let both = |first: &Option<Double>| Some(first.as_ref()?.plus(length?));
        let sum = lengths.get(&mask).map_or(length, both);
        lengths.insert(mask, sum);
    }
    let splits = lengths.keys().copied().collect();
    Tree { splits, lengths: lengths.into_iter().filter_map(|(mask, length)| Some((mask, length?))).collect() }
}
