//! Trees with given splits, rooted at any place, and the splits that could join them.

use crate::consensus::children;
use crate::grow::{Name, Shape};
use crate::random::Random;
use crate::sets::{every_taxon, is_proper, mask_of, side, taxa_of, Taxa};
use crate::verdict::Masks;

/// A place where a tree can be rooted.
#[derive(Clone)]
pub struct Root {
    /// The taxa on one side of an edge.
    side: Taxa,
    /// Whether the root parts the edge, and so has two children; else it is the node on the edge's other side.
    parts_edge: bool,
}

/// On every edge, and at every node that is no leaf; some come twice.
pub fn every_root(n: usize, splits: &Masks) -> Vec<Root> {
    let all = every_taxon(n as u32);
    let leaves = all.iter().map(|taxon| Taxa::from([*taxon]));
    let both = splits.iter().flat_map(|mask| sides(&all, *mask));
    let on_and_at = |side: Taxa| [true, false].map(|parts_edge| Root { side: side.clone(), parts_edge });
    leaves.chain(both).flat_map(on_and_at).collect()
}

/// Both sides of a split.
fn sides(all: &Taxa, mask: u64) -> [Taxa; 2] {
    let one = taxa_of(mask);
    let other = without(all, &one);
    [one, other]
}

fn without(all: &Taxa, some: &Taxa) -> Taxa {
    all.difference(some).copied().collect()
}

/// The tree with exactly these splits: of each the side that the root is not on.
pub fn rooted(names: &[Name], splits: &Masks, root: &Root) -> Shape {
    let all = every_taxon(names.len() as u32);
    let other = without(&all, &root.side);
    let clusters: Vec<Taxa> = splits.iter().flat_map(|mask| sides(&all, *mask)).chain([root.side.clone()]).collect();
    let below = |cluster: &Taxa| cluster.is_subset(&root.side) || cluster.is_subset(&other) && *cluster != other;
    let mut clusters: Vec<Taxa> = clusters.into_iter().filter(below).collect();
    if root.parts_edge {
        clusters.push(other);
    }
    node(names, &all, &clusters)
}

fn node(names: &[Name], taxa: &Taxa, clusters: &[Taxa]) -> Shape {
    match taxa.first() {
        Some(only) if taxa.len() == 1 => Shape::Leaf(names[*only as usize].clone()),
        _ => Shape::Inner(children(taxa, clusters).iter().map(|child| node(names, child, clusters)).collect()),
    }
}

/// The children of every node in any order.
pub fn turned(random: &mut Random, shape: Shape) -> Shape {
    match shape {
        Shape::Leaf(name) => Shape::Leaf(name),
        Shape::Inner(mut children) => {
            random.shuffle(&mut children);
            Shape::Inner(children.into_iter().map(|child| turned(random, child)).collect())
        }
    }
}

/// The splits that join two neighbours at a node: each agrees with all of these, and is none of them.
pub fn further_splits(n: usize, splits: &Masks) -> Vec<u64> {
    let n = n as u32;
    let clusters: Vec<Taxa> = splits.iter().map(|mask| taxa_of(*mask)).collect();
    let mut further = Masks::new();
    for node in clusters.iter().chain([&every_taxon(n)]) {
        let children = children(node, &clusters);
        for (i, a) in children.iter().enumerate() {
            further.extend(
                children[..i].iter().map(|b| side(&(a | b), n)).filter(|s| is_proper(s, n)).map(|s| mask_of(&s)),
            );
        }
    }
    further.difference(splits).copied().collect()
}

/// With further splits by chance until there is none.
pub fn resolved(random: &mut Random, n: usize, splits: &Masks) -> Masks {
    let mut splits = splits.clone();
    loop {
        let further = further_splits(n, &splits);
        if further.is_empty() {
            return splits;
        }
        splits.insert(*random.pick(&further));
    }
}
