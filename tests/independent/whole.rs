//! Whether a store is whole, what it holds, and the other way: the fields of a store that holds a collection.

use crate::collection::{Collection, Lane};
use crate::double::{Double, NO_LENGTH};
use crate::hash::{identifier, place};
use crate::layout::{RUN_OVER, RUN_OVER_ODD};
use crate::opening::{constants_fit, names_fit, Opening};
use crate::parts::Parts;
use crate::sets::{agree, is_proper, taxa_of, Taxa};
use crate::verdict::Tree;

/// What the bytes of a store hold; none if they are not whole.
pub fn held_in(bytes: &[u8]) -> Option<Collection> {
    let parts = Parts::read(bytes)?;
    parts.is_whole().then(|| parts.collection())
}

impl Parts {
    /// "Whole means", in the order of document 01; what `read` has tested is not tested again.
    fn is_whole(&self) -> bool {
        names_fit(&self.names, self.numbers.taxa)
            && constants_fit(&self.numbers, &self.first, &self.second)
            && self.masks_fit()
            && self.lists_fit()
            && self.counts == self.counted()
            && self.counts.iter().all(|count| *count >= 1)
            && self.identifiers == self.identified()
            && self.chains_fit()
            && self.lengths.iter().flatten().all(|length| *length == NO_LENGTH || is_stored(Double(*length)))
    }

    /// "Recorded masks are proper for n and all different"; by their numbers they rise.
    fn masks_fit(&self) -> bool {
        let n = self.numbers.taxa as u32;
        let is_there = |row: &u64| (*row as usize) < self.masks.len();
        self.rows.iter().all(is_there)
            && self.masks.iter().all(|mask| is_proper(&taxa_of(*mask), n))
            && rising(&self.rows.iter().map(|row| self.masks[*row as usize]).collect::<Vec<u64>>())
    }

    /// "Each tree lists recorded splits, rising and agreeing in pairs."
    fn lists_fit(&self) -> bool {
        let taxa: Vec<Taxa> = self.masks.iter().map(|mask| taxa_of(*mask)).collect();
        let agreeing = |list: &[u64]| {
            let sets: Vec<&Taxa> = list.iter().map(|row| &taxa[*row as usize]).collect();
            (0..sets.len()).all(|i| (0..i).all(|j| agree(sets[i], sets[j])))
        };
        let is_there = |row: &u64| (*row as usize) < self.masks.len();
        self.lists.iter().all(|list| list.iter().all(is_there) && rising(&self.masks_of(list)) && agreeing(list))
    }

    /// "Every split is met exactly once along its hash place": STORE.md leaves one way to chain the rows.
    fn chains_fit(&self) -> bool {
        let (starts, links) = self.chains();
        self.starts == starts && self.links == links
    }

    fn masks_of(&self, list: &[u64]) -> Vec<u64> {
        list.iter().map(|row| self.masks[*row as usize]).collect()
    }

    // What the other fields must be, given the masks and lists

    /// For each row the number of trees listing it.
    fn counted(&self) -> Vec<u64> {
        let mut counts = vec![0; self.masks.len()];
        for row in self.lists.iter().flatten() {
            counts[*row as usize] += 1;
        }
        counts
    }

    fn identified(&self) -> Vec<u64> {
        self.masks.iter().map(|mask| identifier(*mask, &self.second)).collect()
    }

    /// Starts and links: each row is put in front of the chain of its place.
    fn chains(&self) -> (Vec<u64>, Vec<u64>) {
        let mut starts = vec![0; self.numbers.places as usize];
        let mut links = Vec::new();
        for (row, mask) in self.masks.iter().enumerate() {
            let start = &mut starts[place(*mask, &self.first, self.numbers.places) as usize];
            links.push(std::mem::replace(start, row as u64 + 1));
        }
        (starts, links)
    }

    fn numbered(&self) -> Vec<u64> {
        let mut rows: Vec<u64> = (0..self.masks.len() as u64).collect();
        rows.sort_by_key(|row| self.masks[*row as usize]);
        rows
    }

    /// Makes these fields what the masks and lists ask for.
    pub fn derive(&mut self) {
        self.counts = self.counted();
        self.identifiers = self.identified();
        (self.starts, self.links) = self.chains();
        self.rows = self.numbered();
    }

    // A collection to its fields, and back

    /// The fields of a store that holds the collection, its splits recorded in this order.
    pub fn of(collection: &Collection, masks: Vec<u64>) -> Parts {
        let opening = collection.opening();
        let row_of = |mask: &u64| masks.iter().position(|m| m == mask).expect("every split is recorded") as u64;
        let lists = collection.trees().iter().map(|tree| tree.splits.iter().map(row_of).collect()).collect();
        let kept = if opening.numbers.lengths { collection.trees() } else { &[] };
        let mut parts = Parts {
            numbers: opening.numbers,
            kept: u64::from(opening.numbers.lengths),
            names: opening.names.clone(),
            first: opening.first.clone(),
            second: opening.second.clone(),
            lanes: collection.lanes().iter().map(lane_fields).collect(),
            lists,
            lengths: kept.iter().map(length_fields).collect(),
            masks,
            identifiers: Vec::new(),
            counts: Vec::new(),
            links: Vec::new(),
            rows: Vec::new(),
            starts: Vec::new(),
        };
        parts.derive();
        parts
    }

    fn collection(&self) -> Collection {
        let (names, first, second) = (self.names.clone(), self.first.clone(), self.second.clone());
        let opening = Opening { numbers: self.numbers, names, first, second };
        let trees = (0..self.lists.len()).map(|tree| self.tree(tree)).collect();
        Collection::holding(opening, trees, self.lanes.iter().map(lane_of).collect())
    }

    fn tree(&self, tree: usize) -> Tree {
        let masks = self.masks_of(&self.lists[tree]);
        let stored = self.lengths.get(tree).into_iter().flatten();
        let given = masks.iter().zip(stored).filter(|(_, length)| **length != NO_LENGTH);
        Tree {
            lengths: given.map(|(mask, length)| (*mask, Double(*length))).collect(),
            splits: masks.into_iter().collect(),
        }
    }
}

/// "Stored lengths to be finite and not minus zero."
fn is_stored(length: Double) -> bool {
    length.is_finite() && !length.is_minus_zero()
}

/// Of each split the bits of its length, or those for none.
fn length_fields(tree: &Tree) -> Vec<u64> {
    tree.splits.iter().map(|mask| tree.lengths.get(mask).map_or(NO_LENGTH, |length| length.0)).collect()
}

fn rising(masks: &[u64]) -> bool {
    masks.windows(2).all(|pair| pair[0] < pair[1])
}

fn lane_fields(lane: &Lane) -> (u64, Vec<u8>) {
    match lane {
        Lane::RunOver { odd: false } => (RUN_OVER, Vec::new()),
        Lane::RunOver { odd: true } => (RUN_OVER_ODD, Vec::new()),
        Lane::Holding(held) => (held.len() as u64, held.clone()),
    }
}

fn lane_of((long, held): &(u64, Vec<u8>)) -> Lane {
    match *long {
        RUN_OVER => Lane::RunOver { odd: false },
        RUN_OVER_ODD => Lane::RunOver { odd: true },
        _ => Lane::Holding(held.clone()),
    }
}
