//! The fields of a store, right or wrong, from its bytes and to its bytes.

use crate::double::NO_LENGTH;
use crate::layout::{
    first_constant, head_number, name_bytes, name_length, second_constant, LANE_BYTES, LENGTHS_KEPT, MOST_LISTED,
    NAME_BYTES, RUN_OVER_ODD, SPLITS_HELD, TREES_HELD,
};
use crate::opening::Numbers;

#[derive(Clone)]
pub struct Parts {
    pub numbers: Numbers,
    /// The head's word for whether lengths are kept.
    pub kept: u64,
    pub names: Vec<Vec<u8>>,
    pub first: Vec<u64>,
    pub second: Vec<u64>,
    /// For each lane its length and the bytes that it holds.
    pub lanes: Vec<(u64, Vec<u8>)>,
    /// For each tree held the rows of its splits.
    pub lists: Vec<Vec<u64>>,
    /// For each of them the bits of their lengths, if lengths are kept.
    pub lengths: Vec<Vec<u64>>,
    // By row, for each split held
    pub masks: Vec<u64>,
    pub identifiers: Vec<u64>,
    pub counts: Vec<u64>,
    pub links: Vec<u64>,
    /// The rows, by the split's number.
    pub rows: Vec<u64>,
    /// For each place the highest row, and one more.
    pub starts: Vec<u64>,
}

impl Parts {
    /// None where a number is past its range, so that the fields cannot be told: such a store is not whole.
    pub fn read(bytes: &[u8]) -> Option<Parts> {
        let numbers = numbers_in(bytes)?;
        let n = numbers.taxa as usize;
        let trees = held(bytes, TREES_HELD, numbers.tree_room)?;
        let splits = held(bytes, SPLITS_HELD, numbers.split_room)?;
        let lists: Vec<Vec<u64>> = (0..trees).map(|tree| list_in(bytes, &numbers, tree)).collect::<Option<_>>()?;
        let kept = if numbers.lengths { &lists[..] } else { &[] };
        Some(Parts {
            numbers,
            kept: u64::from(numbers.lengths),
            names: (0..n).map(|taxon| name_in(bytes, taxon)).collect::<Option<_>>()?,
            first: (0..n).map(|taxon| first_constant(taxon).get(bytes)).collect(),
            second: (0..n).map(|taxon| second_constant(taxon).get(bytes)).collect(),
            lanes: (0..numbers.lanes as usize).map(|lane| lane_in(bytes, &numbers, lane)).collect::<Option<_>>()?,
            lengths: kept.iter().enumerate().map(|(tree, list)| lengths_in(bytes, &numbers, tree, list)).collect(),
            lists,
            masks: (0..splits).map(|row| numbers.mask(row).get(bytes)).collect(),
            identifiers: (0..splits).map(|row| numbers.identifier(row).get(bytes)).collect(),
            counts: (0..splits).map(|row| numbers.count(row).get(bytes)).collect(),
            links: (0..splits).map(|row| numbers.link(row).get(bytes)).collect(),
            rows: (0..splits).map(|split| numbers.numbered(split).get(bytes)).collect(),
            starts: (0..numbers.places as usize).map(|place| numbers.start(place).get(bytes)).collect(),
        })
    }

    /// Puts every field into its bytes; those that nothing uses keep their values.
    pub fn write(&self, bytes: &mut [u8]) {
        self.write_head(bytes);
        let numbers = &self.numbers;
        for (lane, (long, held)) in self.lanes.iter().enumerate() {
            numbers.lane_length(lane).put(bytes, *long);
            bytes[numbers.lane_bytes(lane)][..held.len()].copy_from_slice(held);
        }
        for (tree, list) in self.lists.iter().enumerate() {
            numbers.tree_length(tree).put(bytes, list.len() as u64);
            list.iter().enumerate().for_each(|(k, row)| numbers.tree_row(tree, k).put(bytes, *row));
        }
        self.write_lengths(bytes);
        for row in 0..self.masks.len() {
            numbers.mask(row).put(bytes, self.masks[row]);
            numbers.identifier(row).put(bytes, self.identifiers[row]);
            numbers.count(row).put(bytes, self.counts[row]);
            numbers.link(row).put(bytes, self.links[row]);
            numbers.numbered(row).put(bytes, self.rows[row]);
        }
        self.starts.iter().enumerate().for_each(|(place, start)| numbers.start(place).put(bytes, *start));
    }

    /// A split has none where too few are given.
    fn write_lengths(&self, bytes: &mut [u8]) {
        let kept = if self.numbers.lengths { &self.lists[..] } else { &[] };
        for (tree, list) in kept.iter().enumerate() {
            let given = self.lengths.get(tree).into_iter().flatten().copied();
            let lengths = given.chain(std::iter::repeat(NO_LENGTH)).take(list.len());
            lengths.enumerate().for_each(|(k, length)| self.numbers.length(tree, k).put(bytes, length));
        }
    }

    fn write_head(&self, bytes: &mut [u8]) {
        let Numbers { taxa, lanes, tree_room, split_room, places, .. } = self.numbers;
        let others = [self.lists.len() as u64, self.masks.len() as u64, self.kept];
        for (i, value) in [taxa, lanes, tree_room, split_room, places].into_iter().chain(others).enumerate() {
            head_number(i).put(bytes, value);
        }
        for (taxon, name) in self.names.iter().enumerate() {
            name_length(taxon).put(bytes, name.len() as u64);
            bytes[name_bytes(taxon)][..name.len()].copy_from_slice(name);
        }
        self.first.iter().enumerate().for_each(|(taxon, value)| first_constant(taxon).put(bytes, *value));
        self.second.iter().enumerate().for_each(|(taxon, value)| second_constant(taxon).put(bytes, *value));
    }
}

/// The opening's numbers and whether lengths are kept, if they are in range and "the lent bytes reach the size of these
/// numbers".
fn numbers_in(bytes: &[u8]) -> Option<Numbers> {
    if bytes.len() < head_number(8).at {
        return None;
    }
    let [taxa, lanes, tree_room, split_room, places] = [0, 1, 2, 3, 4].map(|i| head_number(i).get(bytes));
    let lengths = match head_number(LENGTHS_KEPT).get(bytes) {
        0 => false,
        1 => true,
        _ => return None,
    };
    let numbers = Numbers { taxa, lanes, tree_room, split_room, places, lengths };
    let size = numbers.size().ok()?;
    (size <= bytes.len() as u64).then_some(numbers)
}

/// "Rooms hold."
fn held(bytes: &[u8], number: usize, room: u64) -> Option<usize> {
    let held = head_number(number).get(bytes);
    (held <= room).then_some(held as usize)
}

fn name_in(bytes: &[u8], taxon: usize) -> Option<Vec<u8>> {
    let long = name_length(taxon).get(bytes) as usize;
    (long <= NAME_BYTES).then(|| bytes[name_bytes(taxon)][..long].to_vec())
}

/// "Each lane's length is in range." A lane that ran over holds no bytes.
fn lane_in(bytes: &[u8], numbers: &Numbers, lane: usize) -> Option<(u64, Vec<u8>)> {
    let long = numbers.lane_length(lane).get(bytes);
    let holds = if long as usize <= LANE_BYTES { long as usize } else { 0 };
    (long <= RUN_OVER_ODD).then(|| (long, bytes[numbers.lane_bytes(lane)][..holds].to_vec()))
}

fn list_in(bytes: &[u8], numbers: &Numbers, tree: usize) -> Option<Vec<u64>> {
    let long = numbers.tree_length(tree).get(bytes);
    (long <= MOST_LISTED).then(|| (0..long as usize).map(|k| numbers.tree_row(tree, k).get(bytes)).collect())
}

fn lengths_in(bytes: &[u8], numbers: &Numbers, tree: usize, list: &[u64]) -> Vec<u64> {
    (0..list.len()).map(|k| numbers.length(tree, k).get(bytes)).collect()
}
