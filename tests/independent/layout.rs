//! Where each field of a store lies: docs/STORE.md, byte by byte.

use crate::opening::Numbers;
use std::ops::Range;

/// The numbers of the head, by their order there.
pub const TREES_HELD: usize = 5;
pub const SPLITS_HELD: usize = 6;
pub const LENGTHS_KEPT: usize = 7;
/// The most splits of a tree's list.
pub const MOST_LISTED: u64 = 62;
/// The most bytes of a name.
pub const NAME_BYTES: usize = 32;
/// The length of a lane that ran over: with an even number of apostrophes in its text so far, and with an odd one.
pub const RUN_OVER: u64 = 4609;
pub const RUN_OVER_ODD: u64 = 4610;
/// The bytes that a lane has for its text.
pub const LANE_BYTES: usize = 4608;
/// The head's last bytes, which nothing uses.
pub const HEAD_SPARE: Range<usize> = 2768..4096;

const HEAD: usize = 4096;
const LANE: usize = 8 + LANE_BYTES;
const TREE: usize = 128;
const LENGTHS: usize = 512;

/// A number of 1, 2, 4 or 8 bytes, lowest first.
#[derive(Clone, Copy)]
pub struct Field {
    pub at: usize,
    pub width: usize,
}

impl Field {
    pub fn range(self) -> Range<usize> {
        self.at..self.at + self.width
    }

    pub fn get(self, bytes: &[u8]) -> u64 {
        bytes[self.range()].iter().rev().fold(0, |value, byte| value * 256 + u64::from(*byte))
    }

    pub fn put(self, bytes: &mut [u8], value: u64) {
        bytes[self.range()].copy_from_slice(&self.bytes_of(value));
    }

    /// The value as it stands in the field, cut to its width.
    pub fn bytes_of(self, value: u64) -> Vec<u8> {
        value.to_le_bytes()[..self.width].to_vec()
    }
}

// The head

pub fn head_number(i: usize) -> Field {
    Field { at: 2 * i, width: 2 }
}

pub fn name_length(taxon: usize) -> Field {
    Field { at: 16 + 33 * taxon, width: 1 }
}

pub fn name_bytes(taxon: usize) -> Range<usize> {
    let from = 17 + 33 * taxon;
    from..from + NAME_BYTES
}

pub fn first_constant(taxon: usize) -> Field {
    Field { at: 2128 + 2 * taxon, width: 2 }
}

pub fn second_constant(taxon: usize) -> Field {
    Field { at: 2256 + 8 * taxon, width: 8 }
}

// Behind the head: where things lie depends on the opening's numbers

impl Numbers {
    /// All bytes of a lane.
    pub fn lane(&self, lane: usize) -> Range<usize> {
        let from = HEAD + LANE * lane;
        from..from + LANE
    }

    pub fn lane_length(&self, lane: usize) -> Field {
        Field { at: self.lane(lane).start, width: 2 }
    }

    pub fn lane_bytes(&self, lane: usize) -> Range<usize> {
        let from = self.lane(lane).start + 8;
        from..from + LANE_BYTES
    }

    /// All bytes of a tree.
    pub fn tree(&self, tree: usize) -> Range<usize> {
        let from = self.lane(self.lanes as usize).start + TREE * tree;
        from..from + TREE
    }

    pub fn tree_length(&self, tree: usize) -> Field {
        Field { at: self.tree(tree).start, width: 2 }
    }

    pub fn tree_row(&self, tree: usize, k: usize) -> Field {
        Field { at: self.tree(tree).start + 2 + 2 * k, width: 2 }
    }

    pub fn mask(&self, row: usize) -> Field {
        Field { at: self.splits(0) + 8 * row, width: 8 }
    }

    pub fn identifier(&self, row: usize) -> Field {
        Field { at: self.splits(8) + 8 * row, width: 8 }
    }

    pub fn count(&self, row: usize) -> Field {
        Field { at: self.splits(16) + 4 * row, width: 4 }
    }

    pub fn link(&self, row: usize) -> Field {
        Field { at: self.splits(20) + 2 * row, width: 2 }
    }

    /// The row of the split with this number.
    pub fn numbered(&self, split: usize) -> Field {
        Field { at: self.splits(22) + 2 * split, width: 2 }
    }

    pub fn start(&self, place: usize) -> Field {
        Field { at: self.splits(24) + 2 * place, width: 2 }
    }

    /// Behind the places, where lengths are kept: that of the tree's k-th split.
    pub fn length(&self, tree: usize, k: usize) -> Field {
        Field { at: self.start(self.places as usize).at + LENGTHS * tree + 8 * k, width: 8 }
    }

    /// Behind the trees, and so many bytes for each split of room further on.
    fn splits(&self, bytes: usize) -> usize {
        self.tree(self.tree_room as usize).start + bytes * self.split_room as usize
    }
}
