//! The opening: its numbers, its name list, its constants, and the checks 2, 3 and 4.

use crate::labels::{label, split_outside};
use std::collections::BTreeSet;

#[derive(Clone, Copy, PartialEq)]
pub struct Numbers {
    pub taxa: u64,
    pub lanes: u64,
    pub tree_room: u64,
    pub split_room: u64,
    pub places: u64,
    /// "Opening says whether lengths are kept."
    pub lengths: bool,
}

#[derive(PartialEq)]
pub struct Opening {
    pub numbers: Numbers,
    /// As they read.
    pub names: Vec<Vec<u8>>,
    pub first: Vec<u64>,
    pub second: Vec<u64>,
}

impl Numbers {
    /// The table of least and most.
    fn in_range(&self) -> bool {
        (4..=64).contains(&self.taxa)
            && (1..=8).contains(&self.lanes)
            && (1..=1024).contains(&self.tree_room)
            && (1..=4096).contains(&self.split_room)
            && (1..=2 * self.split_room).contains(&self.places)
    }

    /// The bytes that a store of these numbers takes; "numbers out of range it refuses with 2".
    pub fn size(&self) -> Result<u64, u32> {
        if !self.in_range() {
            return Err(2);
        }
        let tree = if self.lengths { 128 + 512 } else { 128 };
        Ok(4096 + 4616 * self.lanes + tree * self.tree_room + 24 * self.split_room + 2 * self.places)
    }
}

/// "Opening checks 2, 3, 4."
pub fn open(numbers: Numbers, name_list: &[u8], first: &[u64], second: &[u64], lent: u64) -> Result<Opening, u32> {
    let size = numbers.size()?;
    if !constants_fit(&numbers, first, second) {
        return Err(2);
    }
    let names = names_of(name_list, numbers.taxa).ok_or(3u32)?;
    if lent < size {
        return Err(4);
    }
    Ok(Opening { numbers, names, first: first.to_vec(), second: second.to_vec() })
}

/// Both lists are n long, and "the first list's constants are below m".
pub fn constants_fit(numbers: &Numbers, first: &[u64], second: &[u64]) -> bool {
    let long = |list: &[u64]| list.len() as u64 == numbers.taxa;
    long(first) && long(second) && first.iter().all(|c| *c < numbers.places)
}

/// "One space between, none at the ends"; the spaces of quoted names "neither part names nor are counted".
pub fn names_of(list: &[u8], taxa: u64) -> Option<Vec<Vec<u8>>> {
    let names: Vec<Vec<u8>> = split_outside(list, b' ').into_iter().map(label).collect::<Option<_>>()?;
    names_fit(&names, taxa).then_some(names)
}

/// As many names as taxa, of 1 to 32 bytes that a label can read as, all different.
pub fn names_fit(names: &[Vec<u8>], taxa: u64) -> bool {
    let different: BTreeSet<&Vec<u8>> = names.iter().collect();
    let fit = |name: &Vec<u8>| (1..=32).contains(&name.len()) && name.iter().all(|b| (32..=126).contains(b));
    names.len() as u64 == taxa && different.len() == names.len() && names.iter().all(fit)
}
