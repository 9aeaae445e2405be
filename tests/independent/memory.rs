//! The lent memory, as far as its bytes are known.

use std::ops::Range;

pub const MOST_LENT: u64 = 8_388_608;
const LENT_BYTE: u8 = 165;

pub struct Memory {
    /// `None` where a call may have written what document 01 leaves open.
    bytes: Vec<Option<u8>>,
}

impl Memory {
    /// Freshly lent.
    pub fn lent(n: usize) -> Memory {
        Memory { bytes: vec![Some(LENT_BYTE); n] }
    }

    pub fn size(&self) -> usize {
        self.bytes.len()
    }

    /// The n bytes from `at`, if they lie inside.
    pub fn inside(&self, at: u64, n: u64) -> Option<Range<usize>> {
        let end = u128::from(at) + u128::from(n);
        (end <= self.bytes.len() as u128).then_some(at as usize..end as usize)
    }

    pub fn write(&mut self, at: usize, bytes: &[u8]) {
        for (place, byte) in self.bytes[at..].iter_mut().zip(bytes) {
            *place = Some(*byte);
        }
    }

    pub fn forget(&mut self, range: Range<usize>) {
        self.bytes[range].fill(None);
    }

    /// Takes over the bytes that were not known; answers whether there were any.
    pub fn learn(&mut self, at: usize, bytes: &[u8]) -> bool {
        let mut learnt = false;
        for (place, byte) in self.bytes[at..].iter_mut().zip(bytes) {
            if place.is_none() {
                *place = Some(*byte);
                learnt = true;
            }
        }
        learnt
    }

    /// The bytes of a range, if all are known.
    pub fn known(&self, range: Range<usize>) -> Option<Vec<u8>> {
        self.bytes[range].iter().copied().collect()
    }
}
