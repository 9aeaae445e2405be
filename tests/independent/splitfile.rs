//! Split files of entry 2026-06: "16-byte records, no header: mask (8, little-endian), count (4), trees (4, the same in
//! all)."

use crate::consensus::Counts;
use crate::sets::{agree, is_proper, taxa_of, Taxa};
use crate::verdict::Masks;

pub const RECORD_BYTES: usize = 16;
/// The largest number of 32 bits.
pub const MOST: u64 = 4_294_967_295;

/// As it stands in a file.
#[derive(Clone, Copy, PartialEq)]
pub struct Record {
    pub mask: u64,
    pub count: u64,
    pub trees: u64,
}

/// What a file holds: how many of the trees have each split. "An empty file has no known number of trees."
pub struct Splits {
    pub trees: Option<u64>,
    pub counts: Counts,
}

// Bytes

fn number(bytes: &[u8]) -> u64 {
    bytes.iter().rev().fold(0, |sum, byte| 256 * sum + u64::from(*byte))
}

fn put_number(out: &mut Vec<u8>, number: u64, bytes: u32) {
    out.extend((0..bytes).map(|i| (number / 256u64.pow(i) % 256) as u8));
}

/// 19 where the length is no multiple of 16.
pub fn records_of(file: &[u8]) -> Result<Vec<Record>, u32> {
    if file.len() % RECORD_BYTES != 0 {
        return Err(19);
    }
    let record =
        |bytes: &[u8]| Record { mask: number(&bytes[..8]), count: number(&bytes[8..12]), trees: number(&bytes[12..]) };
    Ok(file.chunks(RECORD_BYTES).map(record).collect())
}

pub fn file_of(records: &[Record]) -> Vec<u8> {
    let mut out = Vec::new();
    for record in records {
        put_number(&mut out, record.mask, 8);
        put_number(&mut out, record.count, 4);
        put_number(&mut out, record.trees, 4);
    }
    out
}

// Files

/// 19, then 20.
pub fn read(file: &[u8], taxa: u32) -> Result<Splits, u32> {
    let records = records_of(file)?;
    let trees = records.first().map(|record| record.trees);
    let proper = |record: &Record| {
        is_proper(&taxa_of(record.mask), taxa)
            && (1..=record.trees).contains(&record.count)
            && Some(record.trees) == trees
    };
    if !records.iter().all(proper) || !records.windows(2).all(|pair| pair[0].mask < pair[1].mask) {
        return Err(20);
    }
    Ok(Splits { trees, counts: records.iter().map(|record| (record.mask, record.count)).collect() })
}

/// Empty where there is no split.
pub fn write(splits: &Splits) -> Vec<u8> {
    let trees = splits.trees.unwrap_or(0);
    let records: Vec<Record> =
        splits.counts.iter().map(|(mask, count)| Record { mask: *mask, count: *count, trees }).collect();
    file_of(&records)
}

/// "Merged by adding counts and trees": 21 with an empty file, 22 for "a sum past 32 bits".
pub fn merge(first: &Splits, second: &Splits) -> Result<Splits, u32> {
    let (Some(a), Some(b)) = (first.trees, second.trees) else {
        return Err(21);
    };
    let mut counts = first.counts.clone();
    for (mask, count) in &second.counts {
        *counts.entry(*mask).or_insert(0) += count;
    }
    if a + b > MOST || counts.values().any(|count| *count > MOST) {
        return Err(22);
    }
    Ok(Splits { trees: Some(a + b), counts })
}

/// The splits that a rule takes: 14 of an empty file, 23 if "two chosen splits disagree".
pub fn chosen(splits: &Splits, rule: fn(&Counts, u64) -> Masks) -> Result<Masks, u32> {
    let masks = rule(&splits.counts, splits.trees.ok_or(14u32)?);
    if agree_in_pairs(&masks) {
        Ok(masks)
    } else {
        Err(23)
    }
}

/// Each with all before it.
fn agree_in_pairs(masks: &Masks) -> bool {
    let mut before: Vec<Taxa> = Vec::new();
    masks.iter().all(|mask| {
        let taxa = taxa_of(*mask);
        let agrees = before.iter().all(|other| agree(other, &taxa));
        before.push(taxa);
        agrees
    })
}
