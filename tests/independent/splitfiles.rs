//! Split files by chance, damaged ones, and calls on them.

use crate::maker::Maker;
use crate::random::Random;
use crate::sets::{is_proper, taxa_of};
use crate::splitfile::{file_of, records_of, Record, MOST, RECORD_BYTES};
use crate::words::hex;
use std::collections::BTreeSet;

/// The most files that are kept for calls behind them.
const MOST_KEPT: usize = 12;

impl Maker {
    /// The collection's splits as a file, asked for and kept.
    pub fn file(&mut self) -> Vec<u8> {
        self.ask("file");
        let file = self.held.file(usize::MAX).expect("a buffer of any length");
        keep(&mut self.kept, file.clone());
        file
    }

    /// The collection's file, and a few calls on it, on files kept from before, by chance and damaged.
    pub fn file_calls(&mut self) {
        self.file();
        for _ in 0..self.random.between(1, 3) {
            let line = some_file_line(&mut self.random, self.names.len(), &self.kept);
            self.ask(line);
        }
    }

    /// Each call on the collection's file and on that with a damage; and a merge with the file of the last questions. The
    /// same collections give the same calls.
    pub fn file_questions(&mut self) {
        let file = self.file();
        let mut other = file.clone();
        damage(&mut Random::new(file.iter().map(|byte| u64::from(*byte)).sum()), &mut other);
        self.calls_on_file(&file);
        self.calls_on_file(&other);
        self.ask(format!("merge {} {}", hex(&self.asked), hex(&file)));
        self.asked = file;
    }

    /// Each call on this file.
    pub fn calls_on_file(&mut self, file: &[u8]) {
        for line in ["records FILE", "merge FILE FILE", "file-strict FILE", "file-majority FILE"] {
            self.ask(line.replace("FILE", &hex(file)));
        }
    }
}

pub fn keep(kept: &mut Vec<Vec<u8>>, file: Vec<u8>) {
    kept.push(file);
    if kept.len() > MOST_KEPT {
        kept.remove(0);
    }
}

/// A call on files over so many taxa.
pub fn some_file_line(random: &mut Random, n: usize, kept: &[Vec<u8>]) -> String {
    let file = hex(&any_file(random, n, kept));
    match random.below(6) {
        0 => format!("records {file}"),
        1 => format!("file-strict {file}"),
        2 | 3 => format!("file-majority {file}"),
        _ => format!("merge {file} {}", hex(&any_file(random, n, kept))),
    }
}

/// The last one kept, any that is, or one by chance; damaged now and then.
fn any_file(random: &mut Random, n: usize, kept: &[Vec<u8>]) -> Vec<u8> {
    let mut file = match (random.below(4), kept) {
        (0, _) | (_, []) => some_file(random, n),
        (1, _) => random.pick(kept).clone(),
        (_, [.., last]) => last.clone(),
    };
    if random.one_in(5) {
        damage(random, &mut file);
    }
    file
}

// Files by chance

pub fn some_file(random: &mut Random, n: usize) -> Vec<u8> {
    let most = *random.pick(&[0, 1, 1, 2, 3, 10, 40]);
    let trees = some_trees(random);
    file_of(&some_records(random, n, most, trees))
}

/// At most so many records.
pub fn some_records(random: &mut Random, n: usize, most: usize, trees: u64) -> Vec<Record> {
    let mut masks = BTreeSet::new();
    for _ in 0..4 * most {
        if masks.len() < most {
            masks.insert(some_mask(random, n));
        }
    }
    masks.into_iter().map(|mask| Record { mask, count: some_count(random, trees), trees }).collect()
}

/// A proper one, of any taxa or of a few.
pub fn some_mask(random: &mut Random, n: usize) -> u64 {
    loop {
        let any = random.next() >> (64 - n) << 1 & every_bit(n);
        let few = any & random.next() & random.next();
        let mask = *random.pick(&[any, few]);
        if is_proper(&taxa_of(mask), n as u32) {
            return mask;
        }
    }
}

/// The mask of all taxa.
pub fn every_bit(n: usize) -> u64 {
    u64::MAX >> (64 - n)
}

pub fn some_trees(random: &mut Random) -> u64 {
    let any = random.between(1, MOST as usize) as u64;
    *random.pick(&[1, 1, 2, 3, 4, 5, 1024, 65_536, 1 << 31, MOST - 1, MOST, any])
}

/// From 1 to the trees, often all of them, half, or one more than half.
pub fn some_count(random: &mut Random, trees: u64) -> u64 {
    let any = random.between(1, trees as usize) as u64;
    (*random.pick(&[1, trees, trees, trees / 2, trees / 2 + 1, any])).clamp(1, trees)
}

// Damages

/// Nearly always another length, or a record that is improper or out of order.
pub fn damage(random: &mut Random, file: &mut Vec<u8>) {
    if file.is_empty() || random.one_in(3) {
        return damage_bytes(random, file);
    }
    let mut records = records_of(file).expect("a file");
    let (a, b) = (random.below(records.len()), random.below(records.len()));
    match random.below(7) {
        0 => records.swap(a, b),
        1 => records.insert(a, records[b]),
        2 => records[a].count = *random.pick(&[0, records[a].trees + 1, MOST]),
        3 => records[a].trees ^= 1 << random.below(32),
        4 => records[a].mask ^= 1 << random.below(64),
        5 => records[a].mask |= 1,
        _ => records[a].mask = *random.pick(&[0, 2, records[b].mask, u64::MAX - 1, 1 << 63]),
    }
    *file = file_of(&records);
}

fn damage_bytes(random: &mut Random, file: &mut Vec<u8>) {
    let at = random.between(0, file.len());
    match random.below(4) {
        0 => file.truncate(at),
        1 => file.insert(at, *random.pick(&[0, 1, 6, 255])),
        2 => file.extend([0; RECORD_BYTES]),
        _ => drop(file.pop()),
    }
}
