//! `edges`: what the functions of the crates `fields` and `masks` must answer on values at their edges, by
//! definition: bytes as digits of base 256, masks as sets of taxa. The lines are those of the crate `edges`.

use crate::sets::{agree, every_taxon, is_proper, mask_of, side, taxa_of};

const LONG: usize = 12;

const NUMBERS64: [u64; 9] = [0, 1, 2, 3, 255, 1 << 32, 1 << 63, (1 << 63) + 1, u64::MAX];
const NUMBERS32: [u64; 9] = [0, 1, 2, 3, 255, 65536, 1 << 31, (1 << 31) + 1, u32::MAX as u64];
const NUMBERS16: [u64; 9] = [0, 1, 2, 3, 255, 256, 1 << 15, (1 << 15) + 1, u16::MAX as u64];

const MASKS: [u64; 12] = [0, 1, 2, 3, 20, 24, 28, u64::MAX / 3, 1 << 63, (1 << 63) + 1, u64::MAX - 1, u64::MAX];
const LIMITS: [u64; 12] =
    [6, 7, 10, 12, 14, 28, 30, (1 << 63) - 4, (1 << 63) - 2, (1 << 63) + 2, u64::MAX - 3, u64::MAX - 1];

pub fn edges() -> Vec<String> {
    let mut out = Vec::new();
    numbers(&mut out);
    runs(&mut out);
    masks(&mut out);
    out
}

// Numbers in bytes, the lowest byte first

fn numbers(out: &mut Vec<String>) {
    for row in 0..9 {
        for (width, v, offsets) in
            [(8, NUMBERS64[row], [0, 2, 4]), (4, NUMBERS32[row], [0, 3, 8]), (2, NUMBERS16[row], [0, 5, 10])]
        {
            for at in offsets {
                there_and_back(out, width, at, v);
            }
        }
    }
}

fn there_and_back(out: &mut Vec<String>, width: usize, at: usize, v: u64) {
    let bits = 8 * width;
    let before = vec![165u8; LONG];
    let after = put(&before, width, at, v);
    out.push(format!("put{bits} {} {at} {v} = {}", shown(&before), shown(&after)));
    out.push(format!("get{bits} {} {at} = {}", shown(&after), get(&after, width, at)));
}

fn put(buffer: &[u8], width: usize, at: usize, v: u64) -> Vec<u8> {
    let digit = |k: usize| (u128::from(v) / 256u128.pow(k as u32) % 256) as u8;
    let inside = |i: usize| at <= i && i < at + width;
    (0..buffer.len()).map(|i| if inside(i) { digit(i - at) } else { buffer[i] }).collect()
}

fn get(buffer: &[u8], width: usize, at: usize) -> u128 {
    (0..width).map(|k| u128::from(buffer[at + k]) * 256u128.pow(k as u32)).sum()
}

// Runs of bytes

const RUNS_WITHIN: [(usize, usize, usize); 16] = [
    (1, 0, 11),
    (5, 2, 4),
    (6, 2, 4),
    (11, 0, 1),
    (0, 1, 11),
    (2, 5, 4),
    (2, 6, 4),
    (0, 11, 1),
    (0, 0, 12),
    (3, 3, 4),
    (0, 0, 0),
    (4, 9, 0),
    (9, 4, 0),
    (12, 12, 0),
    (0, 12, 0),
    (12, 0, 0),
];
const RUNS_FROM: [(usize, usize, usize); 6] = [(0, 0, 6), (6, 0, 6), (3, 2, 4), (11, 5, 1), (0, 0, 0), (12, 6, 0)];
const RUNS_CLEARED: [(usize, usize); 7] = [(0, 12), (0, 1), (11, 1), (4, 3), (0, 0), (5, 0), (12, 0)];

fn runs(out: &mut Vec<String>) {
    let buffer: Vec<u8> = (1..=12).collect();
    let other = [0, 255, 128, 127, 254, 200];
    for (from, to, n) in RUNS_WITHIN {
        let after = copied(&buffer, to, &buffer, from, n);
        out.push(format!("copy_within {} {from} {to} {n} = {}", shown(&buffer), shown(&after)));
    }
    for (to, from, n) in RUNS_FROM {
        let after = copied(&buffer, to, &other, from, n);
        let arguments = format!("{} {to} {} {from} {n}", shown(&buffer), shown(&other));
        out.push(format!("copy_from {arguments} = {}", shown(&after)));
    }
    for (at, n) in RUNS_CLEARED {
        let after = copied(&buffer, at, &[0; LONG], 0, n);
        out.push(format!("clear_run {} {at} {n} = {}", shown(&buffer), shown(&after)));
    }
}

/// Every byte of the result by itself: of the source inside the run, else as before.
fn copied(buffer: &[u8], to: usize, source: &[u8], from: usize, n: usize) -> Vec<u8> {
    let inside = |i: usize| to <= i && i < to + n;
    (0..buffer.len()).map(|i| if inside(i) { source[from + i - to] } else { buffer[i] }).collect()
}

fn shown(buffer: &[u8]) -> String {
    let words: Vec<String> = buffer.iter().map(u8::to_string).collect();
    words.join(" ")
}

// Masks

fn masks(out: &mut Vec<String>) {
    for row in 0..12 {
        alone(out, MASKS[row]);
        for b in MASKS {
            pair(out, MASKS[row], b);
        }
        proper(out, MASKS[row]);
        proper(out, LIMITS[row]);
    }
    for n in [0, 1, 4, 5, 63, 64] {
        out.push(format!("every_taxon {n} = {}", mask_of(&every_taxon(n))));
    }
    for i in [0, 1, 31, 32, 62, 63] {
        out.push(format!("only_taxon {i} = {}", mask_of(&[i].into())));
    }
    sides(out);
}

fn alone(out: &mut Vec<String>, m: u64) {
    let taxa = taxa_of(m);
    out.push(format!("count_taxa {m} = {}", taxa.len()));
    out.push(format!("lowest_taxon {m} = {}", taxa.first().unwrap_or(&0)));
    for i in [0, 1, 2, 31, 32, 62, 63] {
        out.push(format!("has_taxon {m} {i} = {}", truth(taxa.contains(&i))));
    }
}

fn pair(out: &mut Vec<String>, a: u64, b: u64) {
    let (of_a, of_b) = (taxa_of(a), taxa_of(b));
    let union = of_a.union(&of_b).copied().collect();
    let without = of_a.difference(&of_b).copied().collect();
    out.push(format!("agree {a} {b} = {}", truth(agree(&of_a, &of_b))));
    out.push(format!("is_within {a} {b} = {}", truth(of_a.is_subset(&of_b))));
    out.push(format!("are_apart {a} {b} = {}", truth(of_a.is_disjoint(&of_b))));
    out.push(format!("comes_before {a} {b} = {}", truth(a < b)));
    out.push(format!("is_same {a} {b} = {}", truth(of_a == of_b)));
    out.push(format!("union_of {a} {b} = {}", mask_of(&union)));
    out.push(format!("taxa_without {a} {b} = {}", mask_of(&without)));
}

fn proper(out: &mut Vec<String>, m: u64) {
    for n in [0, 3, 4, 5, 63, 64, 65] {
        out.push(format!("is_proper {m} {n} = {}", truth(is_proper(&taxa_of(m), n))));
    }
}

fn sides(out: &mut Vec<String>) {
    let all63 = (1 << 63) - 1;
    let of5 = [(0, 0), (0, 4), (3, 4), (12, 4), (15, 4), (11, 5), (20, 5), (1, 63), (all63, 63)];
    let of64 = [1, 1 << 63, (1 << 63) + 1, u64::MAX - 1, u64::MAX].map(|m| (m, 64));
    for (m, n) in of5.into_iter().chain(of64) {
        out.push(format!("side {m} {n} = {}", mask_of(&side(&taxa_of(m), n))));
    }
}

fn truth(b: bool) -> u8 {
    u8::from(b)
}
