//! Generated inputs: texts for `read` and sheets for `treesum`.

use crate::damage::KINDS;
use crate::grow::{any_dress, joined, names, shape, spelled, text, text_of, tokens, Dress, Name, Shape};
use crate::labels::{is_odd, written_names};
use crate::random::Random;
use crate::words::{comma_list, hex};

/// The head and so many texts, every second one of the next faulty kind.
pub fn texts(seed: u64, count: usize) -> Vec<u8> {
    let mut random = Random::new(seed);
    let names = some_names(&mut random);
    let places = some_places(&mut random, 4096);
    let mut lines = vec![String::from_utf8(any_name_list(&mut random, &names)).expect("names are ASCII")];
    lines.push(comma_list(&first_constants(&mut random, names.len(), places)));
    lines.push(places.to_string());
    lines.push(comma_list(&second_constants(&mut random, names.len())));
    for i in 0..count {
        let text = if i % 2 == 0 { text(&mut random, &names) } else { KINDS[i / 2 % KINDS.len()](&mut random, &names) };
        lines.push(hex(&text));
    }
    lines.iter().flat_map(|line| format!("{line}\n").into_bytes()).collect()
}

/// A name line and so many texts for `treesum`.
pub fn sheet(seed: u64, count: usize) -> Vec<u8> {
    let mut random = Random::new(seed);
    let names = some_names(&mut random);
    let pool = some_shapes(&mut random, &names);
    let mut out = any_name_list(&mut random, &names);
    if random.one_in(8) {
        damage_names(&mut random, &mut out);
    }
    out.push(b'\n');
    for _ in 0..count {
        out.extend(one_text(&mut random, &names, &pool));
        out.extend(*random.pick(&[&b";\n"[..], b";\n", b";", b" ;\r\n"]));
    }
    if random.one_in(4) {
        out.truncate(out.len() - random.below(out.len().min(40)));
    }
    out
}

// Names and constants

pub fn some_names(random: &mut Random) -> Vec<Name> {
    let n = *random.pick(&[4, 4, 5, 5, 6, 7, 8, 10, 16, 33, 63, 64]);
    names(random, n)
}

/// With the names as they are written.
pub fn name_list(names: &[Name]) -> Vec<u8> {
    written_names(names, b' ')
}

/// With more quotes than must be.
pub fn any_name_list(random: &mut Random, names: &[Name]) -> Vec<u8> {
    let often = *random.pick(&[1, 3, 1000]);
    let labels: Vec<Vec<u8>> = names.iter().map(|name| spelled(random, name, often)).collect();
    labels.join(&b' ')
}

pub fn damage_names(random: &mut Random, list: &mut Vec<u8>) {
    let at = random.below(list.len());
    match random.below(3) {
        0 => list.insert(at, *random.pick(b" \r,x'\t")),
        1 => drop(list.remove(at)),
        _ => list.truncate(at),
    }
}

pub fn some_places(random: &mut Random, split_room: usize) -> u64 {
    let most = 2 * split_room;
    let some = random.between(1, most);
    (*random.pick(&[1, 2, 7, most, some])).min(most) as u64
}

pub fn first_constants(random: &mut Random, n: usize, places: u64) -> Vec<u64> {
    let style = random.below(4);
    (0..n).map(|_| if style == 0 { 0 } else { random.next() % places }).collect()
}

pub fn second_constants(random: &mut Random, n: usize) -> Vec<u64> {
    let style = random.below(4);
    let one = |random: &mut Random| match style {
        0 => 0,
        1 => random.next() % 3,
        2 => u64::MAX - random.next() % 3,
        _ => random.next(),
    };
    (0..n).map(|_| one(random)).collect()
}

// Texts that have splits in common

pub fn some_shapes(random: &mut Random, names: &[Name]) -> Vec<Shape> {
    let most_children = *random.pick(&[2, 3, 6]);
    (0..random.between(1, 5)).map(|_| shape(random, names, most_children)).collect()
}

/// A text over the names, mostly one of the pool's trees.
pub type Texts = fn(&mut Random, &[Name], &[Shape]) -> Vec<u8>;

/// Else a new one or a faulty text.
pub fn one_text(random: &mut Random, names: &[Name], pool: &[Shape]) -> Vec<u8> {
    let text = match random.below(8) {
        0 => text(random, names),
        1 => random.pick(&KINDS)(random, names),
        _ => {
            let shape = random.pick(pool);
            text_of(random, shape)
        }
    };
    closed(random, text)
}

/// With a length for every node, mostly in the exact range; else a faulty text.
pub fn measured_text(random: &mut Random, names: &[Name], pool: &[Shape]) -> Vec<u8> {
    let text = match random.below(12) {
        0 => random.pick(&KINDS)(random, names),
        _ => {
            let outside = *random.pick(&[usize::MAX, usize::MAX, usize::MAX, usize::MAX, usize::MAX, 30]);
            let dress = Dress { lengths: 1, outside, ..any_dress(random) };
            let shape = random.pick(pool);
            let tokens = tokens(random, shape, dress);
            joined(random, &tokens, dress)
        }
    };
    closed(random, text)
}

/// Either of them, for all texts of a script.
pub fn some_texts(random: &mut Random) -> Texts {
    *random.pick(&[one_text as Texts, measured_text])
}

/// Quotes that are left open are mostly closed at the end of a text, as they would hide the texts behind it.
fn closed(random: &mut Random, mut text: Vec<u8>) -> Vec<u8> {
    if is_odd(&text) && !random.one_in(5) {
        text.push(b'\'');
    }
    text
}
