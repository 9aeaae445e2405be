//! Random name lists and random trees, and their texts as tokens.

use crate::branches::any_length;
use crate::labels::{quoted, unquoted, MARKS};
use crate::random::Random;
use crate::text::is_label_byte;

/// A name as it reads.
pub type Name = Vec<u8>;
pub type Tokens = Vec<Vec<u8>>;

#[derive(Clone)]
pub enum Shape {
    Leaf(Name),
    Inner(Vec<Shape>),
}

/// How a text is dressed: one in so many nodes has a length, an inner label, blanks beside it, or quotes that it could
/// do without; and one in so many lengths is outside the exact range.
#[derive(Clone, Copy)]
pub struct Dress {
    pub lengths: usize,
    pub labels: usize,
    pub blanks: usize,
    pub quotes: usize,
    pub outside: usize,
}

/// Nothing but what must be there.
pub const BARE: Dress =
    Dress { lengths: usize::MAX, labels: usize::MAX, blanks: usize::MAX, quotes: usize::MAX, outside: usize::MAX };

const LABELS: [&str; 12] = [
    "x",
    "100",
    "0.95",
    "_",
    "1e5",
    "a-label-that-is-longer-than-any-name-may-be-in-the-list",
    "' '",
    "''''",
    "'0.95'",
    "'it''s [a] (label):'",
    "';'",
    "'a label that is longer than ''any'' name may be in the list;'",
];

// Names

/// Names that can be written without quotes, or as often such as mostly need them.
pub fn names(random: &mut Random, n: usize) -> Vec<Name> {
    let style = random.below(8);
    names_of_style(random, n, style)
}

/// Names that can be written without quotes.
pub fn plain_names(random: &mut Random, n: usize) -> Vec<Name> {
    let style = random.below(4);
    names_of_style(random, n, style)
}

fn names_of_style(random: &mut Random, n: usize, style: usize) -> Vec<Name> {
    let mut names: Vec<Name> = Vec::new();
    while names.len() < n {
        let name = match style {
            0 => numbered(names.len()),
            1 => repeated(names.len()),
            2 => strain(random),
            3 => some_name(random, any_plain_byte),
            4 => lettered(names.len()),
            5 => some_name(random, any_quoted_byte),
            6 => (0..random.between(1, 4)).map(|_| *random.pick(b" _'a")).collect(),
            _ => some_name(random, |random| *random.pick(b"''''''''''''''_ ;")),
        };
        if !names.contains(&name) {
            names.push(name);
        }
    }
    names
}

/// A, B, .. and then the next bytes that may stand in a label.
fn lettered(i: usize) -> Name {
    let bytes: Vec<u8> = (65..=126).chain(33..65).filter(|b| is_label_byte(*b)).collect();
    vec![bytes[i % bytes.len()]]
}

fn numbered(i: usize) -> Name {
    format!("t{i}").into_bytes()
}

/// Names that begin each other.
fn repeated(i: usize) -> Name {
    vec![b"aAb"[i / 32 % 3]; i % 32 + 1]
}

/// With blanks in it, at its ends too now and then.
fn strain(random: &mut Random) -> Name {
    let species = *random.pick(&["L. lactis", "L.  lactis", "St. thermophilus", " Lb. helveticus", "x"]);
    let behind = if random.one_in(4) { " " } else { "" };
    format!("{species} {}{behind}", random.below(200)).into_bytes()
}

/// A name of such bytes, up to the most that it may have.
fn some_name(random: &mut Random, byte: fn(&mut Random) -> u8) -> Name {
    let long = *random.pick(&[1, 2, 3, 8, 31, 32, 32]);
    (0..long).map(|_| byte(random)).collect()
}

/// One of the ways to write a name: without quotes where that can be, but once in so many times in quotes.
pub fn spelled(random: &mut Random, name: &[u8], often: usize) -> Vec<u8> {
    unquoted(name).filter(|_| !random.one_in(often)).unwrap_or_else(|| quoted(name))
}

/// One of the bytes that may stand in quotes, every third one a mark or a blank.
pub fn any_quoted_byte(random: &mut Random) -> u8 {
    match random.below(6) {
        0 => b' ',
        1 => *random.pick(MARKS),
        _ => random.between(32, 126) as u8,
    }
}

/// A label byte that reads as it is.
fn any_plain_byte(random: &mut Random) -> u8 {
    match any_label_byte(random) {
        b'_' => b'-',
        b => b,
    }
}

pub fn any_label_byte(random: &mut Random) -> u8 {
    loop {
        let b = random.between(33, 126) as u8;
        if is_label_byte(b) {
            return b;
        }
    }
}

// Trees

/// Joins leaves and nodes at random, up to so many at a time, until as many are left as the root has children.
pub fn shape(random: &mut Random, names: &[Name], most_children: usize) -> Shape {
    let mut parts: Vec<Shape> = names.iter().cloned().map(Shape::Leaf).collect();
    let at_root = random.between(2, 4).min(parts.len());
    while parts.len() > at_root {
        let spare = parts.len() - at_root + 1;
        let children = random.between(2, most_children.max(2)).min(spare);
        let joined = (0..children).map(|_| drawn(random, &mut parts)).collect();
        parts.push(Shape::Inner(joined));
    }
    let children = (0..parts.len()).map(|_| drawn(random, &mut parts)).collect();
    Shape::Inner(children)
}

fn drawn(random: &mut Random, parts: &mut Vec<Shape>) -> Shape {
    let at = random.below(parts.len());
    parts.swap_remove(at)
}

/// A tree of so many brackets, each inside the one before; names come again where there are too few.
pub fn ladder(random: &mut Random, names: &[Name], brackets: usize) -> Shape {
    let leaf = |i: usize| Shape::Leaf(names[i % names.len()].clone());
    let mut node = leaf(0);
    for i in 1..=brackets {
        let pair = if random.one_in(2) { vec![node, leaf(i)] } else { vec![leaf(i), node] };
        node = Shape::Inner(pair);
    }
    node
}

// Tokens

pub fn any_dress(random: &mut Random) -> Dress {
    let often = [1, 2, 5, 1000];
    let [labels, blanks, quotes] = [(); 3].map(|()| *random.pick(&often));
    let lengths = *random.pick(&[1, 1, 1, 2, 5, 1000]);
    let outside = *random.pick(&[usize::MAX, usize::MAX, usize::MAX, usize::MAX, 20]);
    Dress { lengths, labels, blanks, quotes, outside }
}

pub fn tokens(random: &mut Random, shape: &Shape, dress: Dress) -> Tokens {
    let mut out = match shape {
        Shape::Leaf(name) => vec![spelled(random, name, dress.quotes)],
        Shape::Inner(children) => bracketed(random, children, dress),
    };
    if random.one_in(dress.lengths) {
        out.push(b":".to_vec());
        out.push(any_length(random, dress.outside));
    }
    out
}

fn bracketed(random: &mut Random, children: &[Shape], dress: Dress) -> Tokens {
    let mut out = vec![b"(".to_vec()];
    for (i, child) in children.iter().enumerate() {
        if i > 0 {
            out.push(b",".to_vec());
        }
        out.extend(tokens(random, child, dress));
    }
    out.push(b")".to_vec());
    if random.one_in(dress.labels) {
        out.push(random.pick(&LABELS).as_bytes().to_vec());
    }
    out
}

/// The bytes of a text: blanks anywhere between tokens, and always between two labels.
pub fn joined(random: &mut Random, tokens: &Tokens, dress: Dress) -> Vec<u8> {
    let mut out: Vec<u8> = Vec::new();
    for token in tokens {
        let labels_meet = is_of_label(out.last()) && is_of_label(token.first());
        if labels_meet || random.one_in(dress.blanks) {
            out.extend(blanks(random));
        }
        out.extend(token);
    }
    if random.one_in(dress.blanks) {
        out.extend(blanks(random));
    }
    out
}

/// Whether a byte is one of a label, in quotes or without.
pub fn is_of_label(byte: Option<&u8>) -> bool {
    byte.is_some_and(|b| is_label_byte(*b) || *b == b'\'')
}

pub fn blanks(random: &mut Random) -> Vec<u8> {
    (0..random.between(1, 3)).map(|_| *random.pick(b" \t\r\n")).collect()
}

/// A text of a random tree over these names.
pub fn text(random: &mut Random, names: &[Name]) -> Vec<u8> {
    let most_children = *random.pick(&[2, 2, 3, 6]);
    let shape = shape(random, names, most_children);
    text_of(random, &shape)
}

pub fn text_of(random: &mut Random, shape: &Shape) -> Vec<u8> {
    let dress = any_dress(random);
    let tokens = tokens(random, shape, dress);
    joined(random, &tokens, dress)
}
