//! NEXUS files by chance: every part optional, keys of every kind, blanks and comments at any place, words in any case.

use crate::generator::one_text;
use crate::grow::{any_label_byte, blanks, is_of_label, spelled, Name, Shape};
use crate::labels::{first_outside, is_odd, unquoted};
use crate::nexus::{with_labels, MOST_KEYS};
use crate::random::Random;
use crate::text::{is_blank, is_label_byte};

/// Keys, and names as they are written.
pub type Pairs = Vec<(Vec<u8>, Vec<u8>)>;
/// What stands in a file, between any two of which blanks and comments may stand.
pub type FileParts = Vec<Vec<u8>>;

const COMMENTS: [&[u8]; 13] = [
    b"[]",
    b"[&U]",
    b"[&R]",
    b"[ a comment ]",
    b"[&prob=1.0,length={0.1,0.2}]",
    b"[[]",
    b"[;]",
    b"[END;]",
    b"[']",
    b"['';']",
    b"[(:=,)]",
    b"[\0\xff]",
    b"[#NEXUS\r\nBEGIN TREES;\r\n]",
];

/// What another block may hold; none of it ends the block.
const JUNK: [&[u8]; 17] = [
    b"DIMENSIONS NTAX=4;",
    b"TAXLABELS A 'B b' C_c D;",
    b"FORMAT datatype=DNA gap=- ;",
    b"FRIEND;",
    b"ENDBLOCK;",
    b"END x;",
    b"=END;",
    b"BEGIN TREES;",
    b"TREE t = (A,B);",
    b"]",
    b"'['",
    b"('END;')",
    b"'it''s; END;'",
    b"''",
    b"END'x';",
    b"'\t\n\0\xff'",
    b"\0\x80\xff",
];

const BLOCKS: [&str; 8] = ["TAXA", "DATA", "CHARACTERS", "END", "TREE", "TREES2", "#NEXUS", "="];
const TREE_NAMES: [&str; 9] = ["t", "gen.0", "PAUP_1", "STATE_0", "*", "TREE", "END", "translate", "1"];

/// What a file is made of.
pub struct File {
    pub blocks_before: usize,
    pub pairs: Pairs,
    /// As they stand in the file.
    pub texts: Vec<Vec<u8>>,
    pub blocks_behind: usize,
}

/// A file that mostly is good; its texts are such as lanes are fed.
pub fn any_file(random: &mut Random, names: &[Name], pool: &[Shape]) -> Vec<u8> {
    let most = *random.pick(&[1, 3, 3, 12]);
    let texts: Vec<Vec<u8>> = (0..random.between(0, most)).map(|_| one_text(random, names, pool)).collect();
    let mut pairs = some_pairs(random, names, &texts);
    if random.one_in(12) {
        spoil(random, &mut pairs);
    }
    let texts = texts.iter().map(|text| written(random, &pairs, text, commented)).collect();
    let file = File { blocks_before: random.below(3), pairs, texts, blocks_behind: random.below(3) };
    let mut parts = file.parts(random);
    if random.one_in(8) {
        damage_parts(random, &mut parts);
    }
    let mut bytes = joined(random, &parts);
    if random.one_in(8) {
        damage_bytes(random, &mut bytes);
    }
    bytes
}

/// Whether a text can stand in a file: its quotes are closed, and no bracket outside them opens a comment.
pub fn can_stand(text: &[u8]) -> bool {
    !is_odd(text) && [b'[', b';'].iter().all(|sign| first_outside(false, text, *sign).is_none())
}

/// A good file whose plain texts are exactly these.
pub fn file_of(random: &mut Random, names: &[Name], texts: &[Vec<u8>]) -> Vec<u8> {
    let pairs = some_pairs(random, names, texts);
    let texts = texts.iter().map(|text| written(random, &pairs, text, spaced)).collect();
    let file = File { blocks_before: random.below(2), pairs, texts, blocks_behind: random.below(2) };
    let parts = file.parts(random);
    joined(random, &parts)
}

// Parts

impl File {
    pub fn parts(&self, random: &mut Random) -> FileParts {
        let mut parts = vec![word(random, "#NEXUS")];
        (0..self.blocks_before).for_each(|_| parts.extend(other_block(random)));
        parts.extend([word(random, "BEGIN"), word(random, "TREES"), b";".to_vec()]);
        parts.extend(translate(random, &self.pairs));
        for text in &self.texts {
            parts.extend([word(random, "TREE"), named(random, text)]);
        }
        parts.extend([word(random, "END"), b";".to_vec()]);
        (0..self.blocks_behind).for_each(|_| parts.extend(other_block(random)));
        parts
    }
}

/// A keyword in any case.
fn word(random: &mut Random, word: &str) -> Vec<u8> {
    let style = random.below(4);
    let case = |i: usize, b: &u8, by_chance: bool| match style {
        0 => b.to_ascii_lowercase(),
        1 if i > 0 => b.to_ascii_lowercase(),
        2 if by_chance => b.to_ascii_lowercase(),
        _ => *b,
    };
    word.as_bytes().iter().enumerate().map(|(i, b)| case(i, b, random.one_in(2))).collect()
}

fn other_block(random: &mut Random) -> FileParts {
    let name = random.pick(&BLOCKS).as_bytes().to_vec();
    let mut parts = vec![word(random, "BEGIN"), name, b";".to_vec()];
    (0..random.below(4)).for_each(|_| parts.push(random.pick(&JUNK).to_vec()));
    parts.extend([word(random, "END"), b";".to_vec()]);
    parts
}

fn translate(random: &mut Random, pairs: &Pairs) -> FileParts {
    let mut parts = Vec::new();
    for (key, name) in pairs {
        let before = if parts.is_empty() { word(random, "TRANSLATE") } else { b",".to_vec() };
        parts.extend([before, key.clone(), name.clone()]);
    }
    if !parts.is_empty() {
        parts.push(b";".to_vec());
    }
    parts
}

/// A tree's name, `=`, the text as it is, and the semicolon.
fn named(random: &mut Random, text: &[u8]) -> Vec<u8> {
    let name = random.pick(&TREE_NAMES).as_bytes();
    let gap = if random.one_in(2) { gap(random) } else { Vec::new() };
    [name, &gap, b"=", text, b";"].concat()
}

/// The bytes of a file: blanks and comments by chance, and always between two tokens.
pub fn joined(random: &mut Random, parts: &FileParts) -> Vec<u8> {
    let often = *random.pick(&[1, 2, 5, 1000]);
    let mut out: Vec<u8> = Vec::new();
    for part in parts {
        let labels_meet = is_of_label(out.last()) && is_of_label(part.first());
        if labels_meet || random.one_in(often) {
            out.extend(gap(random));
        }
        out.extend(part);
    }
    if random.one_in(2) {
        out.extend(gap(random));
    }
    out
}

/// Blanks, a comment, or both.
fn gap(random: &mut Random) -> Vec<u8> {
    match random.below(4) {
        0 => random.pick(&COMMENTS).to_vec(),
        1 => [blanks(random), random.pick(&COMMENTS).to_vec(), blanks(random)].concat(),
        _ => blanks(random),
    }
}

// Keys

/// Keys for some of the names, or for none, with which each of these texts can be written.
fn some_pairs(random: &mut Random, names: &[Name], texts: &[Vec<u8>]) -> Pairs {
    let mut used = names.to_vec();
    random.shuffle(&mut used);
    used.truncate(random.between(0, names.len()));
    if random.one_in(3) {
        return exchanged(&used);
    }
    let style = random.below(5);
    let mut pairs = Pairs::new();
    for (i, name) in used.into_iter().enumerate() {
        let key = some_key(random, style, i);
        if is_free(&key, &pairs, names, texts) {
            pairs.push((key, spelled(random, &name, 2)));
        }
    }
    if random.one_in(4) {
        fill_up(random, &mut pairs, names, texts);
    }
    pairs
}

/// Each name that can be written without quotes is the key of the next one.
fn exchanged(names: &[Name]) -> Pairs {
    let labels: Vec<Vec<u8>> = names.iter().filter_map(|name| unquoted(name)).collect();
    let keys = labels.iter().cycle().skip(1);
    keys.zip(&labels).map(|(key, name)| (key.clone(), name.clone())).collect()
}

fn some_key(random: &mut Random, style: usize, i: usize) -> Name {
    let words = ["END", "TREE", "BEGIN", "TRANSLATE", "TREES", "#NEXUS", "=", "end", "*", "0.1", "1e5", "x"];
    match style {
        0 => (i + 1).to_string().into_bytes(),
        1 => random.pick(&words).as_bytes().to_vec(),
        2 => vec![any_label_byte(random)],
        3 => (0..*random.pick(&[31, 32, 33, 300])).map(|_| any_label_byte(random)).collect(),
        _ => (0..random.between(1, 4)).map(|_| any_label_byte(random)).collect(),
    }
}

/// No key yet, no name, and nothing that a text means as it is.
fn is_free(key: &Name, pairs: &Pairs, names: &[Name], texts: &[Vec<u8>]) -> bool {
    let is_in = |text: &Vec<u8>| text.split(|b| !is_label_byte(*b)).any(|token| token == key);
    let is_name = names.iter().any(|name| unquoted(name).as_ref() == Some(key));
    !pairs.iter().any(|(other, _)| other == key) && !is_name && !texts.iter().any(is_in)
}

/// Keys that no text uses, up to the most that there may be.
fn fill_up(random: &mut Random, pairs: &mut Pairs, names: &[Name], texts: &[Vec<u8>]) {
    for i in 0..MOST_KEYS - pairs.len() {
        let key = format!("key{i}").into_bytes();
        if is_free(&key, pairs, names, texts) {
            let name = random.pick(names);
            pairs.push((key, spelled(random, name, 2)));
        }
    }
    random.shuffle(pairs);
}

/// A key twice, or too many keys, or both.
fn spoil(random: &mut Random, pairs: &mut Pairs) {
    let many = random.one_in(2);
    while many && pairs.len() <= MOST_KEYS {
        pairs.push((format!("more{}", pairs.len()).into_bytes(), b"'x'".to_vec()));
    }
    if !pairs.is_empty() && (!many || random.one_in(2)) {
        let (from, to) = (random.below(pairs.len()), random.below(pairs.len()));
        pairs[to].0 = pairs[from].0.clone();
    }
}

/// The text with keys in place of names: wherever a name is itself a key, and mostly elsewhere; but not for quotes that
/// meet a label byte, as the key would.
fn keyed(random: &mut Random, pairs: &Pairs, text: &[u8]) -> Vec<u8> {
    let is_label = |at: Option<usize>| at.and_then(|at| text.get(at)).is_some_and(|b| is_label_byte(*b));
    with_labels(text, |at, part| {
        let meets = is_label(at.checked_sub(1)) || is_label(Some(at + part.len()));
        let keys: Vec<&Vec<u8>> = pairs.iter().filter(|(_, name)| name == part).map(|(key, _)| key).collect();
        let is_key = pairs.iter().any(|(key, _)| key == part);
        if keys.is_empty() || (!is_key && random.one_in(5)) || (part[0] == b'\'' && meets) {
            part.to_vec()
        } else {
            random.pick(&keys).to_vec()
        }
    })
}

// Comments in texts

type Comment = fn(&mut Random, &[u8]) -> Vec<u8>;

/// A text as it stands in a file.
fn written(random: &mut Random, pairs: &Pairs, text: &[u8], comment: Comment) -> Vec<u8> {
    let text = keyed(random, pairs, text);
    comment(random, &text)
}

/// Some blanks outside quotes are comments, so that the plain text stays as long as it is.
fn spaced(random: &mut Random, text: &[u8]) -> Vec<u8> {
    let often = *random.pick(&[1, 4, 1000]);
    let mut odd = false;
    let byte = |b: &u8| {
        odd ^= *b == b'\'';
        match is_blank(*b) && !odd && random.one_in(often) {
            true => random.pick(&COMMENTS).to_vec(),
            false => vec![*b],
        }
    };
    text.iter().flat_map(byte).collect()
}

/// Comments anywhere, mostly beside signs; in quotes they are none.
fn commented(random: &mut Random, text: &[u8]) -> Vec<u8> {
    let often = *random.pick(&[3, 20, 1000]);
    let mut odd = false;
    let mut out = Vec::new();
    for b in text {
        if random.one_in(if is_label_byte(*b) || odd { 20 * often } else { often }) {
            out.extend(*random.pick(&COMMENTS));
        }
        odd ^= *b == b'\'';
        out.push(*b);
    }
    out
}

// Damages

/// A part lost, doubled, put elsewhere, or one that does not belong there.
pub fn damage_parts(random: &mut Random, parts: &mut FileParts) {
    let odd: [&[u8]; 19] = [
        b";",
        b",",
        b"=",
        b"[",
        b"]",
        b"(",
        b"'",
        b"*",
        b":",
        b"x",
        b"END",
        b"END;",
        b"TREE",
        b"BEGIN",
        b"\0",
        b"\xe9",
        b"''",
        b"'x'",
        b"'; END;'",
    ];
    let (at, to) = (random.below(parts.len()), random.below(parts.len()));
    match random.below(5) {
        0 => drop(parts.remove(at)),
        1 => parts.insert(at, parts[at].clone()),
        2 => parts.swap(at, to),
        _ => parts.insert(at, random.pick(&odd).to_vec()),
    }
}

/// A byte changed, lost, doubled, or the file cut.
pub fn damage_bytes(random: &mut Random, bytes: &mut Vec<u8>) {
    let at = random.below(bytes.len());
    let byte = random.below(256) as u8;
    match random.below(5) {
        0 => bytes[at] = byte,
        1 => bytes[at] = *random.pick(b"[]();:,='' \n"),
        2 => drop(bytes.remove(at)),
        3 => bytes.insert(at, bytes[at]),
        _ => bytes.truncate(at),
    }
}
