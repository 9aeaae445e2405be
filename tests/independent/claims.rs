//! Claims by chance on a collection, damaged ones, and calls with them.

use crate::collection::Collection;
use crate::consensus::written;
use crate::damage::KINDS;
use crate::grow::{text_of, tokens, Name, BARE};
use crate::limits::bare_text;
use crate::maker::Maker;
use crate::random::Random;
use crate::rooting::{every_root, further_splits, resolved, rooted, turned};
use crate::verdict::{judge, Masks};
use crate::words::hex;

impl Maker {
    /// The text as it is, with its semicolon or without.
    pub fn claim(&mut self, text: &[u8]) {
        self.ask(claim_line(text));
    }

    /// The tree with these splits, rooted anywhere.
    pub fn claim_splits(&mut self, splits: &Masks) {
        let text = some_text(&mut self.random, &self.names, splits);
        self.claim(&[&text[..], b";"].concat());
    }

    /// A few by chance.
    pub fn claim_calls(&mut self) {
        for _ in 0..self.random.between(1, 3) {
            let text = some_claim(&mut self.random, &self.names, Some(&self.held));
            self.claim(&text);
        }
    }

    /// The majority tree as it is written, and a few by chance. The same collections give the same calls.
    pub fn claim_questions(&mut self) {
        let counts = self.held.counts().iter();
        let seed = counts.fold(7, |sum: u64, (mask, count)| sum.wrapping_mul(31).wrapping_add(mask ^ count));
        let mut random = Random::new(seed);
        let own = written(&self.names, &self.held.majority_splits());
        self.claim(&own);
        for _ in 0..4 {
            let text = some_claim(&mut random, &self.names, Some(&self.held));
            self.claim(&text);
        }
    }
}

pub fn claim_line(text: &[u8]) -> String {
    format!("claim {}", hex(text))
}

/// Mostly a tree with the majority's splits or nearly so, if there is a collection; and mostly with its semicolon alone
/// behind it.
pub fn some_claim(random: &mut Random, names: &[Name], held: Option<&Collection>) -> Vec<u8> {
    if random.one_in(10) {
        return [&random.pick(&KINDS)(random, names)[..], b";"].concat();
    }
    let splits = some_splits(random, names, held);
    let splits = changed(random, names.len(), splits);
    let mut text = [&some_text(random, names, &splits)[..], some_end(random)].concat();
    if random.one_in(12) {
        damage(random, &mut text);
    }
    text
}

/// The majority's, the strict ones, those of a tree that there is, or those of any tree.
fn some_splits(random: &mut Random, names: &[Name], held: Option<&Collection>) -> Masks {
    match (random.below(10), held) {
        (0..=5, Some(held)) => held.majority_splits(),
        (6, Some(held)) => held.strict_splits(),
        (7 | 8, Some(held)) if held.number_of_trees() > 0 => random.pick(held.trees()).splits.clone(),
        _ => judge(names, &bare_text(random, names, 3)).expect("a tree of all names"),
    }
}

/// One less, one more, both, every one that agrees, none, or mostly as they are.
fn changed(random: &mut Random, n: usize, mut splits: Masks) -> Masks {
    let which = random.below(12);
    if matches!(which, 0 | 1 | 2) && !splits.is_empty() {
        let all: Vec<u64> = splits.iter().copied().collect();
        splits.remove(random.pick(&all));
    }
    if matches!(which, 2 | 3 | 4) {
        let further = further_splits(n, &splits);
        splits.extend(further.get(random.below(further.len().max(1))));
    }
    match which {
        5 => resolved(random, n, &splits),
        6 if random.one_in(2) => Masks::new(),
        _ => splits,
    }
}

/// The tree with these splits rooted anywhere, its children turned, bare or not; without a semicolon behind it.
pub fn some_text(random: &mut Random, names: &[Name], splits: &Masks) -> Vec<u8> {
    let root = random.pick(&every_root(names.len(), splits)).clone();
    let shape = turned(random, rooted(names, splits, &root));
    match random.one_in(2) {
        true => tokens(random, &shape, BARE).concat(),
        false => text_of(random, &shape),
    }
}

/// What can stand behind a text; the semicolon alone is right.
pub const ENDS: [&[u8]; 18] = [
    b";",
    b"",
    b" ;",
    b"\n;",
    b";\n",
    b"; ",
    b";\r\n",
    b";\0",
    b";;",
    b";;;",
    b"; ;",
    b";(A,B,C,D);",
    b"';",
    b"'';",
    b";'",
    b";''",
    b"';'",
    b"';';",
];

fn some_end(random: &mut Random) -> &'static [u8] {
    match random.one_in(8) {
        true => ENDS[random.below(ENDS.len())],
        false => b";",
    }
}

/// Bytes that stand beside those that a text may have.
pub const ODD_BYTES: [u8; 16] =
    [0, b'\n', b'\r', b'\t', b' ', b'\'', b'(', b')', b',', b':', b';', b'[', b'_', b'0', 127, 255];

/// Another byte, one more, one less, or the text cut. Some leave it a tree.
fn damage(random: &mut Random, text: &mut Vec<u8>) {
    let at = random.below(text.len().max(1)).min(text.len());
    let byte = *random.pick(&ODD_BYTES);
    match random.below(4) {
        0 if at < text.len() => text[at] = byte,
        1 if at < text.len() => drop(text.remove(at)),
        2 => text.insert(at, byte),
        _ => text.truncate(at),
    }
}
