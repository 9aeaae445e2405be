//! Damages to the bytes of stores that our program made: one or a few fields at a time, then mended and asked again.

use crate::changes::{INFINITE, MINUS_ZERO, NO_NUMBERS, STORED_LENGTHS};
use crate::claims::{claim_line, some_claim};
use crate::collection::Collection;
use crate::layout::{
    first_constant, head_number, name_bytes, name_length, second_constant, Field, HEAD_SPARE, LENGTHS_KEPT,
    MOST_LISTED, RUN_OVER,
};
use crate::maker::{every_call, joined, QUESTIONS};
use crate::opening::Numbers;
use crate::parts::Parts;
use crate::random::Random;
use crate::whole::held_in;
use crate::words::{bytes, hex, lines};
use std::ops::Range;

/// So many damages to stores that a script peeked whole.
pub fn damaged(seed: u64, count: usize, script: &[u8], answers: &[u8]) -> Vec<u8> {
    let mut random = Random::new(seed);
    let stores = peeked_stores(script, answers);
    let mut lines = Vec::new();
    let mut left = if stores.is_empty() { 0 } else { count };
    while left > 0 {
        let rounds = left.min(random.between(5, 15));
        left -= rounds;
        let mut lent = Lent::new(random.pick(&stores).clone());
        lines.extend([format!("lend {}", lent.bytes.len()), lent.poke_all()]);
        (0..rounds).for_each(|_| lines.extend(lent.round(&mut random)));
    }
    joined(&lines)
}

/// The answers of all peeks from 0 on that reach over a store; of those without trees only a few.
fn peeked_stores(script: &[u8], answers: &[u8]) -> Vec<Vec<u8>> {
    let pairs = lines(script).into_iter().zip(lines(answers));
    let peeks = pairs.filter(|(call, _)| call.starts_with(b"peek 0 "));
    let peeked = peeks.filter_map(|(_, answer)| bytes(answer.strip_prefix(b"bytes ")?));
    let has_trees = |bytes: &Vec<u8>| Parts::read(bytes).map(|parts| !parts.lists.is_empty());
    let (filled, empty): (Vec<_>, Vec<_>) =
        peeked.filter(|bytes| has_trees(bytes).is_some()).partition(|bytes| has_trees(bytes) == Some(true));
    let few = filled.len() / 6 + 1;
    filled.into_iter().chain(empty.into_iter().take(few)).collect()
}

/// Lent memory whose bytes are those of a store, but for damages that are mended again.
struct Lent {
    bytes: Vec<u8>,
    parts: Parts,
    held: Option<Collection>,
}

impl Lent {
    fn new(bytes: Vec<u8>) -> Lent {
        let parts = Parts::read(&bytes).expect("the bytes of a store");
        let held = held_in(&bytes);
        Lent { bytes, parts, held }
    }

    fn poke_all(&self) -> String {
        format!("poke 0 {}", hex(&self.bytes))
    }

    /// One to three damages, some calls, the damages mended, and a question again.
    fn round(&mut self, random: &mut Random) -> Vec<String> {
        let number = *random.pick(&[1, 1, 1, 2, 3]);
        let damages: Vec<Damage> = (0..number).flat_map(|_| self.damage(random)).collect();
        let mut lines: Vec<String> = damages.iter().map(Damage::line).collect();
        let writes = random.one_in(3);
        if writes {
            lines.extend(calls_that_write(random));
        } else {
            lines.extend(some_questions(random));
        }
        if random.one_in(2) {
            lines.push(claim_line(&some_claim(random, &self.parts.names, self.held.as_ref())));
        }
        if random.one_in(3) {
            lines.push(format!("peek 0 {}", self.bytes.len()));
        }
        match writes {
            true => lines.push(self.poke_all()),
            false => lines.extend(damages.iter().map(|damage| self.mended(damage))),
        }
        lines.push(random.pick(&QUESTIONS).to_string());
        lines
    }

    fn mended(&self, damage: &Damage) -> String {
        let range = damage.at..damage.at + damage.bytes.len();
        format!("poke {} {}", damage.at, hex(&self.bytes[range]))
    }

    /// A field with another value, two fields exchanged, or any byte.
    fn damage(&self, random: &mut Random) -> Vec<Damage> {
        match random.below(10) {
            0 => vec![self.any_byte(random)],
            1 | 2 => self.exchanged(random),
            3 | 4 if self.parts.numbers.lengths => vec![self.field_changed(random, LENGTH)],
            _ => {
                let kind = random.below(KINDS);
                vec![self.field_changed(random, kind)]
            }
        }
    }

    fn any_byte(&self, random: &mut Random) -> Damage {
        let at = random.below(self.bytes.len());
        Damage { at, bytes: vec![random.below(256) as u8] }
    }

    fn exchanged(&self, random: &mut Random) -> Vec<Damage> {
        let kind = random.below(KINDS);
        let (a, b) = (self.field(random, kind), self.field(random, kind));
        let moved = |to: Field, from: Field| Damage { at: to.at, bytes: self.bytes[from.range()].to_vec() };
        vec![moved(a, b), moved(b, a)]
    }

    fn field_changed(&self, random: &mut Random, kind: usize) -> Damage {
        let (field, other) = (self.field(random, kind), self.field(random, kind));
        let old = field.get(&self.bytes);
        let bit = 1u64 << random.below(8 * field.width);
        let chosen = match kind {
            NAME_BYTE => *random.pick(&[31, 32, 39, 95, 126, 127]),
            LANE_LENGTH => *random.pick(&[RUN_OVER - 1, RUN_OVER, RUN_OVER, RUN_OVER + 1, RUN_OVER + 1, RUN_OVER + 2]),
            KEPT => *random.pick(&[0, 1, 2, 256, 257]),
            LENGTH => some_length(random),
            _ => 0,
        };
        let values = [
            chosen,
            chosen,
            old.wrapping_add(1),
            old.wrapping_add(1),
            old.wrapping_sub(1),
            old.wrapping_sub(1),
            old ^ bit,
            old ^ bit,
            other.get(&self.bytes),
            random.next(),
            u64::MAX,
        ];
        Damage { at: field.at, bytes: field.bytes_of(*random.pick(&values)) }
    }

    /// A field of this kind, mostly one that is in use.
    fn field(&self, random: &mut Random, kind: usize) -> Field {
        let numbers = &self.parts.numbers;
        let taxon = some_of(random, self.parts.names.len(), 64);
        let lane = random.below(numbers.lanes as usize);
        let tree = some_of(random, self.parts.lists.len(), numbers.tree_room as usize);
        let row = some_of(random, self.parts.masks.len(), numbers.split_room as usize);
        match kind {
            0 => head_number(random.below(8)),
            1 => name_length(taxon),
            NAME_BYTE => self.name_byte(random, taxon),
            3 => first_constant(taxon),
            4 => second_constant(taxon),
            5 => byte_of(random, HEAD_SPARE),
            LANE_LENGTH => numbers.lane_length(lane),
            7 => self.lane_byte(random, lane),
            8 => numbers.tree_length(tree),
            9 => self.tree_row(random, numbers, tree),
            10 => numbers.mask(row),
            11 => numbers.identifier(row),
            12 => numbers.count(row),
            13 => numbers.link(row),
            14 => numbers.numbered(row),
            KEPT => head_number(LENGTHS_KEPT),
            LENGTH => self.length(random, tree),
            _ => numbers.start(random.below(numbers.places as usize)),
        }
    }

    fn name_byte(&self, random: &mut Random, taxon: usize) -> Field {
        let long = self.parts.names.get(taxon).map_or(0, Vec::len);
        let range = name_bytes(taxon);
        Field { at: range.start + some_of(random, long, range.len()), width: 1 }
    }

    /// One that is held, one that is not, or one of those between the length and the bytes.
    fn lane_byte(&self, random: &mut Random, lane: usize) -> Field {
        let (all, range) = (self.parts.numbers.lane(lane), self.parts.numbers.lane_bytes(lane));
        match random.below(3) {
            0 => byte_of(random, all.start + 2..range.start),
            _ => Field { at: range.start + some_of(random, self.parts.lanes[lane].1.len(), range.len()), width: 1 },
        }
    }

    /// One of those that the lent bytes have, kept or not.
    fn length(&self, random: &mut Random, tree: usize) -> Field {
        let long = self.parts.lists.get(tree).map_or(0, Vec::len);
        let field = self.parts.numbers.length(tree, some_of(random, long, MOST_LISTED as usize + 2));
        if field.range().end <= self.bytes.len() {
            field
        } else {
            Field { at: self.bytes.len() - 8, width: 8 }
        }
    }

    fn tree_row(&self, random: &mut Random, numbers: &Numbers, tree: usize) -> Field {
        let long = self.parts.lists.get(tree).map_or(0, Vec::len);
        numbers.tree_row(tree, some_of(random, long, MOST_LISTED as usize + 1))
    }
}

/// Every call, or withdrawals and questions on what they leave.
fn calls_that_write(random: &mut Random) -> Vec<String> {
    if random.one_in(2) {
        let piece = *random.pick(&[&b"(A,B,C,D,E);"[..], b"x';(A,B,C);", b"'A;';", b"'';"]);
        return every_call(piece);
    }
    let mut lines: Vec<String> = (0..random.between(1, 3)).map(|_| format!("withdraw {}", random.below(4))).collect();
    lines.extend(some_questions(random));
    lines
}

fn some_questions(random: &mut Random) -> Vec<String> {
    (0..random.between(1, 3)).map(|_| random.pick(&QUESTIONS).to_string()).collect()
}

const KINDS: usize = 18;
const NAME_BYTE: usize = 2;
const LANE_LENGTH: usize = 6;
const KEPT: usize = 15;
const LENGTH: usize = 16;

/// Such as a store may hold, and such as it may not.
fn some_length(random: &mut Random) -> u64 {
    match random.below(6) {
        0 => *random.pick(&NO_NUMBERS),
        1 => *random.pick(&INFINITE),
        2 => MINUS_ZERO,
        _ => *random.pick(&STORED_LENGTHS),
    }
}

/// Mostly below the number used, else below the most.
fn some_of(random: &mut Random, used: usize, most: usize) -> usize {
    if used > 0 && !random.one_in(4) {
        random.below(used)
    } else {
        random.below(most)
    }
}

fn byte_of(random: &mut Random, range: Range<usize>) -> Field {
    Field { at: random.between(range.start, range.end - 1), width: 1 }
}

struct Damage {
    at: usize,
    bytes: Vec<u8>,
}

impl Damage {
    fn line(&self) -> String {
        format!("poke {} {}", self.at, hex(&self.bytes))
    }
}
