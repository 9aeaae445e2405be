//! The program `treecalls`: one call a line, one answer a line.
//!
//! Bytes of a store are known where document 01 settles them: those that were poked, and those that no call has
//! written since they were peeked. An answer that depends on others is `unmodelled`.

use crate::collection::{read_phylip, Collection, Fed};
use crate::layout::{head_number, SPLITS_HELD, TREES_HELD};
use crate::memory::{Memory, MOST_LENT};
use crate::opening::{open, Numbers};
use crate::question::{matrix_line, refused, Question, Writes};
use crate::sets::{agree, taxa_of};
use crate::whole::held_in;
use crate::words::{bytes, hex, lines, list, number};
use std::ops::Range;

/// What `treecalls` writes for this input.
pub fn treecalls(input: &[u8]) -> Vec<u8> {
    let mut program = Program::new();
    let mut out = Vec::new();
    for line in lines(input) {
        out.extend(program.answer(line));
        out.push(b'\n');
    }
    out
}

pub struct Program {
    memory: Memory,
    store: Store,
    /// The most elements of an answer buffer.
    room: usize,
}

enum Store {
    NotWhole,
    Whole(Collection),
    Unmodelled,
}

impl Program {
    pub fn new() -> Program {
        Program { memory: Memory::lent(0), store: Store::NotWhole, room: usize::MAX }
    }

    pub fn answer(&mut self, line: &[u8]) -> Vec<u8> {
        self.call(&words(line)).unwrap_or_else(|| b"bad line".to_vec())
    }

    /// `None` for a line that is no call.
    fn call(&mut self, words: &[&[u8]]) -> Option<Vec<u8>> {
        match words {
            [b"lend", n] => self.lend(number(n)?),
            [b"poke", at, hex] => self.poke(number(at)?, &bytes(hex)?),
            [b"peek", at, n] => self.peek(number(at)?, number(n)?),
            [b"room", b"-"] => Some(self.set_room(usize::MAX)),
            [b"room", k] => Some(self.set_room(number(k)? as usize)),
            [b"size", numbers @ .., b"lengths"] => Some(size(&five(numbers, true)?)),
            [b"size", numbers @ ..] => Some(size(&five(numbers, false)?)),
            [b"open", opening @ .., b"lengths"] => self.open_line(opening, true),
            [b"open", opening @ ..] => self.open_line(opening, false),
            [b"agree", a, b] => Some(agreement(number(a)?, number(b)?)),
            [b"read-phylip", file] => Some(self.read_phylip(&bytes(file)?)),
            [b"feed", lane, piece] => Some(self.feed(number(lane)?, &bytes(piece)?)),
            _ => self.question(words),
        }
    }

    // Lent memory

    fn lend(&mut self, n: u64) -> Option<Vec<u8>> {
        if n > MOST_LENT {
            return None;
        }
        self.memory = Memory::lent(n as usize);
        self.store = Store::NotWhole;
        Some(b"done".to_vec())
    }

    fn poke(&mut self, at: u64, bytes: &[u8]) -> Option<Vec<u8>> {
        let range = self.memory.inside(at, bytes.len() as u64)?;
        self.memory.write(range.start, bytes);
        let behind = matches!(&self.store, Store::Whole(held) if range.start >= size_of(held));
        if !range.is_empty() && !behind {
            self.look();
        }
        Some(b"done".to_vec())
    }

    /// Decides by the bytes whether the store is whole, and what it holds.
    fn look(&mut self) {
        let all = self.memory.known(0..self.memory.size());
        self.store = match all.map(|bytes| held_in(&bytes)) {
            None => Store::Unmodelled,
            Some(None) => Store::NotWhole,
            Some(Some(collection)) => Store::Whole(collection),
        };
    }

    fn peek(&self, at: u64, n: u64) -> Option<Vec<u8>> {
        let known = self.memory.known(self.memory.inside(at, n)?);
        let answer = known.map_or("unmodelled".to_string(), |bytes| format!("bytes {}", hex(&bytes)));
        Some(answer.into_bytes())
    }

    fn set_room(&mut self, k: usize) -> Vec<u8> {
        self.room = k;
        b"done".to_vec()
    }

    /// Whatever the lent bytes are.
    fn read_phylip(&self, file: &[u8]) -> Vec<u8> {
        read_phylip(file, self.room).map_or_else(refused, |(trees, values)| matrix_line(trees, &values))
    }

    // Learning from answers

    /// Takes over the bytes that a peek was answered with, where they are not known. If then all bytes of the store
    /// are, they must be whole and hold the collection.
    pub fn learn(&mut self, line: &[u8], answer: &[u8]) -> Learnt {
        let Some((at, peeked)) = self.peeked(line, answer) else {
            return Learnt::Nothing;
        };
        let learnt = self.memory.learn(at, &peeked);
        let Store::Whole(collection) = &self.store else {
            return Learnt::Nothing;
        };
        match self.memory.known(0..size_of(collection)) {
            Some(store) if learnt => judged(collection, &store),
            _ => Learnt::Nothing,
        }
    }

    /// Where a peek was made, and the bytes that it was answered with.
    fn peeked(&self, line: &[u8], answer: &[u8]) -> Option<(usize, Vec<u8>)> {
        let [b"peek", at, n] = words(line)[..] else {
            return None;
        };
        let range = self.memory.inside(number(at)?, number(n)?)?;
        let peeked = bytes(answer.strip_prefix(b"bytes ")?)?;
        (peeked.len() == range.len()).then_some((range.start, peeked))
    }

    /// The collection, if the store is known to be whole.
    pub fn held(&self) -> Option<&Collection> {
        match &self.store {
            Store::Whole(collection) => Some(collection),
            _ => None,
        }
    }

    /// Whether the store is known to be whole, or known not to be.
    pub fn is_whole(&self) -> Option<bool> {
        match self.store {
            Store::Whole(_) => Some(true),
            Store::NotWhole => Some(false),
            Store::Unmodelled => None,
        }
    }

    // Calls on the collection

    fn open_line(&mut self, words: &[&[u8]], lengths: bool) -> Option<Vec<u8>> {
        let [numbers @ .., names, first, second] = words else {
            return None;
        };
        Some(self.open(five(numbers, lengths)?, &bytes(names)?, &list(first)?, &list(second)?))
    }

    fn open(&mut self, numbers: Numbers, names: &[u8], first: &[u64], second: &[u64]) -> Vec<u8> {
        match open(numbers, names, first, second, self.memory.size() as u64) {
            Err(refusal) => refused(refusal),
            Ok(opening) => {
                let collection = Collection::new(opening);
                self.memory.forget(0..size_of(&collection));
                self.store = Store::Whole(collection);
                b"done".to_vec()
            }
        }
    }

    /// The only answer of a refusal with the bytes taken.
    fn feed(&mut self, lane: u64, piece: &[u8]) -> Vec<u8> {
        let answer = match &mut self.store {
            Store::NotWhole => "refused 0 1".to_string(),
            Store::Unmodelled => "unmodelled".to_string(),
            Store::Whole(collection) => {
                let fed = collection.feed(lane, piece);
                let accepted = matches!(fed, Fed::Accepted { .. });
                for range in written(collection, Writes::Lane(lane), accepted) {
                    self.memory.forget(range);
                }
                fed.line()
            }
        };
        answer.into_bytes()
    }

    /// The words are looked at first: a line that is no call is one whatever the store holds.
    fn question(&mut self, words: &[&[u8]]) -> Option<Vec<u8>> {
        let call = Question::of(words)?;
        Some(match &mut self.store {
            Store::NotWhole => refused(1),
            Store::Unmodelled => b"unmodelled".to_vec(),
            Store::Whole(collection) => {
                let before = collection.number_of_trees();
                let answer = call.ask(collection, self.room);
                let accepted = collection.number_of_trees() > before;
                for range in written(collection, call.writes(answer.is_ok()), accepted) {
                    self.memory.forget(range);
                }
                answer.unwrap_or_else(refused)
            }
        })
    }
}

/// What a peek of all bytes of a store tells.
pub enum Learnt {
    Nothing,
    Agrees,
    NotWhole,
    HoldsOther,
}

fn judged(collection: &Collection, store: &[u8]) -> Learnt {
    match held_in(store) {
        None => Learnt::NotWhole,
        Some(held) if held == *collection => Learnt::Agrees,
        Some(_) => Learnt::HoldsOther,
    }
}

fn words(line: &[u8]) -> Vec<&[u8]> {
    line.split(|b| *b == b' ').collect()
}

fn size_of(collection: &Collection) -> usize {
    collection.opening().numbers.size().expect("numbers in range") as usize
}

/// The bytes that a call may have written.
fn written(collection: &Collection, writes: Writes, accepted: bool) -> Vec<Range<usize>> {
    let (numbers, size) = (&collection.opening().numbers, size_of(collection));
    let lanes = numbers.lane(0).start..numbers.lane(numbers.lanes as usize - 1).end;
    match (writes, accepted) {
        (Writes::Lane(_), true) => vec![0..size],
        (Writes::Lane(lane), false) if lane < numbers.lanes => vec![numbers.lane(lane as usize)],
        (Writes::NoLane, true) => vec![0..lanes.start, lanes.end..size],
        (Writes::Trees, _) => vec![head_number(TREES_HELD).range(), head_number(SPLITS_HELD).range(), lanes.end..size],
        _ => Vec::new(),
    }
}

/// The opening's numbers, and whether the last word is there.
fn five(words: &[&[u8]], lengths: bool) -> Option<Numbers> {
    let [taxa, lanes, trees, splits, places] = words else {
        return None;
    };
    Some(Numbers {
        taxa: number(taxa)?,
        lanes: number(lanes)?,
        tree_room: number(trees)?,
        split_room: number(splits)?,
        places: number(places)?,
        lengths,
    })
}

fn size(numbers: &Numbers) -> Vec<u8> {
    numbers.size().map_or_else(refused, |size| format!("bytes {size}").into_bytes())
}

fn agreement(a: u64, b: u64) -> Vec<u8> {
    format!("agree {}", u8::from(agree(&taxa_of(a), &taxa_of(b)))).into_bytes()
}
