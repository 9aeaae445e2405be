//! The calls on a collection from their words, and the lines that answer them.

use crate::claim::Claim;
use crate::collection::{Batch, Collection, Fed, Verdict};
use crate::double::Double;
use crate::splitfile::Splits;
use crate::weights::Summed;
use crate::words::{bytes, hex, number};

pub enum Question {
    Close(u64),
    Withdraw(u64),
    Batch(u64, Vec<u8>),
    Nexus(Vec<u8>),
    Trees,
    Count,
    Splits,
    Split(u64),
    Tree(u64),
    One(u64, u64),
    Two(u64, u64),
    Weighted(u64, u64),
    Lengths(u64),
    Matrix,
    Strict,
    Majority,
    Both,
    Write(u64),
    Claim(Vec<u8>),
    Collisions,
    Phylip,
    File,
    Records(Vec<u8>),
    Merge(Vec<u8>, Vec<u8>),
    FileStrict(Vec<u8>),
    FileMajority(Vec<u8>),
}

impl Question {
    pub fn of(words: &[&[u8]]) -> Option<Question> {
        Some(match words {
            [b"close", lane] => Question::Close(number(lane)?),
            [b"withdraw", t] => Question::Withdraw(number(t)?),
            [b"batch", lane, piece] => Question::Batch(number(lane)?, bytes(piece)?),
            [b"nexus", file] => Question::Nexus(bytes(file)?),
            [b"trees"] => Question::Trees,
            [b"count"] => Question::Count,
            [b"splits"] => Question::Splits,
            [b"split", s] => Question::Split(number(s)?),
            [b"tree", t] => Question::Tree(number(t)?),
            [b"one", a, b] => Question::One(number(a)?, number(b)?),
            [b"two", a, b] => Question::Two(number(a)?, number(b)?),
            [b"weighted", a, b] => Question::Weighted(number(a)?, number(b)?),
            [b"lengths", s] => Question::Lengths(number(s)?),
            [b"matrix"] => Question::Matrix,
            [b"strict"] => Question::Strict,
            [b"majority"] => Question::Majority,
            [b"both"] => Question::Both,
            [b"write", t] => Question::Write(number(t)?),
            [b"claim", text] => Question::Claim(bytes(text)?),
            [b"collisions"] => Question::Collisions,
            [b"phylip"] => Question::Phylip,
            [b"file"] => Question::File,
            [b"records", file] => Question::Records(bytes(file)?),
            [b"merge", first, second] => Question::Merge(bytes(first)?, bytes(second)?),
            [b"file-strict", file] => Question::FileStrict(bytes(file)?),
            [b"file-majority", file] => Question::FileMajority(bytes(file)?),
            _ => return None,
        })
    }

    /// The answer's line, or the refusal.
    pub fn ask(&self, collection: &mut Collection, room: usize) -> Result<Vec<u8>, u32> {
        Ok(match self {
            Question::Close(lane) => collection.close(*lane).map(|()| b"done".to_vec())?,
            Question::Withdraw(t) => collection.withdraw(*t).map(|()| b"done".to_vec())?,
            Question::Batch(lane, piece) => batch_line(&collection.batch(*lane, piece, room)?),
            Question::Nexus(file) => nexus_line(&collection.nexus(file, room)?),
            Question::Trees => number_line(collection.number_of_trees() as u64),
            Question::Count => number_line(collection.counts().len() as u64),
            Question::Splits => splits_line(&collection.splits(room)?),
            Question::Split(s) => split_line(collection.split(*s)?),
            Question::Tree(t) => listed("tree", &collection.tree(*t, room)?),
            Question::One(a, b) => number_line(collection.one_sided(*a, *b)?),
            Question::Two(a, b) => number_line(collection.doubled(*a, *b)?),
            Question::Weighted(a, b) => double_line(collection.weighted(*a, *b)?),
            Question::Lengths(s) => lengths_line(&collection.lengths(*s)?),
            Question::Matrix => matrix_line(collection.number_of_trees(), &collection.matrix(room)?),
            Question::Strict => text_line(&collection.strict_text(room)?),
            Question::Majority => text_line(&collection.majority_text(room)?),
            Question::Both => both_line(&collection.both_texts(room)?),
            Question::Write(t) => text_line(&collection.tree_text(*t, room)?),
            Question::Claim(text) => claim_line(&collection.claim(text)?),
            Question::Collisions => number_line(collection.collisions()),
            Question::Phylip => bytes_line(&collection.phylip(room)?),
            Question::File => bytes_line(&collection.file(room)?),
            Question::Records(file) => records_line(&collection.records(file, room)?),
            Question::Merge(first, second) => bytes_line(&collection.merge(first, second, room)?),
            Question::FileStrict(file) => text_line(&collection.file_strict(file, room)?),
            Question::FileMajority(file) => text_line(&collection.file_majority(file, room)?),
        })
    }

    /// What the call may write; a refused batch, file or withdrawal writes nothing, a refused closing empties its lane.
    pub fn writes(&self, done: bool) -> Writes {
        match self {
            Question::Close(lane) => Writes::Lane(*lane),
            Question::Batch(lane, _) if done => Writes::Lane(*lane),
            Question::Nexus(_) if done => Writes::NoLane,
            Question::Withdraw(_) if done => Writes::Trees,
            _ => Writes::Nothing,
        }
    }
}

/// What a call may write.
pub enum Writes {
    Nothing,
    /// The lane, and with an accepted tree all of the store.
    Lane(u64),
    /// With an accepted tree all of the store but the lanes.
    NoLane,
    /// How many trees and splits there are, and all behind the lanes.
    Trees,
}

impl Fed {
    pub fn line(&self) -> String {
        match self {
            Fed::More { taken } => format!("more {taken}"),
            Fed::Accepted { taken, tree } => format!("accepted {taken} {tree}"),
            Fed::Refused { taken, refusal } => format!("refused {taken} {refusal}"),
        }
    }
}

// Answers

pub fn refused(refusal: u32) -> Vec<u8> {
    format!("refused {refusal}").into_bytes()
}

fn number_line(n: u64) -> Vec<u8> {
    format!("number {n}").into_bytes()
}

fn split_line((mask, count): (u64, u64)) -> Vec<u8> {
    format!("split {mask} {count}").into_bytes()
}

fn double_line(value: Double) -> Vec<u8> {
    format!("double {}", value.word()).into_bytes()
}

fn lengths_line(summed: &Summed) -> Vec<u8> {
    listed("lengths", &[summed.shortest, summed.longest, summed.sum].map(Double::word))
}

fn splits_line(splits: &[(u64, u64)]) -> Vec<u8> {
    let words: Vec<String> = splits.iter().map(|(mask, count)| format!("{mask}:{count}")).collect();
    listed("splits", &words)
}

fn records_line(splits: &Splits) -> Vec<u8> {
    let trees = splits.trees.map_or("-".to_string(), |trees| trees.to_string());
    let words = splits.counts.iter().map(|(mask, count)| format!("{mask}:{count}"));
    listed("records", &[trees].into_iter().chain(words).collect::<Vec<String>>())
}

pub fn matrix_line(trees: usize, distances: &[u64]) -> Vec<u8> {
    listed(&format!("matrix {trees}:"), distances)
}

fn batch_line(batch: &Batch) -> Vec<u8> {
    let mut words: Vec<String> = batch.verdicts.iter().map(verdict_word).collect();
    words.push(format!("taken {}", batch.taken));
    listed("batch", &words)
}

fn nexus_line(verdicts: &[Verdict]) -> Vec<u8> {
    let words: Vec<String> = verdicts.iter().map(verdict_word).collect();
    listed("nexus", &words)
}

fn verdict_word(verdict: &Verdict) -> String {
    match verdict {
        Ok(tree) => tree.to_string(),
        Err(refusal) => format!("-{refusal}"),
    }
}

fn bytes_line(bytes: &[u8]) -> Vec<u8> {
    format!("bytes {}", hex(bytes)).into_bytes()
}

fn text_line(text: &[u8]) -> Vec<u8> {
    [b"text ", text].concat()
}

fn claim_line(claim: &Claim) -> Vec<u8> {
    match claim {
        Claim::Same => b"same".to_vec(),
        Claim::Text(mask) => format!("text {mask}").into_bytes(),
        Claim::Majority(mask) => format!("majority {mask}").into_bytes(),
    }
}

fn both_line((strict, majority): &(Vec<u8>, Vec<u8>)) -> Vec<u8> {
    [b"both ", &strict[..], b" ", majority].concat()
}

/// A word, and each element after one space.
fn listed<T: ToString>(word: &str, elements: &[T]) -> Vec<u8> {
    let mut out = word.to_string();
    for element in elements {
        out.push(' ');
        out.push_str(&element.to_string());
    }
    out.into_bytes()
}
