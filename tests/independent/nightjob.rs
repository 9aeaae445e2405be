//! What the program `splitfiles` writes, prints and tells: the splits of trees as a split file, two files merged, a file shown.

use crate::collection::{Collection, Fed, Verdict};
use crate::consensus::{majority, strict, written, Counts};
use crate::labels::split_outside;
use crate::opening::{open, Numbers};
use crate::splitfile::{chosen, merge, read, write, Splits};
use crate::verdict::Masks;

const TREE_ROOM: u64 = 1024;
const SPLIT_ROOM: u64 = 4096;

/// What a run comes to. There is no file where none is written.
#[derive(Default)]
pub struct Done {
    pub status: i32,
    pub printed: Vec<u8>,
    pub told: String,
    pub file: Option<Vec<u8>>,
}

/// A file, with its name as it is told.
pub struct Given<'a> {
    pub name: &'a str,
    pub bytes: &'a [u8],
}

pub fn written_trees(names: &Given, trees: &Given) -> Done {
    let mut collection = match opened(names) {
        Ok(collection) => collection,
        Err(done) => return done,
    };
    let verdicts = if trees.bytes.starts_with(b"#NEXUS") {
        match collection.nexus(trees.bytes, usize::MAX) {
            Ok(verdicts) => verdicts,
            Err(refusal) => return refused(trees.name, refusal),
        }
    } else {
        fed(&mut collection, trees.bytes)
    };
    let mut told = String::new();
    for (i, verdict) in verdicts.iter().enumerate() {
        if let Err(refusal) = verdict {
            told += &line(&format!("{}, tree {}", trees.name, i + 1), *refusal);
        }
    }
    let bad = verdicts.iter().filter(|verdict| verdict.is_err()).count();
    told += &format!("{}: {} trees taken, {bad} refused\n", trees.name, verdicts.len() - bad);
    let counts = collection.counts().clone();
    let splits = Splits { trees: Some(collection.number_of_trees() as u64), counts };
    Done { status: i32::from(bad > 0), told, file: Some(write(&splits)), ..Done::default() }
}

pub fn merged(names: &Given, first: &Given, second: &Given) -> Done {
    let taxa = match opened(names) {
        Ok(collection) => collection.opening().names.len() as u32,
        Err(done) => return done,
    };
    let both: Result<Vec<Splits>, Done> =
        [first, second].into_iter().map(|given| read(given.bytes, taxa).map_err(|k| refused(given.name, k))).collect();
    match both {
        Err(done) => done,
        Ok(both) => match merge(&both[0], &both[1]) {
            Err(refusal) => refused("merge", refusal),
            Ok(splits) => Done { file: Some(write(&splits)), ..Done::default() },
        },
    }
}

pub fn shown(names: &Given, file: &Given) -> Done {
    let names = match opened(names) {
        Ok(collection) => collection.opening().names.clone(),
        Err(done) => return done,
    };
    let splits = match read(file.bytes, names.len() as u32) {
        Ok(splits) => splits,
        Err(refusal) => return refused(file.name, refusal),
    };
    let trees = splits.trees.map_or("-".to_string(), |trees| trees.to_string());
    let mut printed = format!("taxa {} trees {trees} splits {}\n", names.len(), splits.counts.len()).into_bytes();
    for (mask, count) in &splits.counts {
        printed.extend(format!("{mask} {count}\n").into_bytes());
    }
    let mut disagrees = false;
    let rules: [(&[u8], fn(&Counts, u64) -> Masks); 2] = [(b"majority ", majority), (b"strict ", strict)];
    for (word, rule) in rules {
        let tree = chosen(&splits, rule);
        disagrees |= matches!(tree, Err(23));
        let text = tree.map_or(b"none".to_vec(), |masks| written(&names, &masks));
        printed.extend([word, &text[..], b"\n"].concat());
    }
    let told = if disagrees { line(file.name, 23) } else { String::new() };
    Done { status: i32::from(disagrees), printed, told, file: None }
}

/// The first line has the names, counted as `treesum` counts them. Constants decide nothing here.
fn opened(names: &Given) -> Result<Collection, Done> {
    let line = names.bytes.split(|b| *b == b'\n').next().unwrap_or_default();
    let taxa = split_outside(line, b' ').len() as u64;
    let numbers = Numbers { taxa, lanes: 1, tree_room: TREE_ROOM, split_room: SPLIT_ROOM, places: 1, lengths: false };
    let zeros = vec![0; taxa as usize];
    open(numbers, line, &zeros, &zeros, u64::MAX).map(Collection::new).map_err(|refusal| refused(names.name, refusal))
}

/// The verdict on each text, a refused closing as the last.
fn fed(collection: &mut Collection, texts: &[u8]) -> Vec<Verdict> {
    let mut verdicts = Vec::new();
    let mut rest = texts;
    while !rest.is_empty() {
        let taken = match collection.feed(0, rest) {
            Fed::More { taken } => taken,
            Fed::Accepted { taken, tree } => {
                verdicts.push(Ok(tree));
                taken
            }
            Fed::Refused { taken, refusal } => {
                verdicts.push(Err(refusal));
                taken
            }
        };
        rest = &rest[taken..];
    }
    if let Err(refusal) = collection.close(0) {
        verdicts.push(Err(refusal));
    }
    verdicts
}

/// Nothing is done.
fn refused(name: &str, refusal: u32) -> Done {
    Done { status: 2, told: line(name, refusal), ..Done::default() }
}

fn line(name: &str, refusal: u32) -> String {
    format!("{name}: refused {refusal}, {}\n", reason(refusal))
}

/// A refusal in words.
pub fn reason(refusal: u32) -> &'static str {
    match refusal {
        2 => "a number is out of range",
        3 => "the name list is not different names of 1 to 32 bytes",
        6 => "the text is too long",
        7 => "the text is malformed",
        8 => "a leaf names no taxon",
        9 => "a leaf names a taxon again",
        10 => "a taxon is missing",
        11 => "no room for another tree",
        12 => "no room for its splits",
        15 => "the NEXUS file is malformed",
        16 => "a key is listed twice",
        19 => "the file's length is no multiple of 16",
        20 => "a record is improper or out of order",
        21 => "an empty file cannot be merged",
        22 => "a sum passes 32 bits",
        23 => "two chosen splits disagree",
        other => panic!("no run meets refusal {other}"),
    }
}
