//! A script as it grows, with the collection that its calls come to.

use crate::claims::claim_line;
use crate::collection::{Collection, Fed};
use crate::generator::{any_name_list, first_constants, second_constants};
use crate::grow::Name;
use crate::opening::{open, Numbers};
use crate::random::Random;
use crate::words::{comma_list, hex};

pub struct Maker {
    pub random: Random,
    pub names: Vec<Name>,
    pub numbers: Numbers,
    /// What the calls so far come to.
    pub held: Collection,
    pub lent: u64,
    /// Split files of the collection as it was before.
    pub kept: Vec<Vec<u8>>,
    /// The one of the last questions.
    pub asked: Vec<u8>,
    /// Its matrices in PHYLIP's layout.
    pub phylips: Vec<Vec<u8>>,
    lines: Vec<String>,
}

impl Maker {
    /// Memory with so many bytes to spare, and the opening with constants by chance.
    pub fn open(random: Random, names: Vec<Name>, numbers: Numbers, spare: u64) -> Maker {
        let mut random = random;
        let first = first_constants(&mut random, names.len(), numbers.places);
        let second = second_constants(&mut random, names.len());
        Maker::open_with(random, names, numbers, &first, &second, spare)
    }

    pub fn open_with(
        mut random: Random,
        names: Vec<Name>,
        numbers: Numbers,
        first: &[u64],
        second: &[u64],
        spare: u64,
    ) -> Maker {
        let lent = numbers.size().expect("numbers in range") + spare;
        let list = any_name_list(&mut random, &names);
        let Ok(opening) = open(numbers, &list, first, second, lent) else {
            panic!("the opening of a script is refused");
        };
        let line = open_line(&numbers, &list, first, second);
        let lines = vec![size_line(&numbers), format!("lend {lent}"), line];
        Maker {
            random,
            names,
            numbers,
            held: Collection::new(opening),
            lent,
            kept: Vec::new(),
            asked: Vec::new(),
            phylips: Vec::new(),
            lines,
        }
    }

    /// A script from the lines.
    pub fn script(&self) -> Vec<u8> {
        joined(&self.lines)
    }

    /// A call that changes nothing.
    pub fn ask(&mut self, line: impl ToString) {
        self.lines.push(line.to_string());
    }

    pub fn peek(&mut self) {
        self.ask(format!("peek 0 {}", self.lent));
    }

    pub fn feed(&mut self, lane: u64, piece: &[u8]) -> Fed {
        self.ask(format!("feed {lane} {}", hex(piece)));
        self.held.feed(lane, piece)
    }

    /// Feeds a text and its semicolon to lane 0.
    pub fn text(&mut self, text: &[u8]) -> Fed {
        self.feed(0, &[text, b";"].concat())
    }

    pub fn batch(&mut self, lane: u64, piece: &[u8]) {
        self.ask(format!("batch {lane} {}", hex(piece)));
        // Refused or not, the collection is what it comes to.
        let _ = self.held.batch(lane, piece, usize::MAX);
    }

    pub fn nexus(&mut self, file: &[u8]) {
        self.ask(format!("nexus {}", hex(file)));
        let _ = self.held.nexus(file, usize::MAX);
    }

    pub fn close(&mut self, lane: u64) {
        self.ask(format!("close {lane}"));
        let _ = self.held.close(lane);
    }

    pub fn withdraw(&mut self, tree: usize) {
        self.ask(format!("withdraw {tree}"));
        let _ = self.held.withdraw(tree as u64);
    }

    /// The first tree, the last, the middle one or any, if there is one.
    pub fn withdraw_some(&mut self) {
        let trees = self.held.number_of_trees();
        let any = self.random.below(trees.max(1));
        let tree = *self.random.pick(&[0, trees.saturating_sub(1), trees / 2, any]);
        self.withdraw(tree);
    }

    /// Every question, with every tree and with splits from the first to one past the last, behind a lifted limit.
    pub fn questions(&mut self) {
        for line in ["room -", "trees", "count", "splits", "matrix", "strict", "majority", "both", "collisions"] {
            self.ask(line);
        }
        self.file_questions();
        self.phylip_questions();
        self.claim_questions();
        for tree in 0..=self.held.number_of_trees() {
            self.ask(format!("tree {tree}"));
            self.ask(format!("write {tree}"));
            self.ask(format!("weighted {} {tree}", tree / 2));
        }
        let splits = self.held.counts().len();
        for split in (0..=splits).step_by(splits / MOST_SPLITS_ASKED + 1) {
            self.ask(format!("lengths {split}"));
        }
    }
}

const MOST_SPLITS_ASKED: usize = 40;

/// Each kind of call on a collection once, with this text and its semicolon fed.
pub fn every_call(piece: &[u8]) -> Vec<String> {
    let mut calls: Vec<String> = QUESTIONS.iter().map(|line| line.to_string()).collect();
    calls.extend([format!("feed 0 {}", hex(piece)), "close 0".to_string(), format!("batch 0 {}", hex(piece))]);
    calls.push(format!("nexus {}", hex(&[b"#NEXUS BEGIN TREES; TREE t=", piece, b"END;"].concat())));
    calls.push(claim_line(piece));
    calls.push("withdraw 0".to_string());
    calls
}

/// The split files have one split, of the taxa 1 and 2, in one or both of two trees, or the taxa 1 and 3 in all of three; the
/// matrices are one of two trees, one that is not symmetric, and none; the claims are of no text.
pub const QUESTIONS: [&str; 32] = [
    "trees",
    "count",
    "splits",
    "split 0",
    "tree 0",
    "one 0 1",
    "two 1 0",
    "weighted 0 1",
    "weighted 1 1",
    "weighted 2 0",
    "lengths 0",
    "lengths 1",
    "matrix",
    "strict",
    "majority",
    "both",
    "write 0",
    "collisions",
    "file",
    "file",
    "records 06000000000000000100000002000000",
    "merge 06000000000000000100000002000000 0a000000000000000300000003000000",
    "file-strict 06000000000000000200000002000000",
    "file-majority 06000000000000000100000002000000",
    "file-strict -",
    "phylip",
    "phylip",
    "read-phylip 320a74302020202020202020203020370a74312020202020202020203720300a",
    "read-phylip 320a74302020202020202020203020370a74312020202020202020203620300a",
    "read-phylip -",
    "claim -",
    "claim 3b",
];

pub fn size_line(numbers: &Numbers) -> String {
    format!("size {}{}", five_words(numbers), last_word(numbers))
}

pub fn open_line(numbers: &Numbers, names: &[u8], first: &[u64], second: &[u64]) -> String {
    let (first, second) = (list_word(first), list_word(second));
    format!("open {} {} {first} {second}{}", five_words(numbers), hex(names), last_word(numbers))
}

fn last_word(numbers: &Numbers) -> &str {
    if numbers.lengths {
        " lengths"
    } else {
        ""
    }
}

fn list_word(numbers: &[u64]) -> String {
    if numbers.is_empty() {
        "-".to_string()
    } else {
        comma_list(numbers)
    }
}

fn five_words(numbers: &Numbers) -> String {
    let Numbers { taxa, lanes, tree_room, split_room, places, .. } = numbers;
    format!("{taxa} {lanes} {tree_room} {split_room} {places}")
}

pub fn joined(lines: &[String]) -> Vec<u8> {
    lines.iter().flat_map(|line| format!("{line}\n").into_bytes()).collect()
}
