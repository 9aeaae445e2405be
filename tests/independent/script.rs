//! Generated lines for `treecalls`.

use crate::calls::Program;
use crate::claims::{claim_line, some_claim};
use crate::files::any_file;
use crate::generator::{
    any_name_list, damage_names, first_constants, second_constants, some_names, some_places, some_shapes, some_texts,
    Texts,
};
use crate::grow::{Name, Shape};
use crate::labels::{first_outside, is_odd};
use crate::maker::{joined, open_line, size_line};
use crate::opening::Numbers;
use crate::phylips::{keep_phylip, some_phylip_line};
use crate::random::Random;
use crate::splitfiles::{keep, some_file_line};
use crate::words::{bytes, hex};

/// So many lines for `treecalls`, after a first opening.
pub fn calls(seed: u64, count: usize) -> Vec<u8> {
    let mut script = Script::new(seed);
    let mut lines = script.opening();
    lines.iter().for_each(|line| script.made(line));
    while lines.len() < count {
        let line = script.line();
        script.made(&line);
        lines.push(line);
    }
    joined(&lines)
}

struct Script {
    random: Random,
    names: Vec<Name>,
    pool: Vec<Shape>,
    texts: Texts,
    numbers: Numbers,
    lent: u64,
    /// What is still to be fed to each lane.
    waiting: Vec<Vec<u8>>,
    /// Whether quotes are open in each lane's text, as far as that is known here.
    odd: Vec<bool>,
    /// Lines that come next, the last one first.
    planned: Vec<String>,
    /// What the lines so far come to, and the split files and the matrices in PHYLIP's layout that were answered.
    program: Program,
    kept: Vec<Vec<u8>>,
    phylips: Vec<Vec<u8>>,
}

/// Lines that are no calls.
const BAD_LINES: [&str; 70] = [
    "",
    " ",
    "trees ",
    " trees",
    "tree",
    "tree x",
    "tree -1",
    "tree 18446744073709551616",
    "feed 0",
    "feed 0 0",
    "feed 0 0G",
    "feed 0 AB",
    "feed  0 -",
    "close",
    "close 0 0",
    "withdraw",
    "withdraw -",
    "withdraw 0 0",
    "withdraw 18446744073709551616",
    "open",
    "agree 1",
    "Trees",
    "size 4 1 1 1",
    "lend 8388609",
    "peek 8388608 1",
    "poke 8388608 00",
    "room",
    "room x",
    "batch 0",
    "nexus",
    "nexus 0",
    "nexus 0 -",
    "nexus  -",
    "weighted 0",
    "weighted 0 0 0",
    "weighted 0 x",
    "lengths",
    "lengths 0 0",
    "lengths -1",
    "size 4 1 1 1 1 Lengths",
    "size 4 1 1 1 1 lengths lengths",
    "size 4 1 1 1 lengths",
    "size lengths",
    "open lengths",
    "file -",
    "file 0",
    "File",
    "records",
    "records 0",
    "records - -",
    "records  -",
    "merge",
    "merge -",
    "merge - 0",
    "merge 0 -",
    "merge - - -",
    "file-strict",
    "file-majority - -",
    "phylip -",
    "phylip 0",
    "read-phylip",
    "read-phylip 0",
    "read-phylip - -",
    "readphylip -",
    "claim",
    "claim 0",
    "claim 3B",
    "claim - -",
    "claim 1 3b",
    "claims 3b",
];

/// The longest piece of one feeding or batch.
const LONGEST_PIECE: usize = 7000;

impl Script {
    fn new(seed: u64) -> Script {
        let mut random = Random::new(seed);
        let names = some_names(&mut random);
        let pool = some_shapes(&mut random, &names);
        let texts = some_texts(&mut random);
        let numbers = some_numbers(&mut random, names.len());
        let waiting = vec![Vec::new(); 9];
        let (odd, planned, program) = (vec![false; 9], Vec::new(), Program::new());
        let (kept, phylips) = (Vec::new(), Vec::new());
        Script { random, names, pool, texts, numbers, lent: 0, waiting, odd, planned, program, kept, phylips }
    }

    /// Makes a call, and keeps the split file or the matrix that it answers.
    fn made(&mut self, line: &str) {
        let answer = self.program.answer(line.as_bytes());
        let file = answer.strip_prefix(b"bytes ").and_then(bytes);
        match (line, file) {
            ("file", Some(file)) => keep(&mut self.kept, file),
            ("phylip", Some(file)) => keep_phylip(&mut self.phylips, file),
            _ => (),
        }
    }

    /// Memory of about the right size, and the opening.
    fn opening(&mut self) -> Vec<String> {
        let size = self.numbers.size().expect("numbers in range");
        self.lent = size + *self.random.pick(&[0, 0, 1, 100]);
        vec![size_line(&self.numbers), format!("lend {}", self.lent), self.open_line()]
    }

    fn open_line(&mut self) -> String {
        let (n, places) = (self.names.len(), self.numbers.places);
        let first = first_constants(&mut self.random, n, places);
        let second = second_constants(&mut self.random, n);
        let list = any_name_list(&mut self.random, &self.names);
        self.odd.fill(false);
        open_line(&self.numbers, &list, &first, &second)
    }

    fn line(&mut self) -> String {
        if let Some(line) = self.planned.pop() {
            return line;
        }
        match self.random.below(100) {
            0..=45 => self.feed_line(),
            46..=50 => self.batch_line(),
            51..=54 => self.nexus_line(),
            55..=57 => self.close_line(),
            58..=61 => self.withdraw_line(),
            62..=90 => self.question_line(),
            91..=94 => self.room_line(),
            95..=97 => self.bad_opening_line(),
            98 => self.bad_line(),
            _ => self.memory_line(),
        }
    }

    /// Mostly a lane that there is.
    fn lane(&mut self) -> usize {
        let lanes = self.numbers.lanes as usize;
        if self.random.one_in(20) {
            self.random.between(lanes, 8)
        } else {
            self.random.below(lanes)
        }
    }

    /// A piece cut anywhere; what a feeding leaves behind the semicolon is fed next.
    fn feed_line(&mut self) -> String {
        let lane = self.lane();
        let piece = self.piece(lane);
        let end = first_outside(self.odd[lane], &piece, b';');
        self.odd[lane] = end.is_none() && self.odd[lane] != is_odd(&piece);
        self.waiting[lane].drain(..end.map_or(piece.len(), |at| at + 1));
        format!("feed {lane} {}", hex(&piece))
    }

    fn close_line(&mut self) -> String {
        let lane = self.lane();
        self.odd[lane] = false;
        format!("close {lane}")
    }

    fn withdraw_line(&mut self) -> String {
        format!("withdraw {}", self.small())
    }

    fn batch_line(&mut self) -> String {
        let lane = self.lane();
        for _ in 0..self.random.below(4) {
            self.refill(lane);
        }
        let piece = self.piece(lane);
        self.waiting[lane].drain(..piece.len());
        self.odd[lane] ^= is_odd(&piece);
        format!("batch {lane} {}", hex(&piece))
    }

    fn nexus_line(&mut self) -> String {
        format!("nexus {}", hex(&any_file(&mut self.random, &self.names, &self.pool)))
    }

    fn piece(&mut self, lane: usize) -> Vec<u8> {
        if self.waiting[lane].is_empty() {
            self.refill(lane);
        }
        let all = self.waiting[lane].len().min(LONGEST_PIECE);
        let cut = self.random.between(0, all);
        let long = *self.random.pick(&[cut, all, all]);
        self.waiting[lane][..long].to_vec()
    }

    fn refill(&mut self, lane: usize) {
        let mut text = (self.texts)(&mut self.random, &self.names, &self.pool);
        text.push(b';');
        self.waiting[lane].extend(text);
    }

    fn question_line(&mut self) -> String {
        let (a, b) = (self.small(), self.small());
        let masks = (self.random.next() % 64, self.random.next() % 64);
        match self.random.below(30) {
            0 => "trees".to_string(),
            1 => "count".to_string(),
            2 => "splits".to_string(),
            3 => format!("split {a}"),
            4 => format!("tree {a}"),
            5 => format!("one {a} {b}"),
            6 => format!("two {a} {b}"),
            7 => "matrix".to_string(),
            8 => "strict".to_string(),
            9 => "majority".to_string(),
            10 => "both".to_string(),
            11 => format!("write {a}"),
            12 => "collisions".to_string(),
            13 => format!("agree {} {}", masks.0, masks.1),
            14 | 15 => format!("weighted {a} {b}"),
            16 => format!("lengths {a}"),
            17 => "file".to_string(),
            18..=20 => some_file_line(&mut self.random, self.names.len(), &self.kept),
            21 => "phylip".to_string(),
            22..=24 => some_phylip_line(&mut self.random, &self.phylips),
            25..=28 => self.claim_line(),
            _ => format!("agree {} {}", self.random.next(), self.random.next()),
        }
    }

    /// On the collection that there is now, over the names of the openings.
    fn claim_line(&mut self) -> String {
        claim_line(&some_claim(&mut self.random, &self.names, self.program.held()))
    }

    /// A tree or split number that is mostly there, or far from it.
    fn small(&mut self) -> u64 {
        let small = self.random.below(8) as u64;
        let number = self.random.next();
        *self.random.pick(&[small, small, small, small, small, 40, 1024, 1 << 32, number, u64::MAX])
    }

    fn room_line(&mut self) -> String {
        let most = *self.random.pick(&[1, 10, 100, 3000]);
        let room = self.random.between(0, most);
        if self.random.one_in(2) {
            "room -".to_string()
        } else {
            format!("room {room}")
        }
    }

    /// An opening or a size with one number, list or name changed: nearly always refused, and then it changes nothing.
    fn bad_opening_line(&mut self) -> String {
        let numbers = changed_numbers(&mut self.random, self.numbers);
        if self.random.one_in(2) {
            return size_line(&numbers);
        }
        let mut list = any_name_list(&mut self.random, &self.names);
        damage_names(&mut self.random, &mut list);
        let zeros = vec![0; self.names.len() - self.random.below(2)];
        let numbers = if self.random.one_in(2) { numbers } else { self.numbers };
        open_line(&numbers, &list, &zeros, &zeros)
    }

    fn bad_line(&mut self) -> String {
        self.random.pick(&BAD_LINES).to_string()
    }

    /// All lent memory, that behind the store, the store damaged, the memory lent again, or the store opened again.
    fn memory_line(&mut self) -> String {
        let size = self.numbers.size().expect("numbers in range");
        match self.random.below(9) {
            0 => format!("peek {size} 1"),
            1 => format!("poke {size} 07"),
            2 => format!("peek {size} 0"),
            3 => self.lend_again(size),
            4 | 5 => self.peek_all(),
            6 => self.damage_store(size as usize),
            _ => self.open_line(),
        }
    }

    fn peek_all(&self) -> String {
        format!("peek 0 {}", self.lent)
    }

    /// All bytes peeked, one of them changed, some calls, and the store opened again.
    fn damage_store(&mut self, size: usize) -> String {
        let at = self.random.below(size);
        let most = *self.random.pick(&[16, 4096, size]);
        let byte = self.random.below(256);
        let open = self.open_line();
        self.planned.push(open);
        self.planned.push(self.peek_all());
        for _ in 0..4 {
            let call = match self.random.below(7) {
                0 => self.feed_line(),
                1 => self.nexus_line(),
                2 => self.withdraw_line(),
                _ => self.question_line(),
            };
            self.planned.push(call);
        }
        self.planned.push(format!("poke {} {byte:02x}", at % most));
        self.peek_all()
    }

    /// Too little memory first; then enough, with calls before the opening.
    fn lend_again(&mut self, size: u64) -> String {
        let before = [self.question_line(), self.feed_line(), self.nexus_line(), self.close_line()];
        let withdraw = self.withdraw_line();
        let open = self.open_line();
        self.planned.push(open);
        self.planned.extend(before);
        self.planned.push(withdraw);
        self.lent = size + 5;
        self.planned.push(format!("lend {}", self.lent));
        let open = self.open_line();
        self.planned.push(open);
        format!("lend {}", size - 1)
    }
}

fn some_numbers(random: &mut Random, n: usize) -> Numbers {
    let lanes = random.between(1, 8) as u64;
    let tree_room = *random.pick(&[1, 5, 40, 200, 1024]);
    let split_room = *random.pick(&[1, n, 3 * n, 5 * n, 4096]);
    let places = some_places(random, split_room);
    let lengths = random.one_in(2);
    Numbers { taxa: n as u64, lanes, tree_room, split_room: split_room as u64, places, lengths }
}

fn changed_numbers(random: &mut Random, numbers: Numbers) -> Numbers {
    let mut changed = numbers;
    let value = *random.pick(&[0, 1, 3, 4, 8, 9, 64, 65, 1024, 1025, 4096, 4097, 8192, 8193, u64::MAX]);
    match random.below(6) {
        0 => changed.taxa = value,
        1 => changed.lanes = value,
        2 => changed.tree_room = value,
        3 => changed.split_room = value,
        4 => changed.places = value,
        _ => changed.lengths = !changed.lengths,
    }
    changed
}
