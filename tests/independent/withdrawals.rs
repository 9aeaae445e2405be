//! Withdrawals and acceptances in a row at full tree room and at full split room: each text is refused before a
//! withdrawal and accepted after it. Then every tree is withdrawn, and the empty collection is filled again.

use crate::consensus::written;
use crate::files::file_of;
use crate::generator::{first_constants, second_constants};
use crate::grow::names;
use crate::lengthsamples::ADDENDS;
use crate::lengthscript::with_lengths;
use crate::limits::{bare_text, some_new_splits, thinned};
use crate::maker::Maker;
use crate::mixed::some_question;
use crate::opening::Numbers;
use crate::random::Random;
use crate::verdict::Masks;

/// So many withdrawals in a row for each room, with lengths kept and not, with constants by chance and all 0; at last in
/// the largest tree room.
pub fn withdrawals(seed: u64, count: usize) -> Vec<u8> {
    let mut random = Random::new(seed);
    let mut out = Vec::new();
    for full in [Full::Trees, Full::Splits] {
        for (lengths, zeros) in [(true, false), (false, true)] {
            let numbers = some_numbers(&mut random, full, lengths);
            out.extend(Row::open(Random::new(random.next()), full, numbers, zeros).script(count));
        }
    }
    let numbers = Numbers { taxa: 7, lanes: 2, tree_room: 1024, split_room: 56, places: 112, lengths: true };
    out.extend(Row::open(random, Full::Trees, numbers, false).script(count));
    out
}

/// What is full where a text is refused: 11 or 12.
#[derive(Clone, Copy, PartialEq)]
enum Full {
    Trees,
    Splits,
}

/// The other room is not full: there is one for every split that the trees can have, or for more trees than are kept.
fn some_numbers(random: &mut Random, full: Full, lengths: bool) -> Numbers {
    let n = *random.pick(&[7, 8, 9, 16, 64]);
    let (tree_room, split_room) = match full {
        Full::Trees => {
            let trees = *random.pick(&[2, 7, 40]);
            (trees, trees * n)
        }
        Full::Splits => (60, random.between(n, 3 * n)),
    };
    let places = random.between(1, 2 * split_room) as u64;
    let lanes = random.between(2, 8) as u64;
    Numbers { taxa: n as u64, lanes, tree_room: tree_room as u64, split_room: split_room as u64, places, lengths }
}

struct Row {
    maker: Maker,
    full: Full,
    withdrawn: usize,
}

impl Row {
    fn open(mut random: Random, full: Full, numbers: Numbers, zeros: bool) -> Row {
        let n = numbers.taxa as usize;
        let names = names(&mut random, n);
        let (first, second) = match zeros {
            true => (vec![0; n], vec![0; n]),
            false => (first_constants(&mut random, n, numbers.places), second_constants(&mut random, n)),
        };
        let maker = Maker::open_with(random, names, numbers, &first, &second, 5);
        Row { maker, full, withdrawn: 0 }
    }

    /// So many withdrawals, every question, none left, and the same once more.
    fn script(mut self, count: usize) -> Vec<u8> {
        self.maker.withdraw(0);
        while self.withdrawn < count {
            self.fill();
            match self.maker.random.below(8) {
                0 => self.in_mid_text(),
                _ => self.exchange(),
            }
        }
        self.ask_all();
        self.withdraw_all();
        self.exchange_from_none();
        self.maker.script()
    }

    // Rooms

    fn trees(&self) -> usize {
        self.maker.held.number_of_trees()
    }

    /// Fills the room to the last.
    fn fill(&mut self) {
        match self.full {
            Full::Trees => {
                while self.trees() < self.maker.numbers.tree_room as usize {
                    let text = self.any_text();
                    self.hand_in(&text);
                }
            }
            Full::Splits => self.fill_splits(),
        }
    }

    /// Behind it comes a tree without new splits, now and then.
    fn fill_splits(&mut self) {
        let room = self.maker.numbers.split_room as usize;
        while self.maker.held.counts().len() < room || self.is_crowded() {
            if self.is_crowded() {
                self.withdraw();
                continue;
            }
            let most = room - self.maker.held.counts().len();
            let splits = some_new_splits(&mut self.maker, most);
            let text = self.text_of(&splits);
            self.hand_in(&text);
        }
        if self.maker.random.one_in(3) {
            let text = self.text_alike();
            self.hand_in(&text);
        }
    }

    /// Whether the trees that the lanes may end would come to the tree room.
    fn is_crowded(&self) -> bool {
        self.trees() as u64 + self.maker.numbers.lanes >= self.maker.numbers.tree_room
    }

    // Texts

    /// By chance, or like a tree that is there.
    fn any_text(&mut self) -> Vec<u8> {
        if self.trees() > 0 && self.maker.random.one_in(3) {
            return self.text_alike();
        }
        let most_children = *self.maker.random.pick(&[2, 3, 6]);
        let bare = bare_text(&mut self.maker.random, &self.maker.names, most_children);
        self.measured(bare)
    }

    /// One of the trees that are there, without some of its splits.
    fn text_alike(&mut self) -> Vec<u8> {
        let tree = self.maker.random.below(self.trees());
        let splits = self.maker.held.trees()[tree].splits.clone();
        let some = thinned(&mut self.maker, &[splits]);
        self.text_of(&some)
    }

    fn text_of(&mut self, splits: &Masks) -> Vec<u8> {
        let mut text = written(&self.maker.names, splits);
        text.pop();
        self.measured(text)
    }

    /// With lengths, mostly.
    fn measured(&mut self, bare: Vec<u8>) -> Vec<u8> {
        if self.maker.random.one_in(30) {
            return bare;
        }
        with_lengths(&mut self.maker.random, &bare, &ADDENDS)
    }

    /// A text that the full room refuses.
    fn refused_text(&mut self) -> Vec<u8> {
        if self.full == Full::Trees {
            return self.any_text();
        }
        let most = self.maker.random.between(1, 3);
        loop {
            let splits = some_new_splits(&mut self.maker, most);
            if splits.iter().any(|mask| !self.maker.held.counts().contains_key(mask)) {
                return self.text_of(&splits);
            }
        }
    }

    // Calls

    /// Hands a text in by feeding, in a batch or in a file; answers whether it was accepted.
    fn hand_in(&mut self, text: &[u8]) -> bool {
        let before = self.trees();
        let lane = self.maker.random.below(self.maker.numbers.lanes as usize) as u64;
        let ended = [text, b";"].concat();
        match self.maker.random.below(5) {
            0 => self.maker.batch(lane, &ended),
            1 => self.hand_in_file(&[text.to_vec()]),
            _ => drop(self.maker.feed(lane, &ended)),
        }
        self.trees() > before
    }

    fn hand_in_file(&mut self, texts: &[Vec<u8>]) {
        let file = file_of(&mut self.maker.random, &self.maker.names, texts);
        self.maker.nexus(&file);
    }

    /// One of the trees, and now and then a question; all lent bytes too, if they are few.
    fn withdraw(&mut self) {
        self.maker.withdraw_some();
        self.withdrawn += 1;
        if self.maker.random.one_in(6) {
            let question = some_question(&mut self.maker.random);
            self.maker.ask(question);
        }
        if self.maker.random.one_in(30) {
            self.maker.file_calls();
            self.maker.phylip_calls();
            self.maker.claim_calls();
        }
        if self.maker.random.one_in(20 + self.maker.lent as usize / 1000) {
            self.maker.peek();
        }
    }

    /// A text that is refused, and accepted once enough is withdrawn.
    fn exchange(&mut self) {
        let text = self.refused_text();
        assert!(!self.hand_in(&text), "a full room takes a text");
        self.withdraw();
        while !self.hand_in(&text) {
            self.withdraw();
        }
    }

    /// Every lane holds the front of a text that is refused in a file; then one tree is withdrawn for each, and the text
    /// ended.
    fn in_mid_text(&mut self) {
        let texts: Vec<Vec<u8>> = (0..self.maker.numbers.lanes).map(|_| self.refused_text()).collect();
        let halves: Vec<(&[u8], &[u8])> =
            texts.iter().map(|text| text.split_at(self.maker.random.between(0, text.len()))).collect();
        for (lane, (front, _)) in halves.iter().enumerate() {
            self.maker.feed(lane as u64, front);
        }
        self.hand_in_file(&texts);
        for (lane, (_, rest)) in halves.iter().enumerate() {
            self.withdraw();
            self.maker.feed(lane as u64, &[rest, &b";"[..]].concat());
        }
    }

    /// All questions and all lent bytes at a full room.
    fn ask_all(&mut self) {
        self.fill();
        self.maker.peek();
        self.maker.questions();
    }

    /// One tree after another, down to the only one and to none, each time with one past the last; every question on the
    /// last few.
    fn withdraw_all(&mut self) {
        while self.trees() > 0 {
            let trees = self.trees();
            self.maker.withdraw(trees);
            self.withdraw();
            if self.trees() < 4 {
                self.maker.questions();
                self.maker.peek();
            }
        }
        self.maker.withdraw(0);
    }

    /// From the empty collection on: the only tree is withdrawn, and the room is filled again.
    fn exchange_from_none(&mut self) {
        for _ in 0..3 {
            let text = self.any_text();
            self.hand_in(&text);
            self.maker.withdraw(1);
            self.maker.withdraw(0);
            self.maker.peek();
        }
        self.fill();
        self.exchange();
        self.ask_all();
    }
}
