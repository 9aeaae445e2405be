//! The same texts five ways: cut anywhere and mixed over 8 lanes; whole, in the order of their semicolons; in
//! batches; in NEXUS files; and cut and mixed again with one place and all constants 0. Withdrawals stand in their places.

use crate::files::{can_stand, file_of};
use crate::generator::{first_constants, second_constants, some_names, some_places, some_shapes, some_texts};
use crate::grow::Name;
use crate::labels::{first_outside, is_odd};
use crate::maker::Maker;
use crate::opening::Numbers;
use crate::random::Random;

const LANES: usize = 8;
/// The most texts of a batch.
const MOST_IN_BATCH: usize = 40;
/// The most texts of a file.
const MOST_IN_FILE: usize = 10;

enum Step {
    /// A piece for a lane; it may go on behind a semicolon, and the rest comes again.
    Piece(usize, Vec<u8>),
    Close(usize),
    Withdraw(usize),
    /// A question on the way, for the ways that cut alike.
    Ask(String),
    /// Calls on split files and on matrices in PHYLIP's layout, and claims, for the same ways.
    Files,
    Peek,
}

/// One of the five ways; none for another word.
pub fn way(word: &str) -> Option<fn(u64, usize) -> Vec<u8>> {
    match word {
        "mixed" => Some(|seed, count| cut(&Plan::new(seed, count), false)),
        "whole" => Some(|seed, count| whole(&Plan::new(seed, count))),
        "batched" => Some(|seed, count| batched(&Plan::new(seed, count))),
        "filed" => Some(|seed, count| filed(&Plan::new(seed, count), Random::new(seed))),
        "zeros" => Some(|seed, count| cut(&Plan::new(seed, count), true)),
        _ => None,
    }
}

/// What a seed gives, for every way.
struct Plan {
    names: Vec<Name>,
    numbers: Numbers,
    first: Vec<u64>,
    second: Vec<u64>,
    steps: Vec<Step>,
}

impl Plan {
    /// So many steps.
    fn new(seed: u64, count: usize) -> Plan {
        let mut random = Random::new(seed);
        let names = some_names(&mut random);
        let pool = some_shapes(&mut random, &names);
        let n = names.len();
        let split_room = *random.pick(&[n, 3 * n, 10 * n, 1000]);
        let places = some_places(&mut random, split_room);
        let tree_room = *random.pick(&[8, 200, 1024, 1024]);
        let (taxa, lanes, lengths) = (n as u64, LANES as u64, random.one_in(2));
        let numbers = Numbers { taxa, lanes, tree_room, split_room: split_room as u64, places, lengths };
        let first = first_constants(&mut random, n, places);
        let second = second_constants(&mut random, n);
        let texts = some_texts(&mut random);
        let steps = some_steps(&mut random, count, |random| texts(random, &names, &pool));
        Plan { names, numbers, first, second, steps }
    }

    fn opened(&self) -> Maker {
        Maker::open_with(Random::new(0), self.names.clone(), self.numbers, &self.first, &self.second, 7)
    }

    /// One place, all constants 0, and as much memory.
    fn opened_with_zeros(&self) -> Maker {
        let zeros = vec![0; self.names.len()];
        let numbers = Numbers { places: 1, ..self.numbers };
        Maker::open_with(Random::new(0), self.names.clone(), numbers, &zeros, &zeros, 5 + 2 * self.numbers.places)
    }
}

/// So many steps, with such texts.
fn some_steps(random: &mut Random, count: usize, text: impl Fn(&mut Random) -> Vec<u8>) -> Vec<Step> {
    let mut waiting = vec![Waiting::default(); LANES];
    let mut steps = Vec::new();
    while steps.len() < count {
        let lane = random.below(LANES);
        steps.push(match random.below(100) {
            0..=2 => waiting[lane].close(lane),
            3..=14 => Step::Ask(some_question(random)),
            15..=19 => Step::Withdraw(some_tree(random)),
            20 if random.one_in(4) => Step::Peek,
            21 => Step::Files,
            _ => Step::Piece(lane, waiting[lane].some_piece(random, &text)),
        });
    }
    steps
}

/// Mostly one that there is.
fn some_tree(random: &mut Random) -> usize {
    let (low, high) = (random.below(4), random.below(60));
    *random.pick(&[0, low, low, high, high, 1024])
}

/// What is still to be fed to a lane.
#[derive(Clone, Default)]
struct Waiting {
    bytes: Vec<u8>,
    /// The lane's text so far, without what came before it.
    fed: Vec<u8>,
}

/// A question about the first trees and splits.
pub fn some_question(random: &mut Random) -> String {
    let (a, b) = (random.below(6), random.below(6));
    let lines = [
        "trees".to_string(),
        "count".to_string(),
        "splits".to_string(),
        format!("split {a}"),
        format!("tree {a}"),
        format!("one {a} {b}"),
        format!("two {a} {b}"),
        format!("weighted {a} {b}"),
        format!("weighted {b} {b}"),
        format!("lengths {a}"),
        "strict".to_string(),
        "majority".to_string(),
        "both".to_string(),
        format!("write {b}"),
        "collisions".to_string(),
    ];
    random.pick(&lines).clone()
}

impl Waiting {
    /// The next bytes; they are waited for no more up to the semicolon that ends the text.
    fn some_piece(&mut self, random: &mut Random, text: impl Fn(&mut Random) -> Vec<u8>) -> Vec<u8> {
        if self.bytes.len() < 2 || random.one_in(10) {
            self.bytes.extend(text(random));
            self.bytes.push(b';');
        }
        let most = self.bytes.len();
        let long = random.between(0, most);
        let piece = self.bytes[..*random.pick(&[long, long, most])].to_vec();
        self.bytes.drain(..take(&mut self.fed, &piece).taken);
        piece
    }

    fn close(&mut self, lane: usize) -> Step {
        self.fed.clear();
        Step::Close(lane)
    }
}

/// What a lane takes of a piece, and the text if that ends it.
struct Taken {
    taken: usize,
    text: Option<Vec<u8>>,
}

/// "Up to the first semicolon and that semicolon, or all if there is none", put behind what was fed of the text; the
/// semicolon stands behind an even number of apostrophes.
fn take(fed: &mut Vec<u8>, piece: &[u8]) -> Taken {
    let end = first_outside(is_odd(fed), piece, b';');
    let taken = end.map_or(piece.len(), |at| at + 1);
    fed.extend_from_slice(&piece[..taken]);
    Taken { taken, text: end.map(|_| std::mem::take(fed)) }
}

fn cut(plan: &Plan, zeros: bool) -> Vec<u8> {
    let mut maker = if zeros { plan.opened_with_zeros() } else { plan.opened() };
    for step in &plan.steps {
        match step {
            Step::Piece(lane, piece) => drop(maker.feed(*lane as u64, piece)),
            Step::Close(lane) => maker.close(*lane as u64),
            Step::Withdraw(tree) => maker.withdraw(*tree),
            Step::Ask(line) => maker.ask(line),
            Step::Files => {
                maker.file_calls();
                maker.phylip_calls();
                maker.claim_calls();
            }
            Step::Peek => maker.peek(),
        }
    }
    maker.questions();
    maker.script()
}

/// What the steps come to in whole texts: one with its semicolon, a closing with what the lane then held, or a
/// withdrawal.
enum Whole {
    Text(usize, Vec<u8>),
    Closing(usize, Vec<u8>),
    Withdrawal(usize),
}

fn whole_texts(plan: &Plan) -> Vec<Whole> {
    let mut held = vec![Vec::new(); LANES];
    let mut out = Vec::new();
    for step in &plan.steps {
        match step {
            Step::Piece(lane, piece) => {
                let text = take(&mut held[*lane], piece).text;
                out.extend(text.map(|text| Whole::Text(*lane, text)));
            }
            Step::Close(lane) => out.push(Whole::Closing(*lane, std::mem::take(&mut held[*lane]))),
            Step::Withdraw(tree) => out.push(Whole::Withdrawal(*tree)),
            Step::Ask(_) | Step::Files | Step::Peek => (),
        }
    }
    out
}

fn whole(plan: &Plan) -> Vec<u8> {
    let mut maker = plan.opened();
    for text in whole_texts(plan) {
        match text {
            Whole::Text(lane, text) => drop(maker.feed(lane as u64, &text)),
            Whole::Closing(lane, rest) => {
                maker.feed(lane as u64, &rest);
                maker.close(lane as u64);
            }
            Whole::Withdrawal(tree) => maker.withdraw(tree),
        }
    }
    maker.questions();
    maker.script()
}

/// All in lane 0.
fn batched(plan: &Plan) -> Vec<u8> {
    let mut maker = plan.opened();
    let mut texts: Vec<Vec<u8>> = Vec::new();
    for text in whole_texts(plan) {
        match text {
            Whole::Text(_, text) => texts.push(text),
            Whole::Closing(_, rest) => {
                texts.push(rest);
                batch(&mut maker, &mut texts);
                maker.close(0);
            }
            Whole::Withdrawal(tree) => {
                batch(&mut maker, &mut texts);
                maker.withdraw(tree);
            }
        }
        if texts.len() == MOST_IN_BATCH {
            batch(&mut maker, &mut texts);
        }
    }
    batch(&mut maker, &mut texts);
    maker.questions();
    maker.script()
}

fn batch(maker: &mut Maker, texts: &mut Vec<Vec<u8>>) {
    maker.batch(0, &texts.concat());
    texts.clear();
}

/// In files while the lanes hold what they are closed with; a text that cannot stand in a file is fed to its lane.
fn filed(plan: &Plan, mut random: Random) -> Vec<u8> {
    let mut maker = plan.opened();
    let mut texts: Vec<Vec<u8>> = Vec::new();
    for text in whole_texts(plan) {
        match text {
            Whole::Text(_, text) if can_stand(&text[..text.len() - 1]) => texts.push(text[..text.len() - 1].to_vec()),
            Whole::Text(lane, text) => {
                file(&mut maker, &mut random, &mut texts);
                maker.feed(lane as u64, &text);
            }
            Whole::Closing(lane, rest) => {
                maker.feed(lane as u64, &rest);
                file(&mut maker, &mut random, &mut texts);
                maker.close(lane as u64);
            }
            Whole::Withdrawal(tree) => {
                file(&mut maker, &mut random, &mut texts);
                maker.withdraw(tree);
            }
        }
        if texts.len() == MOST_IN_FILE {
            file(&mut maker, &mut random, &mut texts);
        }
    }
    file(&mut maker, &mut random, &mut texts);
    maker.questions();
    maker.script()
}

/// The texts in a file, with all lent bytes peeked before and after it now and then.
fn file(maker: &mut Maker, random: &mut Random, texts: &mut Vec<Vec<u8>>) {
    let peeks = random.one_in(8);
    let file = file_of(random, &maker.names, texts);
    if peeks {
        maker.peek();
    }
    maker.nexus(&file);
    if peeks {
        maker.peek();
    }
    texts.clear();
}
