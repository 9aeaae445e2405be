//! Branch lengths: each length by hand, at each place of a text; two-child roots; sums in orders in which the rounding
//! shows, and of the trees that withdrawals leave; lengths cut at each byte, at the limit of a text, and in NEXUS files;
//! then collections by chance. Lengths are kept or not.

use crate::collection::Fed;
use crate::files::{can_stand, file_of};
use crate::generator::{measured_text, one_text, some_shapes};
use crate::grow::{names, shape, tokens, Name, Shape, BARE};
use crate::labels::first_outside;
use crate::lengthsamples::{ADDENDS, FAULTY, OUTSIDE, PLACES, VALUES};
use crate::maker::Maker;
use crate::opening::Numbers;
use crate::random::Random;
use crate::verdict::MOST_BYTES;

/// The cases by hand, and so many collections by chance.
pub fn lengths(seed: u64, count: usize) -> Vec<u8> {
    let mut random = Random::new(seed);
    let mut out = Vec::new();
    for part in [values, places, roots, every_cut, long_lengths, in_files] {
        for kept in [true, false] {
            out.extend(part(Random::new(random.next()), kept));
        }
    }
    for part in [orders_of_trees, orders_of_masks] {
        out.extend(part(Random::new(random.next())));
    }
    for _ in 0..count {
        out.extend(by_chance(Random::new(random.next())));
    }
    out
}

/// Over the names A to E, with a tree without splits as number 0.
fn opened(random: Random, tree_room: u64, lengths: bool) -> Maker {
    let names: Vec<Name> = (b'A'..=b'E').map(|letter| vec![letter]).collect();
    let numbers = Numbers { taxa: 5, lanes: 3, tree_room, split_room: 10, places: 7, lengths };
    let mut maker = Maker::open(random, names, numbers, 3);
    maker.text(b"(A:1,B:-2,C,D,E:.5):3");
    maker
}

impl Maker {
    /// Feeds a text to some lane; the distances of an accepted tree to the first, to the one before and to itself.
    fn weighed(&mut self, text: &str) {
        let lane = self.random.below(3) as u64;
        if let Fed::Accepted { tree, .. } = self.feed(lane, format!("{text};").as_bytes()) {
            self.ask(format!("weighted 0 {tree}"));
            self.ask(format!("weighted {tree} {}", tree.saturating_sub(1)));
            self.ask(format!("weighted {tree} {tree}"));
        }
    }
}

// By hand

/// Every length by hand, in the exact range and outside it.
fn every_length() -> impl Iterator<Item = &'static str> {
    VALUES.iter().map(|(length, _)| *length).chain(OUTSIDE)
}

/// Each as one of two, so that signs and the order of adding show.
fn values(random: Random, kept: bool) -> Vec<u8> {
    let mut maker = opened(random, 130, kept);
    for (i, length) in every_length().enumerate() {
        maker.weighed(&format!("((A,B):{length},C,(D,E):1)"));
        maker.ask("lengths 0");
        maker.ask("lengths 1");
        if i % 30 == 0 {
            maker.peek();
        }
    }
    maker.peek();
    maker.questions();
    maker.script()
}

/// At each place of a text, with other faults beside it too.
fn places(random: Random, kept: bool) -> Vec<u8> {
    let mut maker = opened(random, 160, kept);
    for text in PLACES.into_iter().chain(FAULTY.map(|(text, _)| text)) {
        for length in ["1", "-0", "1e22", "-2.5", "1e23", "9007199254740993", "0E-23"] {
            maker.weighed(&text.replace('L', length));
        }
        for split in 0..4 {
            maker.ask(format!("lengths {split}"));
        }
        maker.peek();
    }
    maker.questions();
    maker.script()
}

/// Two-child roots: both lengths, one or none, in either order, a leaf beside a node, a root below the root.
const ROOTS: [&str; 6] = [
    "((A,B)X,(C,D,E)Y)",
    "((D,(C,E):1)Y,(A,B)X)",
    "((A,B)X,(C,(D,E)Y)X):7",
    "(A:1,(B,(C,D,E)X)Y)",
    "((B,(C,(D,E)X)Y):2,A)",
    "((A,C)X,(B,D,E)Y)Y",
];

fn roots(random: Random, kept: bool) -> Vec<u8> {
    let mut maker = opened(random, 250, kept);
    let lengths: Vec<String> = ADDENDS.iter().map(|length| format!(":{length}")).chain([String::new()]).collect();
    for x in &lengths {
        for y in &lengths {
            let root = *maker.random.pick(&ROOTS);
            maker.weighed(&root.replace('X', x).replace('Y', y));
        }
        let split = maker.random.below(6);
        maker.ask(format!("lengths {split}"));
    }
    maker.peek();
    maker.questions();
    maker.script()
}

// Orders of adding

/// Lengths that give other sums in other orders.
const ADDED: [[&str; 6]; 5] = [
    ["9007199254740992", "1", "1", "1", "-9007199254740992", "0.1"],
    ["0.1", "0.2", "0.3", "0.7", "-0.3", "1e-22"],
    ["1e22", "1", "-1e22", "1e-22", "3", "-3"],
    ["9007199254740991", "0.5", "0.5", ".25", "-1", "2"],
    ["5", "-5", "0", "-0", "1e-10", "-1e-10"],
];

/// The same lengths over the trees, in several orders; every tree has the split. Then one after another is withdrawn, so
/// that a sum from which a length is taken away again differs from one added afresh.
fn orders_of_trees(mut random: Random) -> Vec<u8> {
    let mut out = Vec::new();
    for added in ADDED.into_iter().cycle().take(4 * ADDED.len()) {
        let mut lengths = added;
        random.shuffle(&mut lengths);
        let mut maker = opened(Random::new(random.next()), 8, true);
        for length in lengths {
            maker.weighed(&format!("((A,B):{length},C,D,E)"));
            maker.ask("lengths 0");
        }
        maker.peek();
        for left in (1..=lengths.len()).rev() {
            let tree = maker.random.between(1, left);
            maker.withdraw(tree);
            maker.ask("lengths 0");
            maker.ask("weighted 0 1");
        }
        maker.peek();
        out.extend(maker.script());
    }
    out
}

/// The same lengths over the splits of trees, so that the masks of either tree have them in several orders.
fn orders_of_masks(mut random: Random) -> Vec<u8> {
    let names = names(&mut random, 9);
    let numbers = Numbers { taxa: 9, lanes: 1, tree_room: 40, split_room: 250, places: 31, lengths: true };
    let mut maker = Maker::open(random, names, numbers, 0);
    for added in ADDED.into_iter().cycle().take(5 * ADDED.len()) {
        let tree = shape(&mut maker.random, &maker.names, 2);
        let bare = tokens(&mut maker.random, &tree, BARE).concat();
        let text = with_lengths(&mut maker.random, &bare, &added);
        maker.text(&text);
    }
    for i in 0..maker.held.number_of_trees() {
        for j in [i / 2, i + 1, 0] {
            maker.ask(format!("weighted {i} {j}"));
        }
    }
    maker.peek();
    maker.questions();
    maker.script()
}

/// One of these lengths for each node of a text that has none.
pub fn with_lengths(random: &mut Random, bare: &[u8], lengths: &[&str]) -> Vec<u8> {
    let mut out = Vec::new();
    let mut rest = bare;
    // What stands before a comma or a closing bracket outside quotes is a node.
    while let Some(end) = [b',', b')'].iter().filter_map(|sign| first_outside(false, rest, *sign)).min() {
        out.extend([&rest[..end], b":", random.pick(lengths).as_bytes(), &rest[end..=end]].concat());
        rest = &rest[end + 1..];
    }
    out.extend(rest);
    out
}

// Lengths in pieces, at the limit, in files

/// Texts cut at each place, the pieces of one between those of the other.
fn every_cut(random: Random, kept: bool) -> Vec<u8> {
    let mut maker = opened(random, 250, kept);
    let first = b"((A:+.5,B) : -12.5e-03\t,C:1E+22,(D,E)x:00.1E1):1;";
    let second = b"((A,B):9007199254740992e-22,(C,(D,E):1e-23):0.5);";
    for cut in 0..=first.len().max(second.len()) {
        let halves = [&first[..], second].map(|text| text.split_at(cut.min(text.len())));
        maker.feed(0, halves[0].0);
        maker.feed(1, halves[1].0);
        maker.feed(0, halves[0].1);
        maker.feed(1, halves[1].1);
    }
    maker.peek();
    maker.questions();
    maker.script()
}

/// Lengths of thousands of digits, up to the most bytes of a text and one past them.
fn long_lengths(random: Random, kept: bool) -> Vec<u8> {
    let mut maker = opened(random, 60, kept);
    for long in [100, 1000, MOST_BYTES - 1, MOST_BYTES, MOST_BYTES + 1] {
        for (front, digit, behind) in [
            ("", "0", ""),
            ("-", "0", "7"),
            ("1.", "0", ""),
            ("0.", "0", ""),
            ("7e", "0", "22"),
            ("7e-", "0", "23"),
            ("", "9", ""),
            ("1", "0", "e-4000"),
            ("1e-", "9", ""),
        ] {
            let text = format!("((A,B):{front}FILL{behind},C,(D,E):1)");
            let fill = digit.repeat(long + 4 - text.len());
            maker.weighed(&text.replace("FILL", &fill));
        }
        // As many zeros behind the point as the exponent takes away.
        let zeros = long - "((A,B):-.7E0000,C,(D,E):1)".len();
        for less in [0, 21, 22, 23] {
            let exponent = zeros + 1 - less;
            maker.weighed(&format!("((A,B):-.{}7E{exponent:04},C,(D,E):1)", "0".repeat(zeros)));
        }
        maker.ask("lengths 1");
        maker.peek();
    }
    maker.questions();
    maker.script()
}

/// Keys are numbers as lengths are, but behind a colon or a bracket they stand for themselves.
fn in_files(random: Random, kept: bool) -> Vec<u8> {
    let mut maker = opened(random, 130, kept);
    maker.feed(2, b"((A,B):1");
    let all: Vec<&str> = every_length().collect();
    for lengths in all.chunks(12) {
        let tree = |length: &&str| format!("TREE t=[&R]((1:1,2)[a]:[b]{length}[c],3:3,(4:[']4,5)2:5)1: {length};\n");
        let trees: String = lengths.iter().map(tree).collect();
        let keys = "TRANSLATE 1 A,2 B,3 C,4 D,5 E,0.1 B,1e22 C;\n";
        maker.nexus(format!("#NEXUS BEGIN TREES; {keys}{trees}END;").as_bytes());
        maker.peek();
    }
    maker.feed(2, b"e22,C,(D,E):2);");
    maker.questions();
    maker.script()
}

// By chance

/// Texts whole, cut over two lanes, in batches and in files; every question, and the distances of all trees.
fn by_chance(mut random: Random) -> Vec<u8> {
    let n = *random.pick(&[4, 5, 6, 7, 8, 9, 12, 20, 64]);
    let names = names(&mut random, n);
    let pool = some_shapes(&mut random, &names);
    let (split_room, lengths) = (8 * n as u64, !random.one_in(4));
    let numbers = Numbers { taxa: n as u64, lanes: 3, tree_room: 14, split_room, places: 13, lengths };
    let mut maker = Maker::open(random, names, numbers, 1);
    for _ in 0..10 {
        feed_some(&mut maker, &pool);
        if maker.random.one_in(3) {
            maker.withdraw_some();
        }
    }
    maker.peek();
    maker.questions();
    for i in 0..maker.held.number_of_trees() {
        (0..i).for_each(|j| maker.ask(format!("weighted {i} {j}")));
    }
    maker.script()
}

fn feed_some(maker: &mut Maker, pool: &[Shape]) {
    let one = if maker.random.one_in(8) { one_text } else { measured_text };
    let texts = [(); 3].map(|()| one(&mut maker.random, &maker.names, pool));
    let ended: Vec<Vec<u8>> = texts.iter().map(|text| [&text[..], b";"].concat()).collect();
    match maker.random.below(4) {
        0 => maker.batch(2, &ended.concat()),
        1 if texts.iter().all(|text| can_stand(text)) => {
            let file = file_of(&mut maker.random, &maker.names, &texts);
            maker.nexus(&file);
        }
        2 => drop(maker.feed(1, &ended[0])),
        _ => {
            let cut = maker.random.between(0, ended[0].len());
            maker.feed(0, &ended[0][..cut]);
            maker.feed(1, &ended[1]);
            maker.feed(0, &ended[0][cut..]);
        }
    }
}
