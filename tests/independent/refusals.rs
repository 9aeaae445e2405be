//! Every refusal number in every place that can give it, with all lent bytes peeked before and after.

use crate::claimrefusals::{claims, claims_at_full_rooms, refused_claims};
use crate::collection::Collection;
use crate::filerefusals::{files, files_at_full_rooms, refused_files};
use crate::generator::{first_constants, name_list, second_constants};
use crate::grow::{names, shape, text_of, Name};
use crate::labels::{quoted, written_name, written_names};
use crate::lengthsamples::ADDENDS;
use crate::lengthscript::with_lengths;
use crate::limits::bare_text;
use crate::maker::{every_call, open_line, size_line, Maker};
use crate::opening::Numbers;
use crate::phyliprefusals::{phylip_answers_with_lengths, refused_phylips};
use crate::random::Random;
use crate::splitfilerefusals::{file_answers_with_lengths, refused_split_files};
use crate::verdict::MOST_BYTES;
use crate::withdrawrefusals::{withdrawals, withdrawals_at_full_rooms};
use crate::words::hex;

/// Numbers that are past the range of any lane, tree or split.
pub const FAR: [u64; 5] = [1025, 4097, 1 << 32, (1 << 32) + 1, u64::MAX];

/// A script of so many rounds, each over names and numbers of its own.
pub fn refusals(seed: u64, count: usize) -> Vec<u8> {
    let mut random = Random::new(seed);
    (0..count).flat_map(|i| round(Random::new(random.next()), i % 2 == 0)).collect()
}

fn round(mut random: Random, lengths: bool) -> Vec<u8> {
    let n = *random.pick(&[5, 6, 9, 64]);
    let names = names(&mut random, n);
    let lanes = random.between(1, 8) as u64;
    let (tree_room, split_room) = (random.between(3, 6) as u64, 3 * n as u64);
    let places = random.between(1, 2 * split_room as usize) as u64;
    let numbers = Numbers { taxa: n as u64, lanes, tree_room, split_room, places, lengths };
    let mut maker = Maker::open(random, names, numbers, 9);
    no_trees(&mut maker);
    lanes_and_texts(&mut maker);
    files(&mut maker);
    numbers_and_rooms(&mut maker);
    claims(&mut maker);
    withdrawals(&mut maker);
    full_rooms(&mut maker);
    openings(&mut maker);
    not_whole(&mut maker);
    maker.script()
}

impl Maker {
    /// A call, and all lent bytes after it.
    pub fn watched(&mut self, line: impl ToString) {
        self.ask(line);
        self.peek();
    }

    pub fn any_text(&mut self) -> Vec<u8> {
        let shape = shape(&mut self.random, &self.names, 3);
        text_of(&mut self.random, &shape)
    }

    /// Leaves in one bracket: a tree without splits.
    pub fn star(&self, leaves: &[Name]) -> Vec<u8> {
        [&b"("[..], &written_names(leaves, b','), b")"].concat()
    }

    pub fn watched_text(&mut self, text: &[u8]) {
        self.text(text);
        self.peek();
    }
}

/// 14 and 13 before 4, 14 before 6 to 10, and the answers of an empty collection in buffers of no element.
fn no_trees(maker: &mut Maker) {
    maker.peek();
    for room in ["room 0", "room -"] {
        maker.ask(room);
        for line in ["strict", "majority", "both", "tree 0", "write 0", "split 0", "one 0 0", "two 0 0"] {
            maker.watched(line);
        }
        for line in ["weighted 0 0", "lengths 0", "matrix", "splits", "withdraw 0", "withdraw 1", "file", "records -"] {
            maker.watched(line);
        }
        for line in ["batch 0 -", "phylip", "read-phylip 300a"] {
            maker.watched(line);
        }
        for line in refused_claims(maker) {
            maker.watched(line);
        }
    }
}

/// 5 in each place, before 4; verdicts 6 to 10 and 17, and their order; closings.
fn lanes_and_texts(maker: &mut Maker) {
    let lanes = maker.numbers.lanes;
    maker.ask("room 0");
    for lane in [lanes, lanes + 1, 8, 255, 256].into_iter().chain(FAR).filter(|lane| *lane >= lanes) {
        let text = [maker.any_text(), b";".to_vec()].concat();
        for piece in [&b""[..], b"(", &text] {
            maker.watched(format!("feed {lane} {}", hex(piece)));
            maker.watched(format!("batch {lane} {}", hex(piece)));
        }
        maker.watched(format!("close {lane}"));
    }
    maker.watched(format!("batch 0 {}", hex(b";")));
    maker.ask("room -");
    for text in faulty_texts(maker) {
        maker.watched_text(&text);
        maker.batch(lanes - 1, &[&text, &b";"[..], &text[..text.len().min(5000)], b";"].concat());
        maker.peek();
    }
    closings(maker);
}

/// Texts with one or more faults, from 6 to 10, and where lengths are kept 17.
pub fn faulty_texts(maker: &mut Maker) -> Vec<Vec<u8>> {
    let mut texts = faults_of_form_and_leaves(maker);
    if maker.numbers.lengths {
        texts.extend(outside_the_range(maker));
    }
    texts
}

/// Lengths of the root, of a leaf and of a node, alone and beside other faults.
fn outside_the_range(maker: &mut Maker) -> Vec<Vec<u8>> {
    let star = maker.star(&maker.names);
    let bare = bare_text(&mut maker.random, &maker.names, 3);
    let all = with_lengths(&mut maker.random, &bare, &ADDENDS);
    let behind = |text: &[u8], more: &str| [text, more.as_bytes()].concat();
    vec![
        behind(&star, ":1e23"),
        behind(&all, " : -9007199254740993"),
        with_lengths(&mut maker.random, &bare, &["1.0e-22"]),
        with_lengths(&mut maker.random, &bare, &["1", "0e18446744073709551616"]),
        behind(&star, ":1e23:1"),
        behind(&maker.star(&maker.names[1..]), ":1e23"),
        [&behind(&star, ":1e23")[..], &vec![b' '; MOST_BYTES]].concat(),
    ]
}

fn faults_of_form_and_leaves(maker: &Maker) -> Vec<Vec<u8>> {
    let names = maker.names.clone();
    let with = |first: &[Name]| -> Vec<Name> { first.iter().chain(&names[first.len()..]).cloned().collect() };
    let (no, twice) = (b"no.such.taxon.is.in.the.list.of.names".to_vec(), names[0].clone());
    let long = |text: Vec<u8>, to: usize| [&text[..], &vec![b' '; to.saturating_sub(text.len())]].concat();
    let star = |leaves: &[Name]| maker.star(leaves);
    let unclosed = |leaves: &[Name]| star(leaves)[..star(leaves).len() - 1].to_vec();
    vec![
        long(star(&names), MOST_BYTES + 1),
        long(unclosed(&with(&[no.clone()])), MOST_BYTES + 1),
        vec![b' '; MOST_BYTES + 1],
        unclosed(&names),
        unclosed(&with(&[no.clone(), twice.clone(), twice.clone()])),
        unclosed(&names[1..]),
        Vec::new(),
        b" \t\r\n".to_vec(),
        star(&with(&[no.clone(), twice.clone(), twice.clone()])),
        star(&with(&[twice.clone(), twice.clone(), no.clone()])),
        star(&with(&[twice.clone(), twice.clone()])),
        star(&[&names[..], &[twice]].concat()),
        star(&[&names[1..], &[no]].concat()),
        star(&names[1..]),
        star(&names[..names.len() - 1]),
        quoted(&names[0]),
        b"''".to_vec(),
        [&star(&names)[..], b"''"].concat(),
        [&star(&names)[..], b":'1'"].concat(),
        [&star(&names)[..], b"'a\tb'"].concat(),
        [&star(&names)[..], b"'a'b"].concat(),
        long([&star(&names)[..], b"';'"].concat(), MOST_BYTES + 1),
    ]
}

/// 6, 7 and done, and done again, in the last lane.
fn closings(maker: &mut Maker) {
    let lane = maker.numbers.lanes - 1;
    let blanks = vec![b'\n'; MOST_BYTES];
    for held in [&b""[..], b"x", b" \r\n\t", b" ;", b"'", b"';", b"'';", b"''"] {
        maker.feed(lane, held);
        maker.peek();
        maker.close(lane);
        maker.peek();
        maker.close(lane);
        maker.peek();
    }
    for more in [&b""[..], b" ", b"(A,", b"'", b"''", b"';';"] {
        maker.feed(lane, &blanks);
        maker.feed(lane, more);
        maker.peek();
        maker.close(lane);
        maker.peek();
        // Closing starts the count of apostrophes anew.
        maker.feed(lane, b";");
    }
}

/// 13 in each place, before 18 and 4; 18; 19 to 23 of split files; 24 and 25 of matrices; 4 in buffers of one element too few; the answers in buffers of just enough.
fn numbers_and_rooms(maker: &mut Maker) {
    trees_with_and_without_lengths(maker);
    for room in ["room 0", "room -"] {
        maker.ask(room);
        wrong_numbers(maker);
        absent_lengths(maker);
        refused_split_files().into_iter().chain(refused_phylips()).for_each(|line| maker.watched(line));
    }
    let held = &maker.held;
    let files = [file_answers_with_lengths(held), phylip_answers_with_lengths(held)].concat();
    for (line, long) in [answers_with_lengths(held), files].concat() {
        for room in [long.saturating_sub(1), long, long + 1] {
            maker.ask(format!("room {room}"));
            maker.watched(&line);
        }
    }
    batches_with_rooms(maker);
}

fn trees_with_and_without_lengths(maker: &mut Maker) {
    let bare = [(); 2].map(|()| bare_text(&mut maker.random, &maker.names, 3));
    let all = with_lengths(&mut maker.random, &bare[0], &ADDENDS);
    maker.watched_text(&all);
    maker.watched_text(&bare[1]);
}

/// 18, in no buffer: of trees of which one has no lengths, and of every split.
fn absent_lengths(maker: &mut Maker) {
    for i in 0..maker.held.number_of_trees() {
        (0..=i).for_each(|j| maker.watched(format!("weighted {i} {j}")));
    }
    for split in 0..maker.held.counts().len().min(30) {
        maker.watched(format!("lengths {split}"));
    }
}

fn wrong_numbers(maker: &mut Maker) {
    let (t, s) = (maker.held.number_of_trees() as u64, maker.held.counts().len() as u64);
    for far in [t, t + 1].into_iter().chain(FAR) {
        for line in ["one FAR 0", "one 0 FAR", "one FAR FAR", "two FAR 0", "two 0 FAR", "tree FAR", "write FAR"] {
            maker.watched(line.replace("FAR", &far.to_string()));
        }
        for line in ["weighted FAR 0", "weighted 2 FAR", "weighted FAR FAR", "withdraw FAR"] {
            maker.watched(line.replace("FAR", &far.to_string()));
        }
    }
    for far in [s, s + 1].into_iter().chain(FAR) {
        maker.watched(format!("split {far}"));
        maker.watched(format!("lengths {far}"));
    }
}

/// Each call that writes into a buffer, and the elements of its answer.
fn answers_with_lengths(held: &Collection) -> Vec<(String, usize)> {
    let all = usize::MAX;
    let long = |text: Result<Vec<u8>, u32>| text.map_or(0, |bytes| bytes.len());
    let mut out = vec![
        ("splits".to_string(), held.counts().len()),
        ("matrix".to_string(), held.number_of_trees().pow(2)),
        ("strict".to_string(), long(held.strict_text(all))),
        ("majority".to_string(), long(held.majority_text(all))),
        ("both".to_string(), long(held.majority_text(all))),
    ];
    for tree in 0..held.number_of_trees() {
        out.push((format!("tree {tree}"), held.trees()[tree].splits.len()));
        out.push((format!("write {tree}"), long(held.tree_text(tree as u64, all))));
    }
    out
}

/// The end of a text, two texts and the beginning of another, with room for two and for three verdicts.
fn batches_with_rooms(maker: &mut Maker) {
    let lane = maker.random.below(maker.numbers.lanes as usize) as u64;
    let piece = b"x;y';;';(;\n';z'";
    maker.feed(lane, b" ('");
    maker.peek();
    for room in [0, 1, 2] {
        maker.ask(format!("room {room}"));
        maker.watched(format!("batch {lane} {}", hex(piece)));
    }
    maker.ask("room 3");
    maker.batch(lane, piece);
    maker.peek();
    maker.close(lane);
    maker.ask("room -");
}

/// 12, then at full rooms 6 to 10 and 17 before 11, and 11 before 12.
fn full_rooms(maker: &mut Maker) {
    let room = maker.numbers.tree_room as usize;
    for _ in 0..4 * room {
        let text = maker.any_text();
        maker.watched_text(&text);
    }
    while maker.held.number_of_trees() < room {
        let star = maker.star(&maker.names);
        maker.watched_text(&star);
    }
    for text in faulty_texts(maker) {
        maker.watched_text(&text);
    }
    for _ in 0..4 {
        let text = [maker.any_text(), b";".to_vec()].concat();
        maker.batch(0, &text);
        maker.peek();
    }
    files_at_full_rooms(maker);
    withdrawals_at_full_rooms(maker);
    claims_at_full_rooms(maker);
    maker.questions();
}

/// 2, 3 and 4 at opening; each is refused, so that the collection stays.
fn openings(maker: &mut Maker) {
    let n = maker.names.len();
    let numbers = maker.numbers;
    let list = name_list(&maker.names);
    let first = first_constants(&mut maker.random, n, numbers.places);
    let second = second_constants(&mut maker.random, n);
    for wrong in wrong_openings(&numbers) {
        maker.ask(size_line(&wrong));
        maker.watched(open_line(&wrong, &list, &first, &second));
        maker.watched(open_line(&wrong, b" ", &first, &second));
    }
    for (first, second) in wrong_constants(&numbers, &first, &second) {
        maker.watched(open_line(&numbers, &list, &first, &second));
        maker.watched(open_line(&numbers, b"", &first, &second));
    }
    for names in wrong_names(&maker.names) {
        maker.watched(open_line(&numbers, &names, &first, &second));
    }
    too_little_memory(maker, &first, &second);
}

/// Each number one below its least, one above its most, and far from it.
fn wrong_openings(numbers: &Numbers) -> Vec<Numbers> {
    let limits = [(4, 64), (1, 8), (1, 1024), (1, 4096), (1, 2 * numbers.split_room)];
    let mut out = Vec::new();
    for (which, (least, most)) in limits.into_iter().enumerate() {
        for value in [least - 1, most + 1, 65536 + least, (1 << 32) + least, 1 << 63, u64::MAX] {
            out.push(with_number(numbers, which, value));
        }
    }
    out
}

fn with_number(numbers: &Numbers, which: usize, value: u64) -> Numbers {
    let mut changed = *numbers;
    match which {
        0 => changed.taxa = value,
        1 => changed.lanes = value,
        2 => changed.tree_room = value,
        3 => changed.split_room = value,
        _ => changed.places = value,
    }
    changed
}

/// A constant past its range at either end of its list; lists that are too short and too long.
fn wrong_constants(numbers: &Numbers, first: &[u64], second: &[u64]) -> Vec<(Vec<u64>, Vec<u64>)> {
    let n = first.len();
    let mut out = Vec::new();
    for at in [0, n / 2, n - 1] {
        for value in [numbers.places, numbers.places + 1, 65536, 1 << 32, u64::MAX] {
            let mut wrong = first.to_vec();
            wrong[at] = value;
            out.push((wrong, second.to_vec()));
        }
    }
    let longer = |list: &[u64]| [list, &[0]].concat();
    for (a, b) in [(0, n), (n - 1, n), (n, 0), (n, n - 1)] {
        out.push((first[..a].to_vec(), second[..b].to_vec()));
    }
    out.extend([(longer(first), second.to_vec()), (first.to_vec(), longer(second)), (longer(first), longer(second))]);
    out
}

/// What is no name; some stand for two parts of the list, or for the front of one.
const ODD_LABELS: [&[u8]; 18] = [
    b"''", b"'", b"'''", b"'''''", b"'x", b"x'", b"x'y'", b"'x'y", b"'x''", b"x''y", b"'x'_", b"' ", b"'x y",
    b"'x\ty'", b"'\n'", b"'\x1f'", b"'\x7f'", b"'\xe9'",
];

fn wrong_names(names: &[Name]) -> Vec<Vec<u8>> {
    let n = names.len();
    let list = name_list(names);
    let with = |at: usize, label: &[u8]| {
        let mut labels: Vec<Vec<u8>> = names.iter().map(|name| written_name(name)).collect();
        labels[at] = label.to_vec();
        labels.join(&b' ')
    };
    let mut out = vec![
        Vec::new(),
        b" ".to_vec(),
        name_list(&names[1..]),
        [&list[..], b" one.more.taxon"].concat(),
        [&list[..], b" "].concat(),
        [b" ", &list[..]].concat(),
        [&list[..], b"\n"].concat(),
        with(1, b""),
        with(0, &[b'x'; 33]),
        with(n - 1, &[b'x'; 300]),
        with(0, &written_name(&names[n - 1])),
        with(n - 1, &written_name(&names[0])),
        with(0, &quoted(&names[n - 1])),
        with(n - 1, &quoted(&names[0])),
        with(1, &quoted(&[b'\''; 33])),
        with(0, &quoted(&[b' '; 33])),
        [&with(0, b"'x_y"), &b"'"[..]].concat(),
    ];
    for label in ODD_LABELS {
        out.extend([0, n / 2, n - 1].map(|at| with(at, label)));
    }
    for byte in [0, 9, 10, 13, 31, 39, 40, 41, 44, 58, 59, 91, 93, 127, 128, 255] {
        out.push(with(n / 2, &[b'x', byte, b'y']));
    }
    out
}

/// 3 before 4, one byte too few, just enough; and the collection that was there is no more.
fn too_little_memory(maker: &mut Maker, first: &[u64], second: &[u64]) {
    let numbers = maker.numbers;
    let (list, size) = (name_list(&maker.names), numbers.size().expect("numbers in range"));
    let other = Numbers { lengths: !numbers.lengths, ..numbers };
    let without = Numbers { lengths: false, ..numbers }.size().expect("numbers in range");
    for lent in [0, 1, 15, 16, 4096, without - 1, without, size - 1, size] {
        maker.lent = lent;
        maker.ask(format!("lend {lent}"));
        maker.watched(open_line(&with_number(&numbers, 1, 9), &list, first, second));
        maker.watched(open_line(&numbers, &list[1..], first, &second[1..]));
        maker.watched(open_line(&numbers, &[&list[..], b" "].concat(), first, second));
        maker.watched(open_line(&numbers, &list, first, second));
        maker.watched("trees");
        maker.watched(open_line(&other, &list, first, second));
        maker.watched("trees");
    }
}

/// 1 in each place, before 5, 13, 14 and 4: in no memory, in too little, in enough that was never opened. A matrix is read all
/// the same.
fn not_whole(maker: &mut Maker) {
    let size = maker.numbers.size().expect("numbers in range");
    for lent in [0, 1, 100, size - 1, size + 100] {
        maker.lent = lent;
        maker.ask(format!("lend {lent}"));
        maker.peek();
        for room in ["room 0", "room -"] {
            maker.ask(room);
            let text = [maker.any_text(), b";".to_vec()].concat();
            let wrong = ["feed 8 28", "close 8", "batch 9 3b", "split 9", "tree 9", "one 9 9", "two 9 9", "write 9"];
            let wrong = wrong.into_iter().chain(["weighted 9 9", "lengths 9", "withdraw 9"]).map(str::to_string);
            let files = refused_files(maker).into_iter().chain(refused_split_files()).chain(refused_phylips());
            let claims = refused_claims(maker);
            for line in every_call(&text).into_iter().chain(wrong).chain(files).chain(claims) {
                maker.watched(line);
            }
        }
    }
}
