//! NEXUS files one after another, with all lent bytes peeked after each or a few: files by hand, each odd sign at each
//! place, a file cut at each byte; then files by chance.

use crate::files::any_file;
use crate::filesamples::{file_with, BAD_BLOCKS, BAD_FILES, GOOD_FILES, TWICE};
use crate::generator::{some_names, some_shapes};
use crate::grow::Name;
use crate::maker::Maker;
use crate::opening::Numbers;
use crate::random::Random;
use crate::stores::fill_lanes;

/// The most files for one collection over letters, so that it is not soon full.
const MOST_OVER_LETTERS: usize = 50;

/// The files that are not by chance, and so many that are.
pub fn nexus(seed: u64, count: usize) -> Vec<u8> {
    let mut random = Random::new(seed);
    let mut out = Vec::new();
    for files in by_hand().chunks(MOST_OVER_LETTERS) {
        out.extend(over_letters(Random::new(random.next()), files, 1));
    }
    for files in [odd_signs(), cuts()].concat().chunks(MOST_OVER_LETTERS) {
        out.extend(over_letters(Random::new(random.next()), files, 5));
    }
    let mut left = count;
    while left > 0 {
        let files = left.min(random.between(5, 15));
        left -= files;
        out.extend(by_chance(Random::new(random.next()), files));
    }
    out
}

/// Files over the names A to E, while a lane is in mid-text; all lent bytes are peeked after each so many.
fn over_letters(mut random: Random, files: &[Vec<u8>], often: usize) -> Vec<u8> {
    let names: Vec<Name> = (b'A'..=b'E').map(|letter| vec![letter]).collect();
    let numbers = Numbers { taxa: 5, lanes: 2, tree_room: 20, split_room: 8, places: 5, lengths: random.one_in(2) };
    let mut maker = Maker::open(random, names, numbers, 1);
    maker.feed(1, b"((A,B),");
    maker.peek();
    for some in files.chunks(often) {
        some.iter().for_each(|file| maker.nexus(file));
        maker.peek();
    }
    maker.feed(1, b"C,(D,E));");
    maker.questions();
    maker.script()
}

fn by_hand() -> Vec<Vec<u8>> {
    let files = BAD_FILES.into_iter().chain(GOOD_FILES.into_iter().map(|(file, _)| file)).map(str::to_string);
    let twice = TWICE.map(|(list, _)| file_with(&format!("TRANSLATE {list}; TREE t=(A,B,C,D,E);")));
    files.chain(BAD_BLOCKS.map(file_with)).chain(twice).map(String::into_bytes).collect()
}

/// Every construct once.
const PARTS: [&str; 35] = [
    "#NEXUS",
    "BEGIN",
    "TAXA",
    ";",
    "'x;['",
    "END",
    ";",
    "BEGIN",
    "TREES",
    ";",
    "TRANSLATE",
    "1",
    "'A'",
    ",",
    "2",
    "B",
    ";",
    "TREE",
    "t1",
    "=",
    "((1,2),C,(D,E))",
    ";",
    "TREE",
    "t2",
    "=",
    "((1,'C'): 1,2:\t1,(D,E)'1;' )2",
    ";",
    "END",
    ";",
    "BEGIN",
    "P",
    ";",
    "END",
    ";",
    "",
];

const SIGNS: [&[u8]; 27] = [
    b"[", b"]", b"[]", b";", b",", b"=", b":", b"(", b")", b"'", b"*", b"x", b"END", b"END;", b"TREE", b"BEGIN", b"\0",
    b"\x0b", b"\x0c", b"\x7f", b"\x80", b"\xa0", b"\xff", b"''", b"'x'", b"';['", b"'\t'",
];

/// The file with a sign before each of its parts, by itself and at the part's front; and with each part left out.
fn odd_signs() -> Vec<Vec<u8>> {
    let mut files = Vec::new();
    for at in 0..PARTS.len() {
        let file = |part: &[u8]| {
            let front = PARTS[..at].join(" ").into_bytes();
            [&front, part, PARTS[at + 1..].join(" ").as_bytes()].join(&b' ')
        };
        files.push(file(b""));
        for sign in SIGNS {
            files.push(file(&[sign, PARTS[at].as_bytes()].concat()));
            files.push(file(&[sign, b" ", PARTS[at].as_bytes()].concat()));
        }
    }
    files
}

/// The file with a comment, up to each of its bytes.
fn cuts() -> Vec<Vec<u8>> {
    let file = [&b"[a;]"[..], PARTS.join("\r\n").as_bytes(), b"[b]\t"].concat();
    (0..=file.len()).map(|long| file[..long].to_vec()).collect()
}

/// So many files over names of its own, in a collection whose lanes hold something.
fn by_chance(mut random: Random, files: usize) -> Vec<u8> {
    let names = some_names(&mut random);
    let pool = some_shapes(&mut random, &names);
    let split_room = random.between(1, 4 * names.len()) as u64;
    let numbers = Numbers {
        taxa: names.len() as u64,
        lanes: random.between(1, 3) as u64,
        tree_room: random.between(1, 20) as u64,
        split_room,
        places: random.between(1, 2 * split_room as usize) as u64,
        lengths: random.one_in(2),
    };
    let mut maker = Maker::open(random, names, numbers, 2);
    fill_lanes(&mut maker);
    maker.peek();
    for _ in 0..files {
        let room = *maker.random.pick(&["room -", "room -", "room 2", "room 0"]);
        maker.ask(room);
        let file = any_file(&mut maker.random, &maker.names, &pool);
        maker.nexus(&file);
        maker.peek();
        if maker.random.one_in(5) {
            maker.withdraw_some();
        }
    }
    (0..numbers.lanes).for_each(|lane| maker.close(lane));
    maker.questions();
    maker.script()
}
