//! Matrices in PHYLIP's layout at their limits, and by chance: numbers of trees, values, names and spaces, a fault at
//! every place, buffers, and the collection's own matrix read back.

use crate::consensus::written;
use crate::limits::{bare_text, opened, some_new_splits, thinned};
use crate::maker::{joined, Maker};
use crate::phylip::{Rows, MOST_TREES, MOST_VALUE};
use crate::phylips::{damage, padded, some_phylip_line, some_rows, Row, Square, ODD_BYTES};
use crate::random::Random;
use crate::verdict::Masks;
use crate::words::hex;

/// Before anything is lent; those by hand; the largest; those of collections; and so many by chance.
pub fn phylips(seed: u64, count: usize) -> Vec<u8> {
    let mut random = Random::new(seed);
    let mut out = joined(&by_hand(&mut random));
    out.extend(joined(&every_byte(&mut random)));
    out.extend(joined(&largest(&mut random)));
    for n in [4, 5, 9, 64] {
        out.extend(of_a_collection(Random::new(random.next()), n));
    }
    for n in [4, 7] {
        out.extend(many_trees(Random::new(random.next()), n));
    }
    out.extend((0..count).flat_map(|_| by_chance(Random::new(random.next()))));
    out
}

/// A call in a buffer of one element too few, of just enough and of one more.
fn with_rooms(line: &str, long: usize) -> Vec<String> {
    let mut lines = Vec::new();
    for room in [long.saturating_sub(1), long, long + 1] {
        lines.extend([format!("room {room}"), line.to_string()]);
    }
    lines.push("room -".to_string());
    lines
}

fn line_of(file: &[u8]) -> String {
    format!("read-phylip {}", hex(file))
}

// By hand

fn by_hand(random: &mut Random) -> Vec<String> {
    let mut lines = vec!["phylip".to_string()];
    for part in [numbers_of_trees, values, dresses, line_ends, faults, two_faults] {
        lines.extend(part(random));
    }
    lines
}

/// From 0 to 12 and about 100, in buffers of one entry too few and just enough; one row too few and too many, one value
/// too few and too many; and such a number with zeros in front, of many digits, and of what is no number.
fn numbers_of_trees(random: &mut Random) -> Vec<String> {
    let mut lines = Vec::new();
    for trees in (0..=12).chain([99, 100, 101]) {
        let square = Square::plain(&some_rows(random, trees));
        lines.extend(with_rooms(&square.line(), trees * trees));
        for count in [trees.wrapping_sub(1), trees + 1, 10 * trees, trees + 1024, trees + 65_536] {
            lines.push(counted(&square, &count.to_string()));
        }
        for count in ["", " ", "-", "-0", "+N", "N ", " N", "N.", "Nx", "N\r", "N\t", "0xN", "N N", "0N", "000000N"] {
            lines.push(counted(&square, &count.replace('N', &trees.to_string())));
        }
        lines.push(counted(&square, &format!("{trees:0100}")));
        lines.push(counted(&square, &format!("1{trees:0100}")));
        lines.extend([trees + (1 << 32), usize::MAX - 5].map(|count| counted(&square, &count.to_string())));
        let wrapped = (1u128 << 64) + trees as u128;
        lines.push(counted(&square, &wrapped.to_string()));
    }
    lines
}

fn counted(square: &Square, count: &str) -> String {
    Square { count: count.as_bytes().to_vec(), ..square.clone() }.line()
}

/// 65,535 and one more, and others, at each place of small matrices, at both places of a pair and at one alone.
fn values(random: &mut Random) -> Vec<String> {
    let mut lines = Vec::new();
    let words = ["0", "00", "1", "9", "10", "65534", "65535", "0065535", "65536", "65537", "65540", "65600", "66000"];
    let more = ["70000", "99999", "100000", "131072", "655350", "4294967296", "4294967295", "18446744073709551616"];
    let others = ["", "x", "-1", "+1", "1.0", "1e3", "0x1", "1,", "1 ", "1\t", "\u{b2}", "1x", "x1", "1 2", "/", ":"];
    let long = [format!("{:0100}", 7), format!("{:0100}", 65_535), format!("{:0100}", 65_536), "9".repeat(100)];
    let words: Vec<&str> =
        words.iter().chain(&more).chain(&others).copied().chain(long.iter().map(String::as_str)).collect();
    for trees in [1, 2, 3] {
        let square = Square::plain(&some_rows(random, trees));
        for (i, j) in (0..trees).flat_map(|i| (0..trees).map(move |j| (i, j))) {
            for word in &words {
                let mut alone = square.clone();
                alone.rows[i].values[j] = format!(" {word}").into_bytes();
                lines.push(alone.line());
                alone.rows[j].values[i] = format!(" {word}").into_bytes();
                lines.push(alone.line());
            }
        }
    }
    lines
}

/// Every byte in every place of a name, names that are digits and spaces, and two alike; any spaces and zeros.
fn dresses(random: &mut Random) -> Vec<String> {
    let mut lines = Vec::new();
    let square = Square::plain(&some_rows(random, 2));
    for byte in 0..=255 {
        let mut other = square.clone();
        let at = random.below(10);
        other.rows[usize::from(byte) % 2].name[at] = byte;
        lines.push(other.line());
    }
    for byte in ODD_BYTES {
        for at in 0..10 {
            let mut other = square.clone();
            other.rows[1].name[at] = byte;
            lines.push(other.line());
        }
    }
    let names =
        ["", "t0", "0", "1234567890", "         7", " 1 2 3 4 5", "7         ", "~~~~~~~~~~", "!", "a b c d e f"];
    for name in names {
        let mut other = square.clone();
        other.rows.iter_mut().for_each(|row| row.name = padded(name));
        lines.push(other.line());
    }
    for name in ["", "t", "t1", "nine bytes", "         "] {
        let mut other = square.clone();
        other.rows[0].name = name.as_bytes().to_vec();
        lines.push(other.line());
    }
    for trees in [0, 1, 2, 3, 7, 20] {
        for _ in 0..6 {
            let rows = some_rows(random, trees);
            lines.push(Square::dressed(random, &rows).line());
        }
    }
    lines
}

/// CR, tabs, spaces at a line's end, a missing last LF, empty lines, bytes behind, a row on two lines, two on one.
fn line_ends(random: &mut Random) -> Vec<String> {
    let mut lines = Vec::new();
    for trees in [0, 1, 2, 5] {
        let file = Square::plain(&some_rows(random, trees)).bytes();
        let text = String::from_utf8(file.clone()).expect("a matrix is ASCII");
        for end in ["\r\n", "\r", "\n\r", " \n", "\t\n", "\n\n", "\0\n", ";\n", " \r\n", "\n ", "\n0", ""] {
            lines.push(line_of(text.replace('\n', end).as_bytes()));
            lines.push(line_of(text.replacen('\n', end, 1).as_bytes()));
            lines.push(line_of([&text[..text.len() - 1], end].concat().as_bytes()));
        }
        for spaces in ["\t", " \t", "\t ", "\u{a0}", ",", "\n", "\r", "\n          ", "  "] {
            lines.push(line_of(text.replace(" 0", &format!("{spaces}0")).as_bytes()));
            lines.push(line_of(text.replacen(" 0", &format!("{spaces}0"), 1).as_bytes()));
        }
        for behind in [&b" "[..], b"\n", b"0", b"\0", b"t9         0\n", b"          \n", b"\r", b"1\n", &file] {
            lines.push(line_of(&[&file, behind].concat()));
            lines.push(line_of(&[behind, &file].concat()));
        }
    }
    lines
}

/// What is wrong at a row and a column; some need a row before or behind.
type Fault = fn(&mut Square, usize, usize);

/// Those that make it malformed, mostly, and then those that make it not symmetric or its diagonal not 0.
const FAULTS: [Fault; 24] = [
    |square, i, j| square.put(i, j, MOST_VALUE + 1),
    |square, i, j| square.put(i, j, u64::MAX),
    |square, i, j| drop(square.rows[i].values.remove(j)),
    |square, i, j| square.rows[i].values.insert(j, b" 0".to_vec()),
    |square, i, j| square.rows[i].values[j] = square.rows[i].values[j][1..].to_vec(),
    |square, i, j| square.rows[i].values[j].truncate(1),
    |square, i, j| square.rows[i].values[j].push(b'x'),
    |square, i, j| square.rows[i].values[j][0] = b'\t',
    |square, i, j| square.rows[i].values[j].push(b'\n'),
    |square, i, j| square.rows[i].values[j].insert(0, b'\n'),
    |square, i, j| square.rows[i].values[j].extend(b" "),
    |square, i, _| square.rows[i].name.truncate(9),
    |square, i, _| square.rows[i].name.insert(0, b'n'),
    |square, i, j| square.rows[i].name[j % 10] = 31,
    |square, i, j| square.rows[i].name[j % 10] = 127,
    |square, i, _| drop(square.rows.remove(i)),
    |square, i, _| square.rows.insert(i, square.rows[i].clone()),
    |square, i, _| square.rows.insert(i, Row { name: Vec::new(), values: Vec::new() }),
    |square, i, _| square.rows[i..].rotate_left(1),
    |square, i, j| square.put(i, j, 0),
    |square, i, j| square.put(i, j, 7),
    |square, i, j| square.put(i, j, MOST_VALUE),
    |square, i, _| square.put(i, i, 1),
    |square, i, j| {
        square.put(i, j, 300);
        square.put(j, i, 44);
    },
];

/// The first, the middle and the last row and column of a few sizes, in a buffer of no entry and of enough.
fn faults(random: &mut Random) -> Vec<String> {
    let mut lines = Vec::new();
    for room in ["room 0", "room -"] {
        lines.push(room.to_string());
        for fault in FAULTS {
            for trees in [1, 2, 3, 12] {
                let square = some_square(random, trees);
                for (i, j) in places(trees) {
                    let mut wrong = square.clone();
                    fault(&mut wrong, i, j);
                    lines.push(wrong.line());
                }
            }
        }
    }
    lines
}

/// Each with each, the second behind the first; what makes a matrix malformed goes before what makes it not symmetric,
/// wherever it stands, and that before a buffer that is too short.
fn two_faults(random: &mut Random) -> Vec<String> {
    let mut lines = Vec::new();
    for first in FAULTS {
        for second in FAULTS {
            let mut wrong = some_square(random, 6);
            let (i, j, k, l) = (random.below(3), random.below(3), random.between(3, 4), random.between(3, 4));
            // The later row first, as a fault may make rows fewer.
            if random.one_in(2) {
                second(&mut wrong, k, l);
                first(&mut wrong, i, j);
            } else {
                first(&mut wrong, k, l);
                second(&mut wrong, i, j);
            }
            lines.push(format!("room {}", random.pick(&[0, 35, 36])));
            lines.push(wrong.line());
        }
    }
    lines.push("room -".to_string());
    lines
}

fn some_square(random: &mut Random, trees: usize) -> Square {
    let rows = some_rows(random, trees);
    match random.one_in(3) {
        true => Square::dressed(random, &rows),
        false => Square::plain(&rows),
    }
}

/// The first, the middle and the last of rows and columns.
fn places(trees: usize) -> Vec<(usize, usize)> {
    let mut some = vec![0, trees / 2, trees - 1];
    some.dedup();
    some.iter().flat_map(|i| some.iter().map(|j| (*i, *j))).collect()
}

/// Small matrices cut at each place; with one byte less, another, and one more at each place.
fn every_byte(random: &mut Random) -> Vec<String> {
    let pair = vec![vec![0, 7], vec![7, 0]];
    let files = [
        b"0\n".to_vec(),
        Square::plain(&vec![vec![0]]).bytes(),
        Square::plain(&pair).bytes(),
        Square::dressed(random, &pair).bytes(),
        Square::plain(&some_rows(random, 3)).bytes(),
    ];
    files.iter().flat_map(|file| changed_at_each(file)).collect()
}

fn changed_at_each(file: &[u8]) -> Vec<String> {
    let mut lines = vec![line_of(file)];
    for at in 0..=file.len() {
        let (front, rest) = file.split_at(at);
        lines.push(line_of(front));
        let behind = &rest[rest.len().min(1)..];
        lines.push(line_of(&[front, behind].concat()));
        for byte in ODD_BYTES {
            lines.push(line_of(&[front, &[byte], behind].concat()));
            lines.push(line_of(&[front, &[byte], rest].concat()));
        }
    }
    lines
}

// The largest

/// 1,024 trees in buffers of one entry too few and just enough; with a fault in the first, a middle and the last entry,
/// and with the last byte missing; with the largest values; and one tree more. The longest line has spaces before each value.
fn largest(random: &mut Random) -> Vec<String> {
    let trees = MOST_TREES as usize;
    let rows = small_rows(random, trees);
    let square = Square::plain(&rows);
    let mut lines = with_rooms(&square.line(), trees * trees);
    let last = trees - 1;
    for (i, j, value) in
        [(0, 0, 1), (0, last, 9), (last, 0, 9), (500, 501, 9), (last, last - 1, 9), (last, last, 1), (last, 3, 65_536)]
    {
        let mut wrong = square.clone();
        wrong.put(i, j, value);
        lines.push(wrong.line());
    }
    let mut file = square.bytes();
    file.pop();
    lines.push(line_of(&file));
    lines.push(Square::plain(&small_rows(random, trees + 1)).line());
    lines.push(counted(&Square::plain(&small_rows(random, trees + 1)), "1024"));
    let most = |i: usize, j: usize| if i == j { 0 } else { MOST_VALUE };
    let rows: Rows = (0..trees).map(|i| (0..trees).map(|j| most(i, j)).collect()).collect();
    lines.push(Square::plain(&rows).line());
    lines.push(longest(&rows));
    lines
}

/// Values of one digit.
fn small_rows(random: &mut Random, trees: usize) -> Rows {
    let seed = random.below(9) as u64;
    let value = |i: usize, j: usize| if i == j { 0 } else { (seed + (i * j) as u64) % 9 };
    (0..trees).map(|i| (0..trees).map(|j| value(i, j)).collect()).collect()
}

/// As many bytes as a line can hand in, which `read-phylip ` begins.
fn longest(rows: &Rows) -> String {
    let mut square = Square::plain(rows);
    let more = 8_388_606 - square.bytes().len();
    let each = more / (rows.len() * rows.len());
    let spaces = vec![b' '; each];
    for row in &mut square.rows {
        row.values.iter_mut().for_each(|value| drop(value.splice(0..0, spaces.clone())));
    }
    let rest = 8_388_606 - square.bytes().len();
    square.rows[0].values[0].splice(0..0, vec![b' '; rest]);
    square.line()
}

// Of collections

/// For each number of trees from none up and down again: the matrix written, read back, beside the collection's own; in
/// buffers of one element too few and just enough.
fn of_a_collection(random: Random, n: usize) -> Vec<u8> {
    let mut maker = opened(random, n, 2, 13, 1000);
    maker.feed(1, b"('");
    maker.peek();
    while maker.held.number_of_trees() < 12 {
        written_and_read(&mut maker);
        let text = bare_text(&mut maker.random, &maker.names, 3);
        maker.text(&text);
    }
    while maker.held.number_of_trees() > 0 {
        written_and_read(&mut maker);
        maker.withdraw_some();
    }
    written_and_read(&mut maker);
    maker.peek();
    maker.script()
}

fn written_and_read(maker: &mut Maker) {
    let file = maker.phylip();
    maker.ask("matrix");
    maker.read_phylip(&file);
    let entries = maker.held.number_of_trees().pow(2);
    with_rooms("phylip", file.len()).into_iter().for_each(|line| maker.ask(line));
    with_rooms(&line_of(&file), entries).into_iter().for_each(|line| maker.ask(line));
    let mut other = file.clone();
    damage(&mut maker.random, &mut other);
    maker.read_phylip(&other);
    maker.read_phylip(&file);
}

/// Names of two, three and four digits: 9 to 11 trees, about 100, and 1,000 to 1,024.
fn many_trees(random: Random, n: usize) -> Vec<u8> {
    let mut maker = opened(random, n, 1, 1024, 4096);
    let pool: Vec<Masks> = (0..6).map(|_| some_new_splits(&mut maker, n)).collect();
    for trees in [9, 10, 11, 99, 100, 101, 999, 1001, 1024] {
        while maker.held.number_of_trees() < trees {
            let splits = thinned(&mut maker, &pool);
            let text = written(&maker.names, &splits);
            maker.feed(0, &text);
        }
        let file = maker.phylip();
        maker.ask("matrix");
        maker.read_phylip(&file);
    }
    let file = maker.phylip();
    with_rooms("phylip", file.len()).into_iter().for_each(|line| maker.ask(line));
    maker.withdraw(0);
    maker.ask("phylip");
    maker.script()
}

// By chance

/// A collection between whose calls matrices are written, kept, read and damaged.
fn by_chance(mut random: Random) -> Vec<u8> {
    let n = *random.pick(&[4, 5, 6, 7, 8, 12, 20, 64]);
    let mut maker = opened(random, n, 1, 12, 150);
    for _ in 0..maker.random.between(5, 20) {
        match maker.random.below(4) {
            0 => maker.withdraw_some(),
            1 => maker.phylip_calls(),
            _ => {
                let text = bare_text(&mut maker.random, &maker.names, 3);
                maker.text(&text);
            }
        }
        for _ in 0..3 {
            let line = some_phylip_line(&mut maker.random, &maker.phylips);
            maker.ask(line);
        }
    }
    maker.peek();
    maker.questions();
    maker.script()
}
