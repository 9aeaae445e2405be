//! The limits: bytes of a text, taxa, nesting, tree room and split room, batches, NEXUS files, and long collections.

use crate::consensus::written;
use crate::filelimits::{
    file_texts, keys_at_the_limit, long_files, long_keys_and_names, numbers_of_keys, numbers_of_trees,
};
use crate::generator::name_list;
use crate::grow::{ladder, names, plain_names, shape, text_of, tokens, Name, BARE};
use crate::labels::{quoted, written_names};
use crate::lengthsamples::ADDENDS;
use crate::lengthscript::with_lengths;
use crate::maker::{joined, open_line, Maker};
use crate::opening::Numbers;
use crate::random::Random;
use crate::verdict::{judge, Masks, MOST_BYTES};
use crate::words::hex;

/// A script of so many rounds over all but the largest collections.
pub fn limits(seed: u64, count: usize) -> Vec<u8> {
    let mut random = Random::new(seed);
    let mut out = Vec::new();
    for _ in 0..count {
        out.extend(taxa(&mut random));
        for part in
            [lengths, quotes_at_the_limit, nesting, small_tree_rooms, small_split_rooms, batches, longest_written]
        {
            out.extend(part(Random::new(random.next())));
        }
        for part in [numbers_of_keys, long_keys_and_names, file_texts, keys_at_the_limit, numbers_of_trees, long_files]
        {
            out.extend(part(Random::new(random.next())));
        }
    }
    out
}

/// The largest collections: tree room 1,024, split room 4,096, and tree room with all lengths filled to the last; so
/// many of them.
pub fn largest(seed: u64, count: usize) -> Vec<u8> {
    let mut random = Random::new(seed);
    let parts = [largest_tree_room, largest_split_room, most_lengths];
    (0..count).flat_map(|i| parts[i % parts.len()](Random::new(random.next()))).collect()
}

pub fn opened(mut random: Random, n: usize, lanes: u64, tree_room: u64, split_room: u64) -> Maker {
    let names = names(&mut random, n);
    opened_over(random, names, lanes, tree_room, split_room)
}

/// Over names that can be written without quotes.
pub fn opened_plain(mut random: Random, n: usize, lanes: u64, tree_room: u64, split_room: u64) -> Maker {
    let names = plain_names(&mut random, n);
    opened_over(random, names, lanes, tree_room, split_room)
}

pub fn opened_over(mut random: Random, names: Vec<Name>, lanes: u64, tree_room: u64, split_room: u64) -> Maker {
    let places = random.between(1, 2 * split_room as usize) as u64;
    let (taxa, lengths) = (names.len() as u64, random.one_in(2));
    Maker::open(random, names, Numbers { taxa, lanes, tree_room, split_room, places, lengths }, 3)
}

// Texts

/// The bytes of a text without blanks, lengths and labels.
pub fn bare_text(random: &mut Random, names: &[Name], most_children: usize) -> Vec<u8> {
    let shape = shape(random, names, most_children);
    tokens(random, &shape, BARE).concat()
}

/// A text of so many bytes: filled with blanks in front or behind, or with a label at its end, in quotes or not.
fn filled(random: &mut Random, names: &[Name], long: usize) -> Vec<u8> {
    let text = bare_text(random, names, 3);
    if random.one_in(4) {
        let inside = vec![*random.pick(b" x;["); long.saturating_sub(text.len() + 2)];
        return [text, quoted(&inside)].concat();
    }
    let more = vec![*random.pick(b" \tx"); long.saturating_sub(text.len())];
    let front = random.one_in(2) && more.first() != Some(&b'x');
    if front {
        [more, text].concat()
    } else {
        [text, more].concat()
    }
}

/// 4,607 to 4,610 bytes and many more, in one piece and in pieces, and lanes that stand at the limit when closed.
fn lengths(random: Random) -> Vec<u8> {
    let mut maker = opened(random, 9, 2, 40, 200);
    for long in [MOST_BYTES - 1, MOST_BYTES, MOST_BYTES + 1, MOST_BYTES + 2, 6000, 20_000] {
        let text = filled(&mut maker.random, &maker.names, long);
        maker.text(&text);
        maker.peek();
        feed_in_pieces(&mut maker, &text);
        maker.feed(1, b";");
        feed_in_pieces(&mut maker, &text);
        maker.close(1);
        maker.peek();
    }
    maker.feed(1, &[b' '; MOST_BYTES]);
    maker.feed(1, b"");
    maker.peek();
    maker.feed(1, b" ");
    maker.peek();
    maker.feed(1, b"(A,B)");
    maker.feed(1, b";");
    maker.questions();
    maker.script()
}

fn feed_in_pieces(maker: &mut Maker, text: &[u8]) {
    let mut rest = text;
    while !rest.is_empty() {
        let long = *maker.random.pick(&[1, 2, 100, 1000, MOST_BYTES, 5000]);
        let (piece, behind) = rest.split_at(long.min(rest.len()));
        maker.feed(1, piece);
        rest = behind;
    }
}

/// Apostrophes before the limit, at it and behind it, an even and an odd number of them, and semicolons that they hide
/// or not; in one piece and byte by byte.
fn quotes_at_the_limit(random: Random) -> Vec<u8> {
    let mut maker = opened(random, 5, 2, 40, 100);
    let behind: [&[u8]; 9] = [b";", b"';", b"'';';", b"x;';", b"';';;", b"'", b"''", b";'", b"';'x'"];
    for before in [&b""[..], b"'", b"''", b"x'y'", b"'''"] {
        for long in [MOST_BYTES - 1, MOST_BYTES, MOST_BYTES + 1] {
            let held = [vec![b' '; long - before.len()], before.to_vec()].concat();
            for more in behind {
                feed_twice(&mut maker, &held, more);
            }
        }
        maker.peek();
    }
    maker.questions();
    maker.script()
}

/// To lane 0 in one piece; to lane 1 the same, and the rest behind it byte by byte; and what is left is closed.
fn feed_twice(maker: &mut Maker, held: &[u8], more: &[u8]) {
    maker.feed(0, &[held, more].concat());
    maker.close(0);
    maker.feed(1, held);
    for byte in more {
        maker.feed(1, &[*byte]);
    }
    maker.close(1);
    maker.batch(1, &[held, more, b";A;"].concat());
    maker.close(1);
}

/// The longest tree that can be written: one name of 32 apostrophes, 63 of 31, in a ladder. Its text is 4,349 bytes with
/// its semicolon; the buffers have one byte too few and just enough.
fn longest_written(mut random: Random) -> Vec<u8> {
    let mut names: Vec<Name> = (0..63u8).map(|i| [&[b'\''; 31][..], &[b'-' + i]].concat()).collect();
    names.insert(random.between(0, 63), vec![b'\''; 32]);
    let mut maker = opened_over(random, names, 1, 3, 200);
    let tree = ladder(&mut maker.random, &maker.names, 63);
    let text = tokens(&mut maker.random, &tree, BARE).concat();
    maker.text(&text);
    for room in ["room 4347", "room 4348", "room 4349", "room 4350"] {
        maker.ask(room);
        for line in ["write 0", "strict", "majority", "both", "phylip"] {
            maker.ask(line);
        }
        let file = maker.file();
        maker.calls_on_file(&file);
        maker.claim(&[&text[..], b";"].concat());
    }
    maker.questions();
    maker.peek();
    maker.script()
}

/// 62 to 65 brackets, of one name that comes again and of 64 names.
fn nesting(random: Random) -> Vec<u8> {
    let mut maker = opened(random, 64, 1, 40, 500);
    let few = maker.names[..3].to_vec();
    for brackets in [62, 63, 64, 65] {
        for names in [few.clone(), maker.names.clone()] {
            let tree = ladder(&mut maker.random, &names, brackets);
            let text = text_of(&mut maker.random, &tree);
            maker.text(&text);
            maker.claim(&[&text[..], b";"].concat());
        }
        let deep = [vec![b'('; brackets], vec![b')'; brackets]].concat();
        maker.text(&deep);
        maker.claim(&[&deep[..], b";"].concat());
    }
    maker.questions();
    maker.script()
}

/// 3, 4, 64 and 65 taxa.
fn taxa(random: &mut Random) -> Vec<u8> {
    let mut lines = vec!["lend 20000".to_string()];
    for n in [3, 4, 64, 65] {
        let names = names(random, n);
        let zeros = vec![0; n];
        let numbers =
            Numbers { taxa: n as u64, lanes: 1, tree_room: 2, split_room: 200, places: 1, lengths: random.one_in(2) };
        lines.push(open_line(&numbers, &name_list(&names), &zeros, &zeros));
        let text = bare_text(random, &names, 2);
        lines.push(format!("feed 0 {}3b", hex(&text)));
        lines.push(format!("claim {}3b", hex(&text)));
        lines.extend(["splits", "majority", "both", "collisions", "matrix", "phylip"].map(str::to_string));
    }
    joined(&lines)
}

// Rooms

/// The last free tree, and one past it; the same again where some are withdrawn.
fn small_tree_rooms(mut random: Random) -> Vec<u8> {
    let room = random.between(1, 4) as u64;
    let mut maker = opened(random, 7, 1, room, 60);
    for withdrawn in 0..=room {
        (0..withdrawn).for_each(|_| maker.withdraw_some());
        for _ in 0..room + 2 {
            let text = bare_text(&mut maker.random, &maker.names, 3);
            maker.text(&text);
            maker.ask("matrix");
            maker.ask("phylip");
            maker.claim_calls();
            maker.peek();
        }
    }
    maker.questions();
    maker.script()
}

fn small_split_rooms(mut random: Random) -> Vec<u8> {
    let room = random.between(1, 30) as u64;
    let mut maker = opened(random, 8, 1, 1000, room);
    fill_split_room(&mut maker);
    maker.peek();
    withdraw_and_fill(&mut maker, 6);
    maker.peek();
    maker.questions();
    maker.script()
}

/// Trees until the split room is full to the last; one split past it, with a length outside the exact range too; and a
/// tree without new splits.
fn fill_split_room(maker: &mut Maker) {
    let room = maker.numbers.split_room as usize;
    while maker.held.counts().len() < room {
        let splits = some_new_splits(maker, room - maker.held.counts().len());
        let text = written(&maker.names, &splits);
        maker.feed(0, &text);
    }
    for new in [0, 1] {
        let splits = some_new_splits(maker, new);
        let text = written(&maker.names, &splits);
        maker.feed(0, &text);
        maker.feed(0, &[&text[..text.len() - 1], b":1e23;"].concat());
        maker.ask("count");
    }
    let known = some_new_splits(maker, 0);
    let text = written(&maker.names, &known);
    maker.feed(0, &text);
}

/// So many trees withdrawn, and the split room filled to the last again.
fn withdraw_and_fill(maker: &mut Maker, trees: usize) {
    (0..trees).for_each(|_| maker.withdraw_some());
    maker.ask("count");
    fill_split_room(maker);
}

/// Splits of one tree, at most so many of them new.
pub fn some_new_splits(maker: &mut Maker, most: usize) -> Masks {
    let text = bare_text(&mut maker.random, &maker.names, 2);
    let all = judge(&maker.names, &text).expect("a tree of all names");
    let is_known = |mask: &u64| maker.held.counts().contains_key(mask);
    let known = all.iter().filter(|mask| is_known(mask));
    let new = all.iter().filter(|mask| !is_known(mask)).take(most);
    known.chain(new).copied().collect()
}

/// Many short texts at once, with verdicts of all kinds, in buffers of enough and of one too few.
fn batches(random: Random) -> Vec<u8> {
    let mut maker = opened(random, 6, 2, 900, 50);
    for texts in [1, 10, 300, 2000] {
        let mut piece = Vec::new();
        for _ in 0..texts {
            match maker.random.below(4) {
                0 => piece.extend(bare_text(&mut maker.random, &maker.names, 2)),
                1 => piece.extend(bare_text(&mut maker.random, &maker.names[1..].to_vec(), 4)),
                2 => piece.extend(*maker.random.pick(&[&b""[..], b" ", b"(", b"x", b"(x,y)", b"';'", b"(';;',''"])),
                _ => piece.extend(written_names(&maker.names, b',')),
            }
            piece.push(b';');
        }
        maker.ask(format!("room {}", texts - 1));
        maker.ask(format!("batch 1 {}", hex(&piece)));
        maker.ask(format!("room {texts}"));
        piece.extend(b"(");
        maker.batch(1, &piece);
        maker.close(1);
    }
    maker.questions();
    maker.script()
}

// The largest collections

/// 1,024 trees of 64 taxa that have splits in common, and one past them.
fn largest_tree_room(random: Random) -> Vec<u8> {
    let mut maker = opened(random, 64, 8, 1024, 4096);
    let pool: Vec<Masks> = (0..12).map(|_| some_new_splits(&mut maker, 61)).collect();
    let mut piece = Vec::new();
    while maker.held.number_of_trees() < 1024 {
        for _ in 0..64 {
            let splits = thinned(&mut maker, &pool);
            piece.extend(written(&maker.names, &splits));
        }
        maker.batch(3, &piece);
        piece.clear();
    }
    let text = written(&maker.names, &pool[0]);
    maker.feed(0, &text);
    maker.peek();
    for tree in [0, 1022, 511] {
        maker.withdraw(tree);
        maker.ask("trees");
        maker.ask("count");
        maker.feed(0, &text);
    }
    maker.feed(0, &text);
    maker.withdraw(1023);
    maker.peek();
    maker.feed(0, &text);
    for line in
        ["trees", "count", "splits", "matrix", "strict", "majority", "both", "collisions", "tree 1023", "write 1023"]
    {
        maker.ask(line);
    }
    let file = maker.file();
    maker.calls_on_file(&file);
    let file = maker.phylip();
    maker.read_phylip(&file);
    maker.claim_questions();
    maker.script()
}

/// 1,024 trees of 64 taxa with a length for every node, in the largest store.
fn most_lengths(mut random: Random) -> Vec<u8> {
    let names = plain_names(&mut random, 64);
    let numbers = Numbers { taxa: 64, lanes: 8, tree_room: 1024, split_room: 4096, places: 8192, lengths: true };
    let mut maker = Maker::open(random, names, numbers, 3);
    let pool: Vec<Masks> = (0..12).map(|_| some_new_splits(&mut maker, 61)).collect();
    fill_with_lengths(&mut maker, &pool);
    for tree in [1023, 0, 511, 1024, 1020] {
        maker.withdraw(tree);
        maker.ask("weighted 0 1019");
        maker.ask("lengths 20");
    }
    maker.peek();
    fill_with_lengths(&mut maker, &pool);
    for pair in ["0 1023", "1023 511", "1022 1023", "7 7", "1024 0"] {
        maker.ask(format!("weighted {pair}"));
    }
    let splits = maker.held.counts().len();
    (0..=splits).step_by(splits / 20 + 1).for_each(|split| maker.ask(format!("lengths {split}")));
    maker.peek();
    maker.script()
}

fn fill_with_lengths(maker: &mut Maker, pool: &[Masks]) {
    while maker.held.number_of_trees() < 1024 {
        let splits = thinned(maker, pool);
        let text = written(&maker.names, &splits);
        let text = with_lengths(&mut maker.random, &text, &ADDENDS);
        maker.batch(3, &text);
    }
}

/// One of the pool without some of its splits.
pub fn thinned(maker: &mut Maker, pool: &[Masks]) -> Masks {
    let splits = maker.random.pick(pool).clone();
    let often = *maker.random.pick(&[2, 10, 100]);
    splits.into_iter().filter(|_| !maker.random.one_in(often)).collect()
}

/// 4,096 splits, the last ones to the room's end.
fn largest_split_room(random: Random) -> Vec<u8> {
    let mut maker = opened(random, 64, 1, 200, 4096);
    fill_split_room(&mut maker);
    maker.peek();
    withdraw_and_fill(&mut maker, 12);
    maker.peek();
    maker.questions();
    maker.script()
}
