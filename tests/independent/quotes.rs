//! Quotes and underscores: labels by hand in every place of a text, lists of names by hand, texts cut at each place
//! over two lanes, quotes that are left open, and apostrophes that a lane drops.

use crate::generator::{one_text, some_shapes};
use crate::grow::{names, shape, spelled, text_of, Name};
use crate::labels::{quoted, written_names};
use crate::maker::{joined, open_line, Maker};
use crate::opening::Numbers;
use crate::quotesamples::{LABELS, LISTS, NAMES};
use crate::random::Random;
use crate::verdict::MOST_BYTES;
use crate::words::hex;

/// The cases by hand, and so many collections by chance.
pub fn quotes(seed: u64, count: usize) -> Vec<u8> {
    let mut random = Random::new(seed);
    let mut out = lists(&mut random);
    for part in [labels, every_cut, open_quotes, dropped, in_batches, in_files] {
        out.extend(part(Random::new(random.next())));
    }
    for _ in 0..count {
        out.extend(by_chance(Random::new(random.next())));
    }
    out
}

fn opened(mut random: Random, names: Vec<Name>, tree_room: u64) -> Maker {
    let (taxa, lengths) = (names.len() as u64, random.one_in(2));
    let numbers = Numbers { taxa, lanes: 3, tree_room, split_room: 60, places: 7, lengths };
    Maker::open(random, names, numbers, 3)
}

/// Over names that hold every mark.
fn opened_over_marks(random: Random, tree_room: u64) -> Maker {
    opened(random, NAMES.map(|name| name.as_bytes().to_vec()).to_vec(), tree_room)
}

// By hand

/// Lists of four names, good ones and bad ones; where one is good, its star is fed and written.
fn lists(random: &mut Random) -> Vec<u8> {
    let numbers = Numbers { taxa: 4, lanes: 1, tree_room: 2, split_room: 1, places: 1, lengths: random.one_in(2) };
    let size = numbers.size().expect("numbers in range");
    let mut lines = vec![format!("lend {}", size + 2), format!("peek 0 {size}")];
    for (list, labels) in LISTS {
        lines.push(open_line(&numbers, list.as_bytes(), &[0; 4], &[random.next(); 4]));
        lines.push(format!("peek 0 {size}"));
        for text in [labels.join(","), list.replace(' ', ",")] {
            lines.push(format!("feed 0 {}", hex(format!("({text});").as_bytes())));
        }
        lines.extend(["close 0", "write 0", "strict", "majority", "trees"].map(str::to_string));
    }
    joined(&lines)
}

/// Each label by hand as a leaf, as an inner label, as a length, and alone, with what may meet it before and behind; a
/// few for each collection, so that it is not soon full.
fn labels(mut random: Random) -> Vec<u8> {
    LABELS.chunks(6).flat_map(|some| some_labels(Random::new(random.next()), some)).collect()
}

fn some_labels(random: Random, labels: &[&str]) -> Vec<u8> {
    let mut maker = opened_over_marks(random, 150);
    let others = written_names(&maker.names[1..], b',');
    let all = written_names(&maker.names, b',');
    for label in labels {
        let label = label.as_bytes();
        for (before, behind) in
            [("", ""), (" ", " "), ("", ":1"), ("", "\t:1"), ("x", ""), ("", "x"), ("'x'", ""), ("", "'x'")]
        {
            let label = [before.as_bytes(), label, behind.as_bytes()].concat();
            maker.text(&[&b"("[..], &label, b",", &others, b")"].concat());
            maker.text(&[&b"(("[..], &all, b")", &label, b",x)"].concat());
            maker.text(&[&b"("[..], &all, b")", &label].concat());
            maker.text(&label);
            maker.close(0);
        }
        maker.text(&[&b"("[..], &all, b"):", label].concat());
        maker.close(0);
        maker.peek();
    }
    maker.questions();
    maker.script()
}

/// Texts that are trees, with every mark in quotes, semicolons and apostrophes among them.
fn some_trees(maker: &mut Maker) -> [Vec<u8>; 2] {
    [(); 2].map(|()| {
        let tree = shape(&mut maker.random, &maker.names, 3);
        [text_of(&mut maker.random, &tree), b";".to_vec()].concat()
    })
}

/// Two texts cut at each place, the pieces of one between those of the other; now and then in three pieces.
fn every_cut(random: Random) -> Vec<u8> {
    let mut maker = opened_over_marks(random, 800);
    let [first, second] = some_trees(&mut maker);
    for cut in 0..=first.len().max(second.len()) {
        let halves = [&first, &second].map(|text| text.split_at(cut.min(text.len())));
        maker.feed(0, halves[0].0);
        maker.feed(1, halves[1].0);
        if cut % 40 == 0 {
            maker.peek();
        }
        maker.feed(1, halves[1].1);
        let third = maker.random.below(halves[0].1.len() + 1);
        maker.feed(0, &halves[0].1[..third]);
        maker.close(1);
        maker.feed(0, &halves[0].1[third..]);
        maker.close(0);
    }
    maker.questions();
    maker.script()
}

/// A text without each of its apostrophes in turn: its semicolon is hidden, and so are the texts behind it, until an
/// apostrophe comes or the lane is closed.
fn open_quotes(random: Random) -> Vec<u8> {
    let mut maker = opened_over_marks(random, 300);
    let [text, good] = some_trees(&mut maker);
    let places: Vec<usize> = (0..text.len()).filter(|at| text[*at] == b'\'').collect();
    for (i, at) in places.into_iter().enumerate() {
        let odd = [&text[..at], &text[at + 1..]].concat();
        let ends: [&[u8]; 4] = [b"", b"';", b"'", b"x;y';z;"];
        maker.feed(2, &odd);
        maker.feed(2, ends[i % 4]);
        maker.feed(2, &good);
        maker.feed(0, &good);
        if i % 5 == 0 {
            maker.peek();
        }
        maker.close(2);
        maker.feed(2, &good);
        maker.close(2);
    }
    maker.questions();
    maker.script()
}

// Lanes that run over

/// Apostrophes before the limit and behind it, none, one or two in each place, and semicolons between them.
fn dropped(random: Random) -> Vec<u8> {
    let mut maker = opened_over_marks(random, 60);
    let [good, _] = some_trees(&mut maker);
    let some: [&[u8]; 4] = [b"", b"'", b"''", b"x'y"];
    for before in some {
        for behind in some {
            let held = [&vec![b'x'; MOST_BYTES - before.len()], before].concat();
            maker.feed(1, &held);
            maker.feed(1, b"z");
            maker.peek();
            for piece in [behind, b";", behind, b"y", b"'", b";", &good] {
                maker.feed(1, piece);
            }
            maker.peek();
            maker.close(1);
            maker.peek();
            maker.feed(1, &[&held, behind, b";'; ';", &good, &good].concat());
            maker.close(1);
            maker.feed(1, &good);
        }
    }
    maker.questions();
    maker.script()
}

// Batches and files

/// Batches whose semicolons are hidden in part, into a lane where quotes are open or not, with room for as many texts as
/// end, and for one fewer.
fn in_batches(random: Random) -> Vec<u8> {
    let mut maker = opened_over_marks(random, 200);
    let [first, second] = some_trees(&mut maker);
    let pieces: [&[u8]; 8] = [b";", b"';", b";';", b"';';", b"'';;", b"';;;';;", b"x'y;z'';'';", b"'''';'"];
    for begun in [&b""[..], b"'", b"('a;b", b"''"] {
        for piece in pieces {
            let piece = [piece, &first, b"';", &second, b"';", piece].concat();
            maker.feed(0, begun);
            let texts = maker.held.texts_in(0, &piece);
            for room in [0, texts.saturating_sub(1)] {
                maker.ask(format!("room {room}"));
                // One that is not refused would change what the lane holds.
                if room < texts {
                    maker.watched(format!("batch 0 {}", hex(&piece)));
                }
            }
            maker.ask(format!("room {texts}"));
            maker.batch(0, &piece);
            maker.peek();
            maker.close(0);
        }
    }
    maker.questions();
    maker.script()
}

/// The names as TRANSLATE names, each in two ways of writing, with each label by hand in place of one.
fn in_files(random: Random) -> Vec<u8> {
    let mut maker = opened_over_marks(random, 300);
    for label in LABELS {
        let mut pairs: Vec<Vec<u8>> = Vec::new();
        for (i, name) in maker.names.clone().into_iter().enumerate() {
            let written = spelled(&mut maker.random, &name, 2);
            pairs.push([format!("{i} ").into_bytes(), written].concat());
        }
        let keys: Vec<String> = (1..maker.names.len()).map(|i| i.to_string()).collect();
        let keys = keys.join(",");
        let list = pairs.join(&b',');
        for (key, leaf) in
            [(format!("0a {label}"), "0a"), (format!("{label} '0'"), label), ("0a '0'".to_string(), label)]
        {
            let trees = format!("; TREE t=(0,{keys}); TREE u=({leaf},{keys}); TREE v=(({leaf},0),{keys}){label}; END;");
            let head = b"#NEXUS BEGIN TREES; TRANSLATE ";
            maker.nexus(&[head, &list[..], b",", key.as_bytes(), trees.as_bytes()].concat());
        }
        maker.peek();
    }
    maker.questions();
    maker.script()
}

// By chance

/// Texts over names of their own, each whole, in two pieces, and with its names quoted; questions, and all bytes.
fn by_chance(mut random: Random) -> Vec<u8> {
    let n = random.between(4, 12);
    let names = names(&mut random, n);
    let pool = some_shapes(&mut random, &names);
    let mut maker = opened(random, names, 12);
    for _ in 0..12 {
        let text = [one_text(&mut maker.random, &maker.names, &pool), b";".to_vec()].concat();
        let cut = maker.random.between(0, text.len());
        maker.feed(0, &text[..cut]);
        maker.feed(1, &text);
        if maker.random.one_in(3) {
            maker.withdraw_some();
        }
        maker.feed(0, &text[cut..]);
        let lane = maker.random.below(3) as u64;
        let name = maker.random.pick(&maker.names).clone();
        maker.feed(2, &[&quoted(&name), &b";"[..]].concat());
        maker.close(lane);
    }
    maker.peek();
    maker.questions();
    maker.script()
}
