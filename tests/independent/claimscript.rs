//! Claims at their limits, and by chance: every root, a split more and less, the bytes before the semicolon and behind it,
//! half of the trees, lengths, full rooms, names with every mark, and a change at every byte.

use crate::claims::{claim_line, some_claim, ENDS, ODD_BYTES};
use crate::consensus::written;
use crate::filerefusals::{begin_lanes, end_lanes};
use crate::grow::{tokens, Name, BARE};
use crate::labels::{quoted, MARKS};
use crate::lengthsamples::{ADDENDS, OUTSIDE, VALUES};
use crate::lengthscript::with_lengths;
use crate::limits::{bare_text, opened, opened_over, some_new_splits, thinned};
use crate::maker::{joined, Maker};
use crate::opening::Numbers;
use crate::random::Random;
use crate::refusals::faulty_texts;
use crate::rooting::{every_root, further_splits, resolved, rooted, turned};
use crate::sets::{is_proper, taxa_of};
use crate::verdict::{Masks, MOST_BYTES};

/// The most claims of a kind on one collection.
const MOST_OF_A_KIND: usize = 24;

/// Before anything is lent; on collections of every kind; and so many by chance.
pub fn claims(seed: u64, count: usize) -> Vec<u8> {
    let mut random = Random::new(seed);
    let mut out = joined(&[claim_line(b""), claim_line(b";"), claim_line(b"(A,B,C,D);")]);
    for n in [4, 5, 7, 9, 64] {
        out.extend(of_a_collection(Random::new(random.next()), n));
    }
    for n in [4, 5, 6] {
        out.extend(half_of_the_trees(Random::new(random.next()), n));
    }
    for part in [without_splits, sizes, ends, every_byte, every_mark, full_rooms, kept_lengths, faults, many_trees] {
        out.extend(part(Random::new(random.next())));
    }
    out.extend((0..count).flat_map(|_| by_chance(Random::new(random.next()))));
    out
}

/// Some of them, the first and the last among them.
fn some_of<T: Clone>(all: &[T]) -> Vec<T> {
    let step = all.len() / MOST_OF_A_KIND + 1;
    all.iter().step_by(step).chain(all.last()).cloned().collect()
}

// Splits

/// For each number of trees up and down again, while both lanes are in mid-text; all lent bytes before and after.
fn of_a_collection(random: Random, n: usize) -> Vec<u8> {
    let mut maker = opened(random, n, 2, 8, 600);
    let pool = two_to_one(&mut maker);
    begin_lanes(&mut maker);
    claims_on(&mut maker);
    while maker.held.number_of_trees() < 7 {
        let splits = thinned(&mut maker, &pool);
        let text = written(&maker.names, &splits);
        nexus_of(&mut maker, &text);
        claims_on(&mut maker);
    }
    while maker.held.number_of_trees() > 0 {
        maker.withdraw_some();
        claims_on(&mut maker);
    }
    end_lanes(&mut maker);
    maker.script()
}

/// The splits of a tree twice, and of another, so that most trees have most splits of the first.
fn two_to_one(maker: &mut Maker) -> Vec<Masks> {
    let n = maker.names.len();
    let [one, other] = [(); 2].map(|()| some_new_splits(maker, n));
    vec![one.clone(), one, other]
}

/// A tree handed in without a lane.
fn nexus_of(maker: &mut Maker, text: &[u8]) {
    maker.nexus(&[b"#NEXUS BEGIN TREES; TREE t = ", text, b" END;"].concat());
}

/// The majority's splits rooted at every place; with one less, one more, and both; all that agree, none, and those of
/// other trees.
fn claims_on(maker: &mut Maker) {
    let majority = maker.held.majority_splits();
    maker.peek();
    every_place(maker, &majority);
    for changed in changed_sets(maker, &majority) {
        maker.claim_splits(&changed);
    }
    for splits in other_sets(maker) {
        maker.claim_splits(&splits);
    }
    maker.peek();
}

fn every_place(maker: &mut Maker, splits: &Masks) {
    maker.claim(&written(&maker.names, splits));
    for root in some_of(&every_root(maker.names.len(), splits)) {
        let shape = turned(&mut maker.random, rooted(&maker.names, splits, &root));
        let text = tokens(&mut maker.random, &shape, BARE).concat();
        maker.claim(&[&text[..], b";"].concat());
    }
}

/// One less, one more, and one less and another more: below all others, between them, and above.
fn changed_sets(maker: &mut Maker, splits: &Masks) -> Vec<Masks> {
    let n = maker.names.len();
    let all: Vec<u64> = splits.iter().copied().collect();
    let less = |mask: &u64| -> Masks { splits.iter().copied().filter(|other| other != mask).collect() };
    let with = |splits: &Masks, mask: u64| -> Masks { splits.iter().copied().chain([mask]).collect() };
    let mut sets: Vec<Masks> = some_of(&all).iter().map(less).collect();
    sets.extend(some_of(&further_splits(n, splits)).iter().map(|mask| with(splits, *mask)));
    for mask in some_of(&all) {
        let fewer = less(&mask);
        let further = further_splits(n, &fewer);
        sets.extend((0..3).map(|_| with(&fewer, *maker.random.pick(&further))));
    }
    sets
}

/// None, the strict ones, those of each tree, and the majority's with as many more as a tree can have.
fn other_sets(maker: &mut Maker) -> Vec<Masks> {
    let n = maker.names.len();
    let majority = maker.held.majority_splits();
    let mut sets = vec![Masks::new(), maker.held.strict_splits()];
    sets.extend(some_of(maker.held.trees()).into_iter().map(|tree| tree.splits));
    sets.extend((0..3).map(|_| resolved(&mut maker.random, n, &majority)));
    sets
}

/// Two trees in turns, so that at even numbers each of their splits has half; every split alone is claimed.
fn half_of_the_trees(random: Random, n: usize) -> Vec<u8> {
    let mut maker = opened(random, n, 1, 8, 60);
    let every: Vec<u64> = (0..1 << n).filter(|mask| is_proper(&taxa_of(*mask), n as u32)).collect();
    let texts = [(); 2].map(|()| bare_text(&mut maker.random, &maker.names, 2));
    for i in 0..8 {
        maker.text(&texts[i % 2]);
        for mask in &every {
            maker.claim(&written(&maker.names, &Masks::from([*mask])));
        }
        claims_on(&mut maker);
    }
    maker.script()
}

/// Trees without splits alone, and then more and more of the others: the majority has no split, until it has.
fn without_splits(random: Random) -> Vec<u8> {
    let mut maker = opened(random, 6, 1, 12, 60);
    let star = maker.star(&maker.names);
    let other = bare_text(&mut maker.random, &maker.names, 2);
    for _ in 0..4 {
        maker.text(&star);
        claims_on(&mut maker);
    }
    for _ in 0..6 {
        maker.text(&other);
        claims_on(&mut maker);
    }
    maker.script()
}

/// As many trees as there can be, of 64 taxa.
fn many_trees(random: Random) -> Vec<u8> {
    let mut maker = opened(random, 64, 1, 1024, 4096);
    let pool = two_to_one(&mut maker);
    for trees in [100, 1023, 1024] {
        while maker.held.number_of_trees() < trees {
            let splits = thinned(&mut maker, &pool);
            let text = written(&maker.names, &splits);
            maker.feed(0, &text);
        }
        claims_on(&mut maker);
        maker.claim_calls();
    }
    maker.script()
}

// Bytes

/// A collection of three trees over few names, with something in its lanes.
fn three_trees(random: Random, names: Vec<Name>) -> Maker {
    let mut maker = opened_over(random, names, 2, 9, 60);
    begin_lanes(&mut maker);
    for most_children in [2, 2, 3] {
        let text = bare_text(&mut maker.random, &maker.names, most_children);
        nexus_of(&mut maker, &[&text[..], b";"].concat());
    }
    maker
}

fn letters(n: usize) -> Vec<Name> {
    (0..n).map(|i| vec![b'A' + i as u8]).collect()
}

/// 4,607 to 4,610 bytes and many more before the semicolon: blanks in front or behind, a label, labels in quotes, quotes
/// left open; with the semicolon, without, and with bytes behind it.
fn sizes(random: Random) -> Vec<u8> {
    let mut maker = three_trees(random, letters(6));
    let own = written(&maker.names, &maker.held.majority_splits());
    let tree = &own[..own.len() - 1];
    for long in [MOST_BYTES - 1, MOST_BYTES, MOST_BYTES + 1, MOST_BYTES + 2, 3 * MOST_BYTES] {
        let more = |byte: u8, fewer: usize| vec![byte; long - tree.len() - fewer];
        let texts = [
            [tree, &more(b' ', 0)].concat(),
            [&more(b'\n', 0), tree].concat(),
            [tree, &more(b'x', 0)].concat(),
            [tree, b":", &more(b'7', 1)].concat(),
            [tree, &quoted(&more(b';', 2))].concat(),
            [tree, &quoted(&more(b'(', 2))].concat(),
            [tree, b"'", &more(b';', 1)].concat(),
            [tree, b"'", &more(b'x', 1)].concat(),
            vec![b' '; long],
            vec![b'('; long],
            [b"';", &vec![b' '; long - 2][..]].concat(),
        ];
        for text in texts {
            ENDS.iter().for_each(|end| maker.claim(&[&text[..], end].concat()));
        }
        maker.peek();
    }
    for behind in [MOST_BYTES, MOST_BYTES + 1, 100_000] {
        maker.claim(&[&own[..], &vec![b' '; behind]].concat());
        maker.claim(&[&own[..], &vec![b';'; behind]].concat());
        maker.claim(&vec![b';'; behind]);
        maker.claim(&[b"'", &vec![b';'; behind][..]].concat());
    }
    end_lanes(&mut maker);
    maker.script()
}

/// What stands behind the semicolon, before it, and in its place.
fn ends(random: Random) -> Vec<u8> {
    let mut maker = three_trees(random, letters(5));
    let own = written(&maker.names, &maker.held.majority_splits());
    let tree = own[..own.len() - 1].to_vec();
    for front in [&b""[..], b" ", b";", b"\n;", b"'", b"''", b"';'", b"\0", &own] {
        for text in [&b""[..], b" ", b"(", b"A", b"'A'", &tree] {
            for end in ENDS {
                maker.claim(&[front, text, end].concat());
            }
        }
        maker.peek();
    }
    for byte in 0..=255 {
        maker.claim(&[&own[..], &[byte]].concat());
        maker.claim(&[&tree[..], &[byte]].concat());
        maker.claim(&[&tree[..], &[byte], b";"].concat());
    }
    end_lanes(&mut maker);
    maker.script()
}

/// The majority tree cut at each place; with one byte less, another, and one more at each place.
fn every_byte(random: Random) -> Vec<u8> {
    let names = [&letters(3)[..], &[b"a;b".to_vec(), b"it's".to_vec()]].concat();
    let mut maker = three_trees(random, names);
    let own = written(&maker.names, &maker.held.majority_splits());
    for at in 0..=own.len() {
        let (front, rest) = own.split_at(at);
        let behind = &rest[rest.len().min(1)..];
        maker.claim(front);
        maker.claim(&[front, behind].concat());
        for byte in ODD_BYTES {
            maker.claim(&[front, &[byte], behind].concat());
            maker.claim(&[front, &[byte], rest].concat());
        }
    }
    end_lanes(&mut maker);
    maker.script()
}

/// Names of each mark alone, of a few, and with a blank; also such as would end a text if they stood outside quotes.
fn every_mark(random: Random) -> Vec<u8> {
    let others: [&[u8]; 8] = [b" ", b"a b", b"a_b", b"''", b";;", b"';'", b"(A,B);", b"A"];
    let marks = MARKS.iter().map(|mark| vec![*mark]);
    let names: Vec<Name> = marks.chain(others.map(<[u8]>::to_vec)).collect();
    let mut maker = three_trees(random, names);
    claims_on(&mut maker);
    for _ in 0..100 {
        maker.claim_calls();
    }
    end_lanes(&mut maker);
    maker.script()
}

/// Every faulty text with every end.
fn faults(random: Random) -> Vec<u8> {
    let mut maker = opened(random, 5, 2, 9, 60);
    for text in faulty_texts(&mut maker) {
        maker.claim(&[&text[..], b";"].concat());
    }
    let text = maker.any_text();
    maker.text(&text);
    begin_lanes(&mut maker);
    for text in faulty_texts(&mut maker) {
        ENDS.iter().for_each(|end| maker.claim(&[&text[..], end].concat()));
        maker.peek();
    }
    end_lanes(&mut maker);
    maker.script()
}

// What is not asked

/// Where neither a tree nor a split has room: 11 and 12 are not asked.
fn full_rooms(random: Random) -> Vec<u8> {
    let mut maker = opened(random, 7, 1, 3, 8);
    while maker.held.number_of_trees() < 3 {
        let room = 8 - maker.held.counts().len();
        let splits = some_new_splits(&mut maker, room);
        maker.feed(0, &written(&maker.names, &splits));
        for _ in 0..10 {
            let text = maker.any_text();
            maker.text(&text);
            maker.claim(&[&text[..], b";"].concat());
            if maker.held.number_of_trees() == 3 {
                break;
            }
        }
        claims_on(&mut maker);
    }
    for _ in 0..20 {
        let text = maker.any_text();
        maker.text(&text);
        maker.claim(&[&text[..], b";"].concat());
    }
    maker.questions();
    maker.peek();
    maker.script()
}

/// Lengths kept and not; the text has lengths in the exact range, outside it, and such as are none: 17 is not asked.
fn kept_lengths(mut random: Random) -> Vec<u8> {
    let mut out = Vec::new();
    for lengths in [true, false] {
        let names = letters(6);
        let numbers = Numbers { taxa: 6, lanes: 1, tree_room: 9, split_room: 60, places: 7, lengths };
        let mut maker = Maker::open(Random::new(random.next()), names, numbers, 3);
        for most_children in [2, 2, 3] {
            let bare = bare_text(&mut maker.random, &maker.names, most_children);
            let text = with_lengths(&mut maker.random, &bare, &ADDENDS);
            maker.text(&text);
        }
        maker.peek();
        let own = written(&maker.names, &maker.held.majority_splits());
        let inside = VALUES.iter().map(|(length, _)| *length);
        for length in inside.chain(OUTSIDE).chain(["", ".", "1e", "--1", "1.2.3", "'1'", "x"]) {
            let text = with_lengths(&mut maker.random, &own[..own.len() - 1], &[length]);
            maker.claim(&[&text[..], b";"].concat());
            maker.claim(&[&own[..own.len() - 1], b":", length.as_bytes(), b";"].concat());
        }
        maker.peek();
        maker.questions();
        out.extend(maker.script());
    }
    out
}

// By chance

/// A collection between whose calls claims are made, lanes being in mid-text.
fn by_chance(mut random: Random) -> Vec<u8> {
    let n = *random.pick(&[4, 5, 6, 7, 8, 12, 20, 64]);
    let mut maker = opened(random, n, 2, 12, 150);
    let pool = two_to_one(&mut maker);
    for _ in 0..maker.random.between(5, 20) {
        match maker.random.below(5) {
            0 => maker.withdraw_some(),
            1 => {
                let piece = *maker.random.pick(&[&b"("[..], b"'", b";", b"x';", b" "]);
                maker.feed(1, piece);
            }
            2 => {
                let text = maker.any_text();
                maker.text(&text);
            }
            _ => {
                let splits = thinned(&mut maker, &pool);
                maker.feed(0, &written(&maker.names, &splits));
            }
        }
        for _ in 0..5 {
            let text = some_claim(&mut maker.random, &maker.names, Some(&maker.held));
            maker.claim(&text);
        }
        if maker.random.one_in(4) {
            maker.peek();
        }
    }
    maker.peek();
    maker.questions();
    maker.script()
}
