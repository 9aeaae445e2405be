//! The limits of NEXUS files: keys, bytes of a plain text, trees, and long parts of every kind.

use crate::files::Pairs;
use crate::grow::{ladder, text_of, Name};
use crate::labels::{quoted, written_name, written_names};
use crate::limits::{bare_text, opened, opened_plain};
use crate::maker::Maker;
use crate::nexus::with_labels;
use crate::random::Random;
use crate::verdict::MOST_BYTES;
use crate::words::hex;

/// A key, and a name as it is written.
type Pair = (Vec<u8>, Vec<u8>);

/// A file of a TRANSLATE list, if there are pairs, and these texts as they stand.
fn file(pairs: &[Pair], texts: &[Vec<u8>]) -> Vec<u8> {
    let mut out = b"#NEXUS\nBEGIN TREES;\n".to_vec();
    let pairs: Vec<Vec<u8>> = pairs.iter().map(|(key, name)| [&key[..], b" ", name].concat()).collect();
    if !pairs.is_empty() {
        out.extend([&b"TRANSLATE\n"[..], &pairs.join(&b",\n"[..]), b";\n"].concat());
    }
    for text in texts {
        out.extend([&b"TREE t="[..], text, b";\n"].concat());
    }
    out.extend(b"END;\n");
    out
}

/// The text with each name's key in its place.
fn keyed(pairs: &[Pair], text: &[u8]) -> Vec<u8> {
    let key = |part: &[u8]| pairs.iter().find(|(_, name)| name == part).map_or(part, |(key, _)| key).to_vec();
    with_labels(text, |_, part| key(part))
}

fn numbered(names: &[Name]) -> Pairs {
    names.iter().enumerate().map(|(i, name)| (format!("{}", i + 1).into_bytes(), written_name(name))).collect()
}

// Keys

/// 1, 63, 64 and 65 keys; one of them twice, at either end; each name the key of another.
pub fn numbers_of_keys(random: Random) -> Vec<u8> {
    let mut maker = opened_plain(random, 64, 2, 60, 500);
    let names = [&maker.names[..], &[b"no-taxon".to_vec()]].concat();
    let all = numbered(&names);
    with_pairs(&mut maker, &all[..1]);
    for most in [2, 63, 64, 65] {
        for (from, to) in [(0, 0), (0, 1), (0, most - 1), (most - 2, most - 1), (most - 1, 0)] {
            let mut pairs = all[..most].to_vec();
            pairs[to].0 = all[from].0.clone();
            with_pairs(&mut maker, &pairs);
        }
    }
    for by in [1, 31, 63] {
        let names: Vec<Vec<u8>> = maker.names.iter().map(|name| written_name(name)).collect();
        let keys = names.iter().cycle().skip(by).cloned();
        let pairs: Pairs = keys.zip(names.iter().cloned()).collect();
        with_pairs(&mut maker, &pairs);
    }
    maker.questions();
    maker.script()
}

/// Two trees written with the keys, and one with names.
fn with_pairs(maker: &mut Maker, pairs: &[Pair]) {
    let texts = [(); 3].map(|()| bare_text(&mut maker.random, &maker.names, 3));
    let [a, b, c] = texts;
    maker.nexus(&file(pairs, &[keyed(pairs, &a), keyed(pairs, &b), c]));
    maker.ask("trees");
}

/// Keys of up to 5,000 bytes for names, and names of more than 32 bytes, which are no taxa.
pub fn long_keys_and_names(random: Random) -> Vec<u8> {
    let mut maker = opened_plain(random, 5, 1, 60, 100);
    for long in [31, 32, 33, 64, 65, 255, 256, 257, 5000] {
        let keys = (0..5).map(|i| [vec![b'k'; long - 1], vec![b'0' + i]].concat());
        let pairs: Pairs = keys.zip(maker.names.iter().map(|name| written_name(name))).collect();
        with_pairs(&mut maker, &pairs);
        // One byte longer or shorter, or other in its last byte, it is another token.
        let text = written_names(&maker.names, b',');
        for key in [&pairs[0].0[1..], &[b'k'; 1000][..long.min(1000)], &[&pairs[0].0[..], b"x"].concat()] {
            maker.nexus(&file(&pairs, &[[b"(", key, b",", &text, b")"].concat()]));
        }
        let quoted_keys: Pairs = pairs.iter().map(|(key, name)| (name.clone(), quoted(key))).collect();
        with_pairs(&mut maker, &quoted_keys);
        let pairs: Pairs = pairs.into_iter().map(|(key, name)| (name, key)).collect();
        with_pairs(&mut maker, &pairs);
    }
    maker.peek();
    maker.script()
}

// Texts

/// Plain texts of 4,607 to 4,610 bytes: as they stand, written longer with long keys, shorter with short ones, with
/// comments that are one byte each; good ones, and such with a fault of form or an unknown leaf beside.
pub fn file_texts(random: Random) -> Vec<u8> {
    let mut maker = opened(random, 20, 2, 200, 400);
    let short = numbered(&maker.names);
    let long: Pairs = short.iter().map(|(key, name)| ([&[b'k'; 400][..], key].concat(), name.clone())).collect();
    for bytes in [MOST_BYTES - 100, MOST_BYTES - 1, MOST_BYTES, MOST_BYTES + 1, MOST_BYTES + 2, 9000] {
        for fault in [&b""[..], b"(", b")", b"nobody", b"]", b"\0", b"''", b"'[;'"] {
            let text = filled(&mut maker, fault, bytes);
            for pairs in [&[][..], &short, &long] {
                let standing = keyed(pairs, &text);
                maker.nexus(&file(pairs, &[standing.clone(), with_comments(&standing)]));
            }
        }
        maker.nexus(&file(&[], &[vec![b' '; bytes], vec![b'('; bytes], vec![b'x'; bytes]]));
    }
    for brackets in [62, 63, 64, 65] {
        let tree = ladder(&mut maker.random, &maker.names, brackets);
        let text = text_of(&mut maker.random, &tree);
        maker.nexus(&file(&short, &[keyed(&short, &text)]));
    }
    maker.questions();
    maker.script()
}

/// A text with this in front of it, and blanks at one of its ends up to so many bytes.
fn filled(maker: &mut Maker, fault: &[u8], bytes: usize) -> Vec<u8> {
    let text = [fault, &bare_text(&mut maker.random, &maker.names, 3)].concat();
    let blanks = vec![*maker.random.pick(b" \t\r\n"); bytes - text.len()];
    if maker.random.one_in(2) {
        [blanks, text].concat()
    } else {
        [text, blanks].concat()
    }
}

/// Every tenth blank outside quotes is a comment.
fn with_comments(text: &[u8]) -> Vec<u8> {
    let mut odd = false;
    let byte = |(i, b): (usize, &u8)| {
        odd ^= *b == b'\'';
        match b {
            b' ' | b'\t' | b'\r' | b'\n' if i % 10 == 0 && !odd => b"[&prob=1]".to_vec(),
            _ => vec![*b],
        }
    };
    text.iter().enumerate().flat_map(byte).collect()
}

/// What stands before a token that is a key.
const BEFORE: [&[u8]; 29] = [
    b"", b" ", b"[x]", b"(", b",", b")", b") ", b")\r\n", b")[x]", b":", b": ", b":\t[x]", b"x ", b")x ", b":x ",
    b")k ", b"]", b"'", b"=", b"\0", b"''", b"'x'", b"'x' ", b"'k' ", b")'x'", b")'x' ", b":'x'", b"')'", b"')':",
];

/// Whether a token is replaced that is an inner label, or stands in a faulty text, only 6 can tell: such tokens, in
/// texts about as long as the limit, with names one byte longer and one byte shorter than their keys, and with names
/// in quotes that may meet others.
pub fn keys_at_the_limit(random: Random) -> Vec<u8> {
    let mut maker = opened(random, 5, 1, 60, 100);
    let star = maker.star(&maker.names);
    for (key, name) in [(&b"k"[..], &b"kk"[..]), (b"kk", b"k"), (b"k", b"'k'"), (b"kkkk", b"'k'")] {
        for before in BEFORE {
            let token = [before, key].concat();
            let counted = if before.ends_with(b"[x]") { token.len() - 2 } else { token.len() };
            let alone = |long: usize| [&token[..], &vec![b' '; long - counted]].concat();
            let label = |long: usize| [&vec![b' '; long - counted - star.len()], &star[..], &token].concat();
            let longs = MOST_BYTES - 2..MOST_BYTES + 4;
            let texts: Vec<Vec<u8>> = longs.flat_map(|long| [alone(long), label(long)]).collect();
            maker.nexus(&file(&[(key.to_vec(), name.to_vec())], &texts));
        }
    }
    maker.ask("trees");
    maker.script()
}

// Files

/// 1,024 trees and one more, in a list of enough verdicts and of one too few; and many texts that are no trees.
pub fn numbers_of_trees(random: Random) -> Vec<u8> {
    let mut maker = opened(random, 6, 1, 1024, 30);
    let pairs = numbered(&maker.names);
    let mut texts: Vec<Vec<u8>> = Vec::new();
    for _ in 0..1024 {
        let text = bare_text(&mut maker.random, &maker.names, 4);
        texts.push(keyed(&pairs, &text));
    }
    maker.ask("room 1023");
    maker.ask(format!("nexus {}", hex(&file(&pairs, &texts))));
    maker.ask("room 1024");
    maker.nexus(&file(&pairs, &texts));
    maker.ask("room -");
    maker.nexus(&file(&pairs, &texts[..2]));
    maker.nexus(&file(&[], &vec![b"x".to_vec(); 5000]));
    for line in ["trees", "splits", "matrix", "both"] {
        maker.ask(line);
    }
    maker.peek();
    maker.script()
}

/// Long comments, quotes, blanks, blocks, names and texts, before keys, behind them and inside; and what is malformed behind.
pub fn long_files(random: Random) -> Vec<u8> {
    let mut maker = opened(random, 5, 1, 200, 100);
    let pairs = numbered(&maker.names);
    for long in [MOST_BYTES, 70_000] {
        let many = |byte: u8| vec![byte; long];
        let text = bare_text(&mut maker.random, &maker.names, 3);
        let good = file(&pairs, &[keyed(&pairs, &text), text.clone()]);
        for (before, behind) in long_parts(long) {
            for end in [&b""[..], b" END;", b"; END;", b"]"] {
                maker.nexus(&[&before, &good, &behind, end].concat());
            }
        }
        let comment = [&b"["[..], &many(b'['), b"]"].concat();
        let inside: Vec<u8> =
            keyed(&pairs, &text).split_inclusive(|b| *b == b',').collect::<Vec<&[u8]>>().join(&comment[..]);
        maker.nexus(&file(&pairs, &[inside, many(b'1'), many(b' '), quoted(&many(b';')), quoted(&many(b'\''))]));
        maker.nexus(&file(&[(b"1".to_vec(), quoted(&many(b'[')))], &[b"(1,2)".to_vec(), text.clone()]));
        maker.nexus(&[&b"#NEXUS BEGIN TREES; TREE "[..], &many(b'n'), b"=", &text, b"; END;"].concat());
        maker.nexus(&many(b'#'));
    }
    maker.peek();
    maker.script()
}

/// So many bytes of one kind, each where it stands before a file or behind one.
fn long_parts(long: usize) -> Vec<(Vec<u8>, Vec<u8>)> {
    let many = |byte: u8| vec![byte; long];
    let behind = |front: &[u8], bytes: Vec<u8>| (Vec::new(), [front, &bytes].concat());
    vec![
        ([&b"["[..], &many(b'['), b"]"].concat(), Vec::new()),
        (many(b'\n'), Vec::new()),
        behind(b" BEGIN X;", many(b'x')),
        behind(b" BEGIN X;", many(b';')),
        behind(b" BEGIN X;", b"END ".repeat(long / 4)),
        behind(b" BEGIN ", many(b'x')),
        behind(b" ", many(b']')),
        behind(b" [", many(b'x')),
        behind(b" BEGIN X;", quoted(&b"END;[".repeat(long / 5))),
        behind(b" BEGIN X; '", many(b'x')),
        behind(b" BEGIN X;", many(b'\'')),
        behind(b" BEGIN X; '", many(b'\'')),
    ]
}
