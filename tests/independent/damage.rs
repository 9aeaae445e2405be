//! Texts at and past the limits, and texts with a fault of each kind.

use crate::grow::{
    any_dress, any_quoted_byte, blanks, joined, ladder, shape, spelled, text, text_of, tokens, Name, Shape, Tokens,
    BARE,
};
use crate::labels::{label, quoted};
use crate::random::Random;
use crate::verdict::MOST_BYTES;

type Maker = fn(&mut Random, &[Name]) -> Vec<u8>;

const BAD_LENGTHS: [&str; 15] =
    [".", "e5", "1e", "1.2.3", "1e+", "--1", "+", "-.", "1e5.0", "0x10", "1_0", "inf", "nan", "1f", ".e1"];

/// Every kind of text; those at a limit are accepted in part, the others are faulty or nearly so.
pub const KINDS: [Maker; 30] = [
    one_child,
    missing_bracket,
    extra_bracket,
    two_labels,
    bad_length,
    colon_alone,
    second_length,
    unknown_leaf,
    long_leaf,
    repeated_leaf,
    missing_leaf,
    unknown_and_repeated,
    stray_byte,
    changed_byte,
    lost_byte,
    cut_short,
    something_behind,
    lost_token,
    doubled_token,
    empty_bracket,
    odd_leaf,
    odd_inner_label,
    quoted_length,
    underscores_and_blanks,
    nesting_63,
    nesting_64,
    bytes_4608,
    bytes_4609,
    little,
    two_faults,
];

// Faults in tokens

fn plain_tokens(random: &mut Random, names: &[Name]) -> Tokens {
    let shape = shape(random, names, 3);
    let dress = any_dress(random);
    tokens(random, &shape, dress)
}

/// Where tokens of a kind stand.
fn places(tokens: &Tokens, kind: impl Fn(&[u8]) -> bool) -> Vec<usize> {
    (0..tokens.len()).filter(|i| kind(&tokens[*i])).collect()
}

fn finished(random: &mut Random, tokens: &Tokens) -> Vec<u8> {
    let dress = any_dress(random);
    joined(random, tokens, dress)
}

fn is_bracket(token: &[u8]) -> bool {
    matches!(token, b"(" | b")")
}

fn is_sign(token: &[u8]) -> bool {
    matches!(token, b"(" | b")" | b"," | b":")
}

fn missing_bracket(random: &mut Random, names: &[Name]) -> Vec<u8> {
    let mut tokens = plain_tokens(random, names);
    let brackets = places(&tokens, is_bracket);
    tokens.remove(*random.pick(&brackets));
    finished(random, &tokens)
}

fn extra_bracket(random: &mut Random, names: &[Name]) -> Vec<u8> {
    let sign = *random.pick(&[b"(", b")"]);
    with_token(random, names, sign)
}

fn with_token(random: &mut Random, names: &[Name], token: &[u8]) -> Vec<u8> {
    let mut tokens = plain_tokens(random, names);
    let at = random.between(0, tokens.len());
    tokens.insert(at, token.to_vec());
    finished(random, &tokens)
}

fn two_labels(random: &mut Random, names: &[Name]) -> Vec<u8> {
    let mut tokens = plain_tokens(random, names);
    let labels = places(&tokens, |token| !is_sign(token));
    let at = *random.pick(&labels);
    let name = random.pick(names);
    tokens.insert(at, spelled(random, name, 2));
    finished(random, &tokens)
}

fn bad_length(random: &mut Random, names: &[Name]) -> Vec<u8> {
    let length = random.pick(&BAD_LENGTHS).as_bytes().to_vec();
    after_a_leaf(random, names, vec![b":".to_vec(), length])
}

fn colon_alone(random: &mut Random, names: &[Name]) -> Vec<u8> {
    after_a_leaf(random, names, vec![b":".to_vec()])
}

fn second_length(random: &mut Random, names: &[Name]) -> Vec<u8> {
    let length = || [b":".to_vec(), b"1".to_vec()];
    after_a_leaf(random, names, [length(), length()].concat())
}

/// Tokens put behind a leaf, in place of what stood there.
fn after_a_leaf(random: &mut Random, names: &[Name], more: Tokens) -> Vec<u8> {
    let mut tokens = plain_tokens(random, names);
    let at = random.pick(&leaves(&tokens, names)) + 1;
    let had_length = tokens.get(at).is_some_and(|token| token == b":");
    let end = if had_length { at + 2 } else { at };
    tokens.splice(at..end, more);
    finished(random, &tokens)
}

/// Where names stand.
fn leaves(tokens: &Tokens, names: &[Name]) -> Vec<usize> {
    places(tokens, |token| label(token).is_some_and(|label| names.contains(&label)))
}

fn lost_token(random: &mut Random, names: &[Name]) -> Vec<u8> {
    let mut tokens = plain_tokens(random, names);
    tokens.remove(random.below(tokens.len()));
    finished(random, &tokens)
}

fn doubled_token(random: &mut Random, names: &[Name]) -> Vec<u8> {
    let mut tokens = plain_tokens(random, names);
    let at = random.below(tokens.len());
    tokens.insert(at, tokens[at].clone());
    finished(random, &tokens)
}

fn empty_bracket(random: &mut Random, names: &[Name]) -> Vec<u8> {
    with_token(random, names, b"()")
}

// Faults in quotes

/// A name in quotes that are odd, or nearly so.
fn odd_quotes(random: &mut Random, names: &[Name]) -> Vec<u8> {
    let mut odd = quoted(random.pick::<Name>(names));
    let (other, at) = (quoted(random.pick::<Name>(names)), random.below(odd.len()));
    match random.below(12) {
        0 => odd = random.pick(&[&b"''"[..], b"' '", b"''''", b"'_'", b"_"]).to_vec(),
        1 => odd.push(b'x'),
        2 => odd.insert(0, b'x'),
        3 => odd = [odd, other].join(&b' '),
        4 => odd.extend(other),
        5 => odd.extend(b"''"),
        6 => odd.insert(at, *random.pick(&[0, 9, 10, 13, 31, 127, 128, 255])),
        7 => drop(odd.remove(at)),
        8 => drop(odd.pop()),
        9 => drop(odd.remove(0)),
        10 => odd = odd[1..odd.len() - 1].to_vec(),
        _ => odd.insert(at, b'\''),
    }
    odd
}

fn odd_leaf(random: &mut Random, names: &[Name]) -> Vec<u8> {
    let mut tokens = plain_tokens(random, names);
    let at = *random.pick(&leaves(&tokens, names));
    tokens[at] = odd_quotes(random, names);
    finished(random, &tokens)
}

fn odd_inner_label(random: &mut Random, names: &[Name]) -> Vec<u8> {
    let mut tokens = plain_tokens(random, names);
    let brackets = places(&tokens, |token| token == b")");
    let at = random.pick(&brackets) + 1;
    tokens.insert(at, odd_quotes(random, names));
    finished(random, &tokens)
}

fn quoted_length(random: &mut Random, names: &[Name]) -> Vec<u8> {
    let length = *random.pick(&[&b"'1'"[..], b"1'2'", b"'1'2", b"''", b"'1' 2", b"1 '2'", b"1_0"]);
    after_a_leaf(random, names, vec![b":".to_vec(), length.to_vec()])
}

/// Underscores for blanks and blanks for underscores, whether they stand in quotes or not.
fn underscores_and_blanks(random: &mut Random, names: &[Name]) -> Vec<u8> {
    let mut tokens = plain_tokens(random, names);
    let at = *random.pick(&leaves(&tokens, names));
    let often = random.between(1, 3);
    for b in &mut tokens[at] {
        match *b {
            b'_' if random.one_in(often) => *b = b' ',
            b' ' if random.one_in(often) => *b = b'_',
            _ => (),
        }
    }
    finished(random, &tokens)
}

// Faults in leaves and brackets of the tree

fn one_child(random: &mut Random, names: &[Name]) -> Vec<u8> {
    let mut tree = shape(random, names, 3);
    change_a_leaf(random, &mut tree, &|name| Shape::Inner(vec![Shape::Leaf(name.to_vec())]));
    text_of(random, &tree)
}

/// Changes one leaf, found by going down at random.
fn change_a_leaf(random: &mut Random, tree: &mut Shape, change: &dyn Fn(&[u8]) -> Shape) {
    match tree {
        Shape::Leaf(name) => *tree = change(name),
        Shape::Inner(children) => {
            let at = random.below(children.len());
            change_a_leaf(random, &mut children[at], change);
        }
    }
}

fn with_leaf(random: &mut Random, names: &[Name], leaf: Name) -> Vec<u8> {
    let mut tree = shape(random, names, 3);
    change_a_leaf(random, &mut tree, &|_| Shape::Leaf(leaf.clone()));
    text_of(random, &tree)
}

/// A name with one byte more, less or changed: nearly always unknown.
fn unknown_leaf(random: &mut Random, names: &[Name]) -> Vec<u8> {
    let mut leaf = random.pick(names).clone();
    match random.below(3) {
        0 => leaf.push(any_quoted_byte(random)),
        1 if leaf.len() > 1 => drop(leaf.pop()),
        _ => *leaf.last_mut().expect("a name has a byte") = any_quoted_byte(random),
    }
    with_leaf(random, names, leaf)
}

fn long_leaf(random: &mut Random, names: &[Name]) -> Vec<u8> {
    let long = *random.pick(&[33, 64, 300]);
    let leaf = (0..long).map(|_| any_quoted_byte(random)).collect();
    with_leaf(random, names, leaf)
}

fn repeated_leaf(random: &mut Random, names: &[Name]) -> Vec<u8> {
    let leaf = random.pick(names).clone();
    if random.one_in(2) {
        return with_leaf(random, names, leaf);
    }
    let all_and_one: Vec<Name> = names.iter().cloned().chain([leaf]).collect();
    text(random, &all_and_one)
}

fn missing_leaf(random: &mut Random, names: &[Name]) -> Vec<u8> {
    let mut kept = names.to_vec();
    let most = names.len() - 2;
    for _ in 0..random.between(1, most.min(3)) {
        kept.swap_remove(random.below(kept.len()));
    }
    text(random, &kept)
}

fn unknown_and_repeated(random: &mut Random, names: &[Name]) -> Vec<u8> {
    let mut tree = shape(random, names, 3);
    let repeated = random.pick(names).clone();
    change_a_leaf(random, &mut tree, &|_| Shape::Leaf(repeated.clone()));
    change_a_leaf(random, &mut tree, &|_| Shape::Leaf(b"no-such-taxon".to_vec()));
    text_of(random, &tree)
}

// Faults in bytes

fn stray_byte(random: &mut Random, names: &[Name]) -> Vec<u8> {
    let mut bytes = text(random, names);
    insert_a_byte(random, &mut bytes);
    bytes
}

fn insert_a_byte(random: &mut Random, bytes: &mut Vec<u8>) {
    let at = random.between(0, bytes.len());
    let byte = if random.one_in(4) { b'\'' } else { random.below(256) as u8 };
    bytes.insert(at, byte);
}

fn changed_byte(random: &mut Random, names: &[Name]) -> Vec<u8> {
    let mut bytes = text(random, names);
    let at = random.below(bytes.len());
    bytes[at] = random.below(256) as u8;
    bytes
}

fn lost_byte(random: &mut Random, names: &[Name]) -> Vec<u8> {
    let mut bytes = text(random, names);
    bytes.remove(random.below(bytes.len()));
    bytes
}

fn cut_short(random: &mut Random, names: &[Name]) -> Vec<u8> {
    let mut bytes = text(random, names);
    bytes.truncate(random.below(bytes.len()));
    bytes
}

fn something_behind(random: &mut Random, names: &[Name]) -> Vec<u8> {
    let behind: [&[u8]; 6] = [b"x y", b",", b")", b"()", b":1:1", b",A"];
    let mut bytes = text(random, names);
    bytes.extend(*random.pick(&behind));
    bytes
}

fn two_faults(random: &mut Random, names: &[Name]) -> Vec<u8> {
    let kind = random.below(KINDS.len() - 1);
    let mut bytes = KINDS[kind](random, names);
    insert_a_byte(random, &mut bytes);
    bytes
}

// Limits

fn nesting_63(random: &mut Random, names: &[Name]) -> Vec<u8> {
    let tree = ladder(random, names, 63);
    text_of(random, &tree)
}

fn nesting_64(random: &mut Random, names: &[Name]) -> Vec<u8> {
    let tree = ladder(random, names, 64);
    text_of(random, &tree)
}

fn bytes_4608(random: &mut Random, names: &[Name]) -> Vec<u8> {
    filled(random, names, MOST_BYTES)
}

fn bytes_4609(random: &mut Random, names: &[Name]) -> Vec<u8> {
    filled(random, names, MOST_BYTES + 1)
}

/// A text filled up to a length with blanks in front or behind, with an inner label, in quotes or not, or with a
/// length's digits.
fn filled(random: &mut Random, names: &[Name], long: usize) -> Vec<u8> {
    let shape = shape(random, names, 3);
    let parts = tokens(random, &shape, BARE);
    let mut bytes = joined(random, &parts, BARE);
    let more = long.saturating_sub(bytes.len()).max(4);
    match random.below(5) {
        0 => bytes.splice(0..0, vec![b' '; more]).for_each(drop),
        1 => bytes.extend(vec![b'\n'; more]),
        2 => bytes.extend(vec![b'L'; more]),
        3 => bytes.extend([&b"'"[..], &vec![*random.pick(b"L;"); more - 2], b"'"].concat()),
        _ => bytes.extend(b":".iter().copied().chain(vec![b'7'; more - 1])),
    }
    bytes
}

/// No byte, blanks alone, one token, or a sign.
fn little(random: &mut Random, names: &[Name]) -> Vec<u8> {
    match random.below(5) {
        0 => Vec::new(),
        1 => blanks(random),
        2 => quoted(random.pick::<Name>(names)),
        3 => b"nobody".to_vec(),
        _ => random.pick(&[&b"("[..], b")", b",", b":", b"()", b"(,)", b":1", b"[", b"'", b"''"]).to_vec(),
    }
}
