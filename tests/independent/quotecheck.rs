//! Checks of quotes and underscores: labels, names, lists of names, texts, lanes and sheets by hand.

use crate::collection::Collection;
use crate::labels::{is_odd, label, written_name};
use crate::layout::{RUN_OVER, RUN_OVER_ODD};
use crate::opening::{names_of, open, Numbers};
use crate::parts::Parts;
use crate::quotesamples::{LABELS, LISTS, NAMES, PIECES, READ, VERDICTS, WRITTEN};
use crate::summary::treesum;
use crate::verdict::judge;
use crate::whole::held_in;
use std::collections::BTreeSet;

type Check = (String, bool);

pub fn quote_checks() -> Vec<Check> {
    [labels(), lists(), verdicts(), pieces(), stored(), sheets()].concat()
}

fn check(kind: &str, what: &str, right: bool) -> Check {
    (format!("{kind} {}", what.escape_default()), right)
}

fn labels() -> Vec<Check> {
    let reads = |(bytes, as_name): &(&str, Option<&str>)| {
        check("label", bytes, label(bytes.as_bytes()).as_deref() == as_name.map(str::as_bytes))
    };
    let writes = |(name, written): &(&str, &str)| {
        let right = written_name(name.as_bytes()) == written.as_bytes();
        check("name", name, right && label(written.as_bytes()).as_deref() == Some(name.as_bytes()))
    };
    let marks: BTreeSet<u8> = (32..=126).filter(|b| written_name(&[*b]).len() > 1).collect();
    let mut checks: Vec<Check> = READ.iter().map(reads).chain(WRITTEN.iter().map(writes)).collect();
    checks.push(check("name", "marks", marks == BTreeSet::from(*b"_()[]':;,")));
    checks
}

fn names() -> Vec<Vec<u8>> {
    NAMES.map(|name| name.as_bytes().to_vec()).to_vec()
}

/// A good list names what its labels read as, in its order.
fn lists() -> Vec<Check> {
    let right = |(list, labels): &(&str, &[&str])| {
        let read: Option<Vec<Vec<u8>>> = labels.iter().map(|bytes| label(bytes.as_bytes())).collect();
        let names = names_of(list.as_bytes(), 4);
        check("list", list, if labels.is_empty() { names.is_none() } else { names == read && read.is_some() })
    };
    let written: Vec<Vec<u8>> = names().iter().map(|name| written_name(name)).collect();
    let mut checks: Vec<Check> = LISTS.iter().map(right).collect();
    checks.push(check("list", "names with every mark", names_of(&written.join(&b' '), 8) == Some(names())));
    checks
}

fn verdicts() -> Vec<Check> {
    let verdict = |text: &str| judge(&names(), text.as_bytes()).err().unwrap_or(0);
    let mut checks: Vec<Check> =
        VERDICTS.iter().map(|(text, expected)| check("text", text, verdict(text) == *expected)).collect();
    let odd = LABELS.iter().filter(|label| is_odd(label.as_bytes())).count();
    checks.push(check("labels", "odd and even ones", odd >= 6 && LABELS.len() - odd >= 20));
    checks
}

fn opened() -> Collection {
    let numbers = Numbers { taxa: 4, lanes: 1, tree_room: 1, split_room: 1, places: 1, lengths: false };
    let Ok(opening) = open(numbers, b"A B C D", &[0; 4], &[0; 4], u64::MAX) else {
        panic!("the opening of the check is refused");
    };
    Collection::new(opening)
}

fn pieces() -> Vec<Check> {
    let mut held = opened();
    let mut answered = |piece: &str| match piece {
        "close" => held.close(0).map_or_else(|refusal| format!("refused {refusal}"), |()| "done".to_string()),
        _ => held.feed(0, piece.replace("LONG", &" ".repeat(4607)).as_bytes()).line(),
    };
    PIECES.iter().map(|(piece, answer)| check("piece", piece, answered(piece) == *answer)).collect()
}

/// A lane's stored length, and names as they read: what is fed comes back from the bytes.
fn stored() -> Vec<Check> {
    let bytes_of = |collection: &Collection| {
        let mut bytes = vec![165; collection.opening().numbers.size().expect("numbers in range") as usize];
        Parts::of(collection, Vec::new()).write(&mut bytes);
        bytes
    };
    let after = |piece: &[u8]| {
        let mut held = opened();
        held.feed(0, piece);
        bytes_of(&held)
    };
    let long = |bytes: &[u8]| u64::from(bytes[4096]) + 256 * u64::from(bytes[4097]);
    let with = |at: usize, changed: &[u8]| {
        let mut bytes = after(b"(");
        bytes[at..at + changed.len()].copy_from_slice(changed);
        held_in(&bytes).is_some()
    };
    let blanks = |n: usize, more: &[u8]| [&vec![b' '; n], more].concat();
    let whole_length = |n: u64| with(4096, &n.to_le_bytes()[..2]);
    let name_byte = |b: u8| with(17, &[b]);
    vec![
        check("store", "size", after(b"").len() == 8866),
        check("store", "4,608 bytes", long(&after(&blanks(4607, b"'"))) == 4608),
        check("store", "run over", long(&after(&blanks(4607, b"''"))) == RUN_OVER && RUN_OVER == 4609),
        check("store", "run over, odd", long(&after(&blanks(4608, b"'"))) == RUN_OVER_ODD && RUN_OVER_ODD == 4610),
        check("store", "run over, odd and even", long(&after(&blanks(4608, b"';;'"))) == RUN_OVER),
        check(
            "store",
            "read back",
            held_in(&after(&blanks(4608, b"'"))).is_some_and(|mut held| {
                held.feed(0, b";").line() == "more 1" && held.feed(0, b"';").line() == "refused 2 6"
            }),
        ),
        check("store", "lengths in range", (4607..=4610).all(whole_length) && whole_length(0)),
        check("store", "lengths out of range", ![4611, 4612, 5000, 65535].into_iter().any(whole_length)),
        check("store", "bytes of names", (32..=126).filter(|b| !b"BCD".contains(b)).all(name_byte)),
        check("store", "other bytes", !(0..=31).chain(127..=255).any(name_byte)),
        check("store", "equal names", !name_byte(b'B')),
        check("store", "blank and underscore", with(16, b"\x03a b") && with(16, b"\x03a_b") && with(16, b"\x03a'b")),
        check("store", "32 and 33 bytes", with(16, &[&b"\x20"[..], &[39; 32]].concat()) && !with(16, &[33])),
    ]
}

fn sheets() -> Vec<Check> {
    let sheet =
        "taxa 4 trees 1 refused 0 splits 1\n12 1\n0\nmajority (a_b,B,('c_d','''e'));\nstrict (a_b,B,('c_d','''e'));\n";
    let is = |input: &str, answer: &str| treesum(input.as_bytes()) == answer.as_bytes();
    let first = |input: &str, line: &str| treesum(input.as_bytes()).starts_with(format!("{line}\n").as_bytes());
    vec![
        check("treesum", "quoted names", is("'a b' B 'c_d' '''e'\n((a_b,'B'),'c_d','''e');", sheet)),
        check("treesum", "underscores", is("a_b B 'c_d' '''e'\n(('a b',B),('c_d','''e'));", sheet)),
        check(
            "treesum",
            "quoted spaces",
            first("'a b c d'\n", "names refused 2") && first("a b 'c d'\n", "names refused 2"),
        ),
        check(
            "treesum",
            "open quotes",
            first("A B C D '\n", "names refused 3") && first("'A B C D\n", "names refused 2"),
        ),
        check(
            "treesum",
            "bad quotes",
            first("'A'B C D E\n", "names refused 3") && first("A '' C D\n", "names refused 3"),
        ),
        check("treesum", "the same name", first("a_b 'a b' C D\n", "names refused 3")),
        check("treesum", "different names", first("a_b 'a_b' C D\n", "taxa 4 trees 0 refused 0 splits 0")),
        check("treesum", "LF in quotes", first("A B C 'D\n' E;", "names refused 3")),
        check(
            "treesum",
            "hidden semicolon",
            first("A B C D\n(A,B,C,D)';';(A,B,C,D);", "taxa 4 trees 2 refused 0 splits 0"),
        ),
        check(
            "treesum",
            "quotes to the end",
            first("A B C D\n(A,B,C,D)';(A,B,C,D);", "taxa 4 trees 0 refused 1 splits 0"),
        ),
        check("treesum", "apostrophe at the end", first("A B C D\n(A,B,C,D);'", "taxa 4 trees 1 refused 1 splits 0")),
    ]
}
