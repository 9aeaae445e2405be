//! Checks of the store's decoder: a store made by hand from docs/STORE.md, and changes of its bytes.

use crate::changes::{CHANGES, FAULTS, INFINITE, MINUS_ZERO, NO_NUMBERS, STORED_LENGTHS};
use crate::check::Report;
use crate::collection::Collection;
use crate::random::Random;
use crate::stores::made_bytes;
use crate::whole::held_in;
use crate::words::hex;
use std::collections::BTreeSet;

type Check = (String, bool);

/// One lane that holds `(A,`, two trees of room and three splits, two places; S1's tree and S2's over A to E.
pub fn by_hand() -> Vec<u8> {
    let mut store = vec![165; 9044];
    let fields: [(usize, usize, &[u64]); 14] = [
        (0, 2, &[5, 1, 2, 3, 2, 2, 3, 0]),
        (2128, 2, &[0, 1, 0, 1, 0]),
        (2256, 8, &[10, 20, 30, 40, 50]),
        (4096, 2, &[3]),
        (8712, 2, &[2, 0, 1]),
        (8840, 2, &[2, 2, 1]),
        (8968, 8, &[24, 28, 20]),
        (8992, 8, &[90, 120, 80]),
        (9016, 4, &[1, 2, 1]),
        (9028, 2, &[0, 1, 0]),
        (9034, 2, &[2, 0, 1]),
        (9040, 2, &[3, 2]),
        (16, 1, &[1, 65]),
        (4104, 1, &[40, 65, 44]),
    ];
    put_fields(&mut store, &fields);
    for (taxon, letter) in b"ABCDE".iter().enumerate() {
        store[16 + 33 * taxon] = 1;
        store[17 + 33 * taxon] = *letter;
    }
    store
}

/// Numbers of one width from some byte on.
pub fn put_fields(store: &mut [u8], fields: &[(usize, usize, &[u64])]) {
    for (from, width, values) in fields {
        for (i, value) in values.iter().enumerate() {
            store[from + width * i..][..*width].copy_from_slice(&value.to_le_bytes()[..*width]);
        }
    }
}

/// The same store with lengths kept: S1's tree has 0.5 and none, S2's −1 and 0.1.
fn with_lengths() -> Vec<u8> {
    let mut store = by_hand();
    store[14] = 1;
    store.resize(9044 + 2 * 512, 165);
    put_length(&mut store, 9044, 0x3fe0000000000000);
    put_length(&mut store, 9052, u64::MAX);
    put_length(&mut store, 9556, 0xbff0000000000000);
    put_length(&mut store, 9564, 0x3fb999999999999a);
    store
}

fn put_length(store: &mut [u8], at: usize, bits: u64) {
    store[at..at + 8].copy_from_slice(&bits.to_le_bytes());
}

/// Bytes and what they are changed to; the store is no more whole.
const BROKEN: [(&str, usize, u8); 30] = [
    ("3 taxa", 0, 3),
    ("6 taxa", 0, 6),
    ("no lane", 2, 0),
    ("2 lanes", 2, 2),
    ("3 trees of room", 4, 3),
    ("2 splits of room", 6, 2),
    ("7 places", 8, 7),
    ("3 trees", 10, 3),
    ("1 tree", 10, 1),
    ("2 splits", 12, 2),
    ("lengths kept in too few bytes", 14, 1),
    ("2 for lengths", 14, 2),
    ("255 for lengths", 14, 255),
    ("256 for lengths", 15, 1),
    ("a name of 33 bytes", 16, 33),
    ("an empty name", 16, 0),
    ("a name twice", 17, 66),
    ("an unprintable name", 17, 31),
    ("a first constant of 2", 2128, 2),
    ("another first constant", 2134, 0),
    ("another second constant", 2280, 41),
    ("a lane of 4,611 bytes", 4097, 18),
    ("a tree of one split", 8712, 1),
    ("a tree that falls", 8714, 1),
    ("a row that is not there", 8716, 3),
    ("another mask", 8968, 26),
    ("another identifier", 8992, 91),
    ("another count", 9016, 2),
    ("another link", 9028, 2),
    ("another start", 9042, 1),
];

/// Bytes that may have any value, or that hold something else.
const UNHARMED: [(&str, usize, u8); 13] = [
    ("name, behind its length", 18, 0),
    ("name of no taxon", 16 + 33 * 5, 77),
    ("constant of no taxon", 2138, 255),
    ("head's end", 4095, 0),
    ("lane, not used", 4098, 0),
    ("lane, behind its length", 4107, 0),
    ("tree, behind its list", 8718, 0),
    ("a blank as a name", 17, 32),
    ("a bracket as a name", 17, 40),
    ("an underscore as a name", 17, 95),
    ("an apostrophe as a name", 17, 39),
    ("a lane of 259 bytes", 4097, 1),
    ("second constant of taxon 0", 2256, 11),
];

pub fn store_checks() -> Vec<Check> {
    let store = by_hand();
    let changed = |at: usize, byte: u8| {
        let mut bytes = store.clone();
        bytes[at] = byte;
        held_in(&bytes)
    };
    let mut checks = vec![
        ("store by hand".to_string(), holds_samples(&store)),
        ("store by hand, one byte less".to_string(), held_in(&store[..9043]).is_none()),
        ("store by hand, one byte more".to_string(), held_in(&[&store[..], &[0]].concat()) == held_in(&store)),
        ("no bytes".to_string(), held_in(&[]).is_none()),
    ];
    let name = |what: &str| format!("store by hand, {what}");
    checks.extend(BROKEN.iter().map(|(what, at, byte)| (name(what), changed(*at, *byte).is_none())));
    checks.extend(UNHARMED.iter().map(|(what, at, byte)| (name(what), changed(*at, *byte).is_some())));
    checks.extend(length_checks());
    checks.extend(checker_checks(&store));
    checks.push(("made stores".to_string(), made_stores_fit()));
    checks
}

fn length_checks() -> Vec<Check> {
    let store = with_lengths();
    let with = |at: usize, bits: u64| {
        let mut bytes = store.clone();
        put_length(&mut bytes, at, bits);
        held_in(&bytes)
    };
    let stored = |bits: &u64| [9044, 9564].iter().all(|at| with(*at, *bits).is_some());
    let refused = |bits: &u64| [9044, 9052, 9556, 9564].iter().all(|at| with(*at, *bits).is_none());
    let kept_no_more = held_in(&with_byte(&store, 14, 0));
    let name = |what: &str, right: bool| (format!("store by hand with lengths, {what}"), right);
    vec![
        name("as they are", held_in(&store).is_some_and(|held| holds_lengths(&held))),
        name("one byte less", held_in(&store[..10067]).is_none()),
        name("2 for lengths", held_in(&with_byte(&store, 14, 2)).is_none()),
        name("257 for lengths", held_in(&with_byte(&store, 15, 1)).is_none()),
        name("kept no more", kept_no_more == held_in(&by_hand()) && kept_no_more.is_some()),
        name("lengths that may be stored", STORED_LENGTHS.iter().all(stored)),
        name("no numbers", NO_NUMBERS.iter().all(refused)),
        name("infinite", INFINITE.iter().all(refused)),
        name("minus zero", refused(&MINUS_ZERO)),
        name("bytes not used", [9060, 9548, 9572, 10060].iter().all(|at| with(*at, MINUS_ZERO) == held_in(&store))),
        name("another length", with(9044, 0) != held_in(&store) && with(9564, u64::MAX) != held_in(&store)),
    ]
}

fn holds_lengths(held: &Collection) -> bool {
    let lengths = |split: u64| held.lengths(split).map(|of| [of.shortest.0, of.longest.0, of.sum.0]);
    lengths(0) == Ok([0xbff0000000000000; 3])
        && lengths(1) == Ok([0x3fe0000000000000; 3])
        && lengths(2) == Err(18)
        && held.weighted(1, 1).is_ok()
        && held.weighted(0, 1).is_err()
}

/// Those without a change are whole; each change leaves some whole, and each fault leaves some not whole.
fn made_stores_fit() -> bool {
    let mut random = Random::new(1);
    let (mut changes, mut faults) = (BTreeSet::new(), BTreeSet::new());
    let mut plain = true;
    for i in 0..20 * 3 * FAULTS.len() {
        let whole = held_in(&made_bytes(&mut random, i).1).is_some();
        match i % 3 {
            0 => plain &= whole,
            1 if whole => drop(changes.insert(i / 3 % CHANGES.len())),
            2 if !whole => drop(faults.insert(i / 3 % FAULTS.len())),
            _ => (),
        }
    }
    plain && changes.len() == CHANGES.len() && faults.len() == FAULTS.len()
}

fn holds_samples(store: &[u8]) -> bool {
    held_in(store).is_some_and(|held| {
        let trees: Vec<Vec<u64>> = held.trees().iter().map(|tree| tree.splits.iter().copied().collect()).collect();
        let majority = held.majority_text(100).unwrap_or_default();
        trees == [[24, 28], [20, 28]] && majority == b"(A,B,(C,D,E));" && held.lanes().len() == 1
    })
}

/// The checker on a run that is right, and on runs with one answer changed.
fn checker_checks(store: &[u8]) -> Vec<Check> {
    let bytes = hex(store);
    let script = format!("lend 9044\npoke 0 {bytes}\ncount\nfeed 0 3b\npeek 0 9044\nclose 1\npeek 0 9044\n");
    let empty = with_byte(store, 4096, 0);
    let right = format!("done\ndone\nnumber 3\nrefused 1 7\nbytes {0}\nrefused 5\nbytes {0}\n", hex(&empty));
    let differences = |answers: &str| Report::of(script.as_bytes(), answers.as_bytes()).differences;
    let with = |at: usize, line: String| {
        let mut lines: Vec<&str> = right.lines().collect();
        lines[at] = &line;
        differences(&format!("{}\n", lines.join("\n")))
    };
    let peeked = |bytes: &[u8]| format!("bytes {}", hex(bytes));
    vec![
        ("checker, right answers".to_string(), differences(&right) == 0),
        ("checker, another number".to_string(), with(2, "number 4".to_string()) == 1),
        ("checker, another refusal".to_string(), with(3, "refused 1 8".to_string()) == 1),
        ("checker, lane not emptied".to_string(), with(4, peeked(store)) > 0),
        ("checker, byte outside the lane".to_string(), with(4, peeked(&with_byte(&empty, 2768, 0))) > 0),
        ("checker, byte changed by a refusal".to_string(), with(6, peeked(&with_byte(&empty, 5000, 0))) == 1),
        ("checker, line end missing".to_string(), differences(&right[..right.len() - 1]) == 1),
        ("checker, answer missing".to_string(), differences(&right[..right.rfind("bytes").unwrap_or(0)]) == 1),
        ("checker, no answers".to_string(), differences("") == 1),
        ("checker, answers too many".to_string(), differences(&format!("{right}done\n")) == 1),
    ]
}

pub fn with_byte(store: &[u8], at: usize, byte: u8) -> Vec<u8> {
    let mut changed = store.to_vec();
    changed[at] = byte;
    changed
}
