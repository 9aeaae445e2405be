//! Checks of NEXUS files: the reader on files by hand, the calls, what the checker wants of the lent bytes, and
//! generated files.

use crate::calls::treecalls;
use crate::check::Report;
use crate::collection::Collection;
use crate::files::{any_file, can_stand, file_of};
use crate::filesamples::{file_with, BAD_BLOCKS, BAD_FILES, GOOD_FILES, TWICE};
use crate::generator::{one_text, some_names, some_shapes};
use crate::nexus::plain_texts;
use crate::opening::{open, Numbers};
use crate::parts::Parts;
use crate::random::Random;
use crate::text::is_blank;
use crate::words::hex;
use std::collections::BTreeMap;

type Check = (String, bool);

pub fn file_checks() -> Vec<Check> {
    [good(), bad(), repeated_keys(), numbers_of_keys(), calls(), lent_bytes(), generated()].concat()
}

fn check(what: &str, right: bool) -> Check {
    (format!("file {}", what.escape_default()), right)
}

fn is_refused(file: &str, refusal: u32) -> bool {
    plain_texts(file.as_bytes()) == Err(refusal)
}

fn gives(file: &str, texts: &[&str]) -> bool {
    let texts: Vec<Vec<u8>> = texts.iter().map(|text| text.as_bytes().to_vec()).collect();
    plain_texts(file.as_bytes()) == Ok(texts)
}

fn good() -> Vec<Check> {
    GOOD_FILES.iter().map(|(file, texts)| check(file, gives(file, texts))).collect()
}

fn bad() -> Vec<Check> {
    let blocks = BAD_BLOCKS.map(file_with);
    let files = BAD_FILES.into_iter().chain(blocks.iter().map(String::as_str));
    files.map(|file| check(file, is_refused(file, 15))).collect()
}

fn repeated_keys() -> Vec<Check> {
    let file = |list: &str| file_with(&format!("TRANSLATE {list}; TREE t=(1,2);"));
    let refusal = |file: &str| plain_texts(file.as_bytes()).err().unwrap_or(0);
    TWICE.iter().map(|(list, expected)| check(&file(list), refusal(&file(list)) == *expected)).collect()
}

/// 64 keys, a 65th, and either with the last key listed before.
fn numbers_of_keys() -> Vec<Check> {
    let file = |keys: &[usize]| {
        let pairs: Vec<String> = keys.iter().map(|key| format!("{key} n{key}")).collect();
        file_with(&format!("TRANSLATE {}; TREE t=(1,64,65);", pairs.join(", ")))
    };
    let keys = |most: usize| (1..=most).collect::<Vec<usize>>();
    let last_again = |most: usize| [keys(most - 1), vec![1]].concat();
    vec![
        check("64 keys", gives(&file(&keys(64)), &["(n1,n64,65)"])),
        check("65 keys", is_refused(&file(&keys(65)), 15)),
        check("64 keys, one twice", is_refused(&file(&last_again(64)), 16)),
        check("65 keys, one twice", is_refused(&file(&last_again(65)), 15)),
        check("130 keys, all twice", is_refused(&file(&[keys(65), keys(65)].concat()), 15)),
    ]
}

// Calls

/// Calls and answers in order; what stands behind `nexus` is the inside of a TREES block.
const CALLS: [(&str, &str); 26] = [
    ("nexus x", "refused 1"),
    ("nexus", "bad line"),
    ("nexus TREE t=(A,B,C,D);", "refused 1"),
    ("lend 20000", "done"),
    ("open 4 2 2 1 2 41204220432044 0,0,0,0 0,0,0,0", "done"),
    ("feed 1 28412c", "more 3"),
    ("room 0", "done"),
    ("nexus x", "refused 15"),
    ("nexus TRANSLATE 1 A, 1 B; TREE t=(A,B,C,D);", "refused 16"),
    ("nexus TREE t=(A,B,C,D);", "refused 4"),
    ("nexus TRANSLATE 1 A;", "nexus"),
    ("room 1", "done"),
    ("nexus TREE t=(A,B,C,D); TREE t=;", "refused 4"),
    ("nexus TRANSLATE A B,B A; TREE t=((A,B),C,D);", "nexus 0"),
    ("room -", "done"),
    ("nexus TREE t=; TREE t=(A,X); TREE t=(A,A); TREE t=(A,B);", "nexus -7 -8 -9 -10"),
    ("nexus TRANSLATE C B,B C; TREE t=((A,C),B,D); TREE t=((A,B),C,D); TREE t=(A,B,C,D);", "nexus 1 -11 -11"),
    ("feed 1 422c432c44293b", "refused 7 11"),
    ("splits", "splits 12:2"),
    ("open 4 2 2 1 2 41204220432044 0,0,0,0 0,0,0,0", "done"),
    ("nexus TREE t=((A,B),C,D); TREE t=((A,C),B,D); TREE t=(A,B,C,D);", "nexus 0 -12 1"),
    ("open 4 2 4 1 2 2761206227204220635f642027273b2727273b27 0,0,0,0 0,0,0,0", "refused 3"),
    ("open 4 2 4 1 2 2761206227204220635f64202727273b27 0,0,0,0 0,0,0,0", "done"),
    (
        "nexus TRANSLATE 1 'a b',2 ''';',3 'a_b'; TREE t=((1,B),2,c_d); TREE u=(3,B,2,c_d); TREE v=('1',B,2,'c d');",
        "nexus 0 -8 -8",
    ),
    ("nexus TRANSLATE 1 ''; TREE t=(a_b,B,''';',c_d);", "refused 15"),
    ("write 0", "text (a_b,B,(c_d,''';'));"),
];

fn calls() -> Vec<Check> {
    let spelled = |call: &str| match call.strip_prefix("nexus ") {
        Some(inside) => format!("nexus {}\n", hex(file_with(inside).as_bytes())),
        None => format!("{call}\n"),
    };
    let input: String = CALLS.iter().map(|(call, _)| spelled(call)).collect();
    let answers = String::from_utf8(treecalls(input.as_bytes())).expect("answers are ASCII");
    let answers: Vec<&str> = answers.lines().collect();
    let right = |i: usize| answers.len() == CALLS.len() && answers[i] == CALLS[i].1;
    (0..CALLS.len()).map(|i| (format!("treecalls {}", CALLS[i].0), right(i))).collect()
}

// Lent bytes

/// Of two lanes the second holds `(A`.
fn begun() -> Collection {
    let numbers = Numbers { taxa: 4, lanes: 2, tree_room: 2, split_room: 1, places: 2, lengths: false };
    let Ok(opening) = open(numbers, b"A B C D", &[0; 4], &[0; 4], u64::MAX) else {
        panic!("the opening of the check is refused");
    };
    let mut collection = Collection::new(opening);
    collection.feed(1, b"(A");
    collection
}

fn store_of(collection: &Collection) -> Vec<u8> {
    let numbers = collection.opening().numbers;
    let parts = Parts::of(collection, collection.counts().keys().copied().collect());
    let mut bytes = vec![165; numbers.size().expect("numbers in range") as usize];
    parts.write(&mut bytes);
    bytes
}

/// The checker on a file that is refused and one whose tree is accepted, with a byte of a lane or another changed.
fn lent_bytes() -> Vec<Check> {
    let good = file_with("TREE t=((A,B),C,D);");
    let (before, mut held) = (store_of(&begun()), begun());
    let accepted = held.nexus(good.as_bytes(), 1) == Ok(vec![Ok(0)]);
    let after = store_of(&held);
    let long = before.len();
    let differences = |file: &str, answer: &str, bytes: &[u8]| {
        let script = format!("lend {long}\npoke 0 {}\nnexus {}\npeek 0 {long}\n", hex(&before), hex(file.as_bytes()));
        let answers = format!("done\ndone\n{answer}\nbytes {}\n", hex(bytes));
        Report::of(script.as_bytes(), answers.as_bytes()).differences
    };
    let with = |bytes: &[u8], at: usize| {
        let mut changed = bytes.to_vec();
        changed[at] ^= 1;
        changed
    };
    let lane = begun().opening().numbers.lane_bytes(1);
    let accepting = |bytes: &[u8]| differences(&good, "nexus 0", bytes);
    vec![
        ("checker, accepted from a file".to_string(), accepted && accepting(&after) == 0),
        ("checker, accepted and not recorded".to_string(), accepting(&before) > 0),
        ("checker, file empties a lane".to_string(), accepting(&with(&after, 4096 + 4616)) > 0),
        ("checker, file writes into a lane".to_string(), accepting(&with(&after, lane.start)) > 0),
        ("checker, file writes behind a lane's text".to_string(), accepting(&with(&after, lane.end - 1)) > 0),
        ("checker, file refused".to_string(), differences("", "refused 15", &before) == 0),
        ("checker, refused file records".to_string(), differences("", "refused 15", &after) > 0),
        ("checker, refused file writes".to_string(), differences("", "refused 15", &with(&before, 3000)) > 0),
    ]
}

// Generated files

/// A file made of texts comes to these texts; files by chance are good, malformed, or have a key twice.
fn generated() -> Vec<Check> {
    let (mut exact, mut with_keys) = (true, 0);
    let mut kinds: BTreeMap<u32, usize> = BTreeMap::new();
    for seed in 0..400 {
        let mut random = Random::new(seed);
        let names = some_names(&mut random);
        let pool = some_shapes(&mut random, &names);
        let mut texts: Vec<Vec<u8>> = (0..4).map(|_| one_text(&mut random, &names, &pool)).collect();
        texts.retain(|text| can_stand(text));
        let file = file_of(&mut random, &names, &texts);
        exact &= plain_texts(&file).is_ok_and(|plain| same_but_blanks(&plain, &texts));
        with_keys += usize::from(file.to_ascii_uppercase().windows(10).any(|word| word == b"TRANSLATE "));
        let refusal = plain_texts(&any_file(&mut random, &names, &pool)).err().unwrap_or(0);
        *kinds.entry(refusal).or_insert(0) += 1;
    }
    let met = |refusal: u32, least: usize| kinds.get(&refusal).is_some_and(|count| *count >= least);
    vec![
        ("generated files come to their texts".to_string(), exact && with_keys > 50),
        ("generated files are good and bad".to_string(), met(0, 200) && met(15, 40) && met(16, 4)),
    ]
}

/// Comments are blanks, though perhaps other ones.
fn same_but_blanks(a: &[Vec<u8>], b: &[Vec<u8>]) -> bool {
    let spaced = |texts: &[Vec<u8>]| -> Vec<Vec<u8>> {
        texts.iter().map(|text| text.iter().map(|b| if is_blank(*b) { b' ' } else { *b }).collect()).collect()
    };
    spaced(a) == spaced(b)
}
