//! Checks of withdrawals: calls and their answers by hand, and the checker on a store by hand before and after one.

use crate::calls::treecalls;
use crate::check::Report;
use crate::storecheck::{by_hand, put_fields, with_byte};
use crate::words::hex;

type Check = (String, bool);

pub fn withdrawal_checks() -> Vec<Check> {
    [calls(), checker_checks()].concat()
}

/// Calls and answers in order; NAMES stands for the list A to E in hex, and the last word of a feeding is a text.
const CALLS: [(&str, &str); 83] = [
    ("withdraw 0", "refused 1"),
    ("size 5 2 3 3 1", "bytes 13786"),
    ("lend 13789", "done"),
    ("withdraw 0", "refused 1"),
    ("open 5 2 3 3 1 NAMES 0,0,0,0,0 0,0,0,0,0", "done"),
    ("withdraw 0", "refused 13"),
    ("feed 0 ((A,B),C,(D,E));", "accepted 16 0"),
    ("feed 0 ((A,B),D,(C,E));", "accepted 16 1"),
    ("feed 0 ((D,E),(C,(A,B)));", "accepted 18 2"),
    ("feed 1 ((A,C),B", "more 8"),
    ("splits", "splits 20:1 24:2 28:3"),
    ("feed 0 (A,B,C,D,E);", "refused 12 11"),
    ("withdraw 3", "refused 13"),
    ("withdraw 18446744073709551615", "refused 13"),
    ("withdraw 18446744073709551616", "bad line"),
    ("withdraw", "bad line"),
    ("withdraw 0 0", "bad line"),
    ("withdraw x", "bad line"),
    ("trees", "number 3"),
    // A middle one: the tree after it moves down, and 20 leaves
    ("room 0", "done"),
    ("withdraw 1", "done"),
    ("room -", "done"),
    ("trees", "number 2"),
    ("count", "number 2"),
    ("splits", "splits 24:2 28:2"),
    ("split 0", "split 24 2"),
    ("split 2", "refused 13"),
    ("tree 1", "tree 24 28"),
    ("tree 2", "refused 13"),
    ("withdraw 2", "refused 13"),
    ("matrix", "matrix 2: 0 0 0 0"),
    ("strict", "text (A,B,(C,(D,E)));"),
    ("majority", "text (A,B,(C,(D,E)));"),
    ("collisions", "number 1"),
    ("peek 13786 3", "bytes a5a5a5"),
    ("peek 10 1", "unmodelled"),
    // The text that was begun before it
    ("feed 1 ,(D,E));", "accepted 8 2"),
    ("splits", "splits 24:3 26:1 28:2"),
    ("matrix", "matrix 3: 0 0 2 0 0 2 2 2 0"),
    ("feed 0 ((A,B),D,(C,E));", "refused 16 11"),
    // The last one
    ("withdraw 2", "done"),
    ("splits", "splits 24:2 28:2"),
    ("feed 0 ((A,D),B,(C,E));", "refused 16 12"),
    // The first one: its splits are those of another
    ("withdraw 0", "done"),
    ("splits", "splits 24:1 28:1"),
    ("feed 0 ((A,D),B,(C,E));", "refused 16 12"),
    // The only one
    ("withdraw 0", "done"),
    ("withdraw 0", "refused 13"),
    ("splits", "splits"),
    ("count", "number 0"),
    ("matrix", "matrix 0:"),
    ("strict", "refused 14"),
    ("collisions", "number 0"),
    ("feed 0 ((A,D),B,(C,E));", "accepted 16 0"),
    ("splits", "splits 20:1 22:1"),
    // With lengths: 2^53, 1 and 1, of which a sum shows the ones only if they come first
    ("open 5 1 4 3 1 NAMES 0,0,0,0,0 0,0,0,0,0 lengths", "done"),
    ("feed 0 ((A,B):9007199254740992,C,D,E);", "accepted 31 0"),
    ("feed 0 ((A,B):1,C,D,E);", "accepted 16 1"),
    ("feed 0 ((A,B):1,C,D,E);", "accepted 16 2"),
    ("lengths 0", "lengths 3ff0000000000000 4340000000000000 4340000000000000"),
    ("withdraw 0", "done"),
    ("lengths 0", "lengths 3ff0000000000000 3ff0000000000000 4000000000000000"),
    ("weighted 0 1", "double 0000000000000000"),
    ("feed 0 ((A,B):9007199254740992,C,D,E);", "accepted 31 2"),
    ("lengths 0", "lengths 3ff0000000000000 4340000000000000 4340000000000001"),
    ("withdraw 1", "done"),
    ("lengths 0", "lengths 3ff0000000000000 4340000000000000 4340000000000000"),
    ("weighted 0 1", "double 433fffffffffffff"),
    // A tree whose split has no length
    ("feed 0 ((A,B),C,D,E);", "accepted 14 2"),
    ("lengths 0", "refused 18"),
    ("withdraw 2", "done"),
    ("lengths 0", "lengths 3ff0000000000000 4340000000000000 4340000000000000"),
    // A length of the split that leaves is that of the tree which takes its number
    ("feed 0 ((A,C):5,B,D,E);", "accepted 16 2"),
    ("lengths 0", "lengths 4014000000000000 4014000000000000 4014000000000000"),
    ("withdraw 0", "done"),
    ("weighted 0 1", "double 4340000000000002"),
    ("withdraw 1", "done"),
    ("lengths 0", "lengths 4340000000000000 4340000000000000 4340000000000000"),
    ("lengths 1", "refused 13"),
    ("withdraw 0", "done"),
    ("lengths 0", "refused 13"),
    ("weighted 0 0", "refused 13"),
    ("trees", "number 0"),
];

fn spelled(call: &str) -> String {
    match call.rsplit_once(' ') {
        Some((front, text)) if call.starts_with("feed") => format!("{front} {}", hex(text.as_bytes())),
        _ => call.replace("NAMES", &hex(b"A B C D E")),
    }
}

fn calls() -> Vec<Check> {
    let input: String = CALLS.iter().map(|(call, _)| format!("{}\n", spelled(call))).collect();
    let answers = String::from_utf8(treecalls(input.as_bytes())).expect("answers are ASCII");
    let answers: Vec<&str> = answers.lines().collect();
    let right = |i: usize| answers.len() == CALLS.len() && answers[i] == CALLS[i].1;
    (0..CALLS.len()).map(|i| (format!("treecalls {}", CALLS[i].0), right(i))).collect()
}

/// What the store by hand is without S2's tree: the split 20, of row 2 and place 0, is gone.
fn without_the_last() -> Vec<u8> {
    let mut store = by_hand();
    put_fields(&mut store, &[(10, 2, &[1, 2]), (9016, 4, &[1, 1]), (9034, 2, &[0, 1]), (9040, 2, &[0, 2])]);
    store
}

/// The same without S1's tree: 24 is gone, and the rows of the others may be any; here 28 has row 1 and 20 row 0.
fn without_the_first() -> Vec<u8> {
    let mut store = by_hand();
    put_fields(
        &mut store,
        &[
            (10, 2, &[1, 2]),
            (8712, 2, &[2, 0, 1]),
            (8968, 8, &[20, 28]),
            (8992, 8, &[80, 120]),
            (9016, 4, &[1, 1]),
            (9028, 2, &[0, 0]),
            (9034, 2, &[0, 1]),
            (9040, 2, &[1, 2]),
        ],
    );
    store
}

/// The checker on a withdrawal that is done, one that is refused, and such as touch other bytes.
fn checker_checks() -> Vec<Check> {
    let before = [by_hand(), vec![7; 3]].concat();
    let differences = |tree: u64, answer: &str, store: Vec<u8>, spare: u8| {
        let after = [store, vec![spare; 3]].concat();
        let script = format!("lend 9047\npoke 0 {}\nwithdraw {tree}\npeek 0 9047\ntrees\n", hex(&before));
        let trees = if answer == "done" { 1 } else { 2 };
        let answers = format!("done\ndone\n{answer}\nbytes {}\nnumber {trees}\n", hex(&after));
        Report::of(script.as_bytes(), answers.as_bytes()).differences
    };
    let done = |tree: u64, store: Vec<u8>| differences(tree, "done", store, 7);
    let changed = |at: usize, byte: u8| done(1, with_byte(&without_the_last(), at, byte));
    let name = |what: &str, right: bool| (format!("checker, withdrawal {what}"), right);
    vec![
        name("of the last", done(1, without_the_last()) == 0),
        name("of the first", done(0, without_the_first()) == 0),
        name("of the other tree", done(0, without_the_last()) == 1 && done(1, without_the_first()) == 1),
        name("that leaves all", done(1, by_hand()) == 1),
        name("that is refused", differences(2, "refused 13", by_hand(), 7) == 0),
        name("that is refused and done", differences(2, "refused 13", without_the_last(), 7) > 0),
        name("with another answer", differences(2, "done", by_hand(), 7) > 0),
        name("with bytes not used", changed(9032, 9) == 0 && changed(9043, 9) == 1 && changed(8840, 9) == 0),
        name("that writes past the store", differences(1, "done", without_the_last(), 8) == 1),
        name("that writes into a lane", changed(4098, 0) == 1 && changed(4200, 0) == 1 && changed(4096, 0) > 0),
        name("that writes into the head", changed(2768, 0) == 1 && changed(2127, 0) == 1 && changed(18, 0) == 1),
    ]
}
