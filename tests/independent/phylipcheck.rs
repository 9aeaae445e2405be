//! Checks of matrices in PHYLIP's layout: calls and their answers by hand, and the checker on a call that must leave the
//! store as it is.

use crate::calls::treecalls;
use crate::check::Report;
use crate::storecheck::{by_hand, with_byte};
use crate::words::hex;

type Check = (String, bool);

pub fn phylip_checks() -> Vec<Check> {
    [calls(), names_of_five_bytes(), checker_checks()].concat()
}

/// Calls and answers in order; NAMES stands for the list A to E in hex, the last word of a feeding is a text, and a file is
/// written in brackets: `/` for each line's end, `_` for a space, `~` for the ten bytes `t0` to `t2` by their row, `^` for CR,
/// `>` for a tab.
const CALLS: [(&str, &str); 101] = [
    // Reading needs no collection; writing does
    ("phylip", "refused 1"),
    ("read-phylip [0/]", "matrix 0:"),
    ("read-phylip -", "refused 24"),
    ("read-phylip [2/~_0_5/~_5_0/]", "matrix 2: 0 5 5 0"),
    ("read-phylip [2/~_0_5/~_6_0/]", "refused 25"),
    ("lend 20000", "done"),
    ("phylip", "refused 1"),
    ("read-phylip [1/~_0/]", "matrix 1: 0"),
    ("open 5 1 9 9 1 NAMES 0,0,0,0,0 0,0,0,0,0", "done"),
    ("phylip", "bytes 300a"),
    ("phylip", "bytes [0/]"),
    ("feed 0 (A,B,C,D,E);", "accepted 12 0"),
    ("phylip", "bytes 310a74302020202020202020 20300a"),
    ("phylip", "bytes [1/~_0/]"),
    ("withdraw 0", "done"),
    // The sample of document 01
    ("feed 0 ((A,B),C,(D,E));", "accepted 16 0"),
    ("feed 0 ((A,B),D,(C,E));", "accepted 16 1"),
    ("feed 0 ((D,E),(C,(A,B)));", "accepted 18 2"),
    ("matrix", "matrix 3: 0 2 0 2 0 2 0 2 0"),
    ("phylip", "bytes [3/~_0_2_0/~_2_0_2/~_0_2_0/]"),
    (
        "phylip",
        "bytes 330a74302020202020202020203020322030 0a743120202020202020202032203020320a\
         74322020202020202020203020322030 0a",
    ),
    ("read-phylip [3/~_0_2_0/~_2_0_2/~_0_2_0/]", "matrix 3: 0 2 0 2 0 2 0 2 0"),
    // Lines that are no calls
    ("phylip -", "bad line"),
    ("read-phylip", "bad line"),
    ("read-phylip 0", "bad line"),
    ("read-phylip - -", "bad line"),
    ("Phylip", "bad line"),
    // The first line
    ("read-phylip [/]", "refused 24"),
    ("read-phylip [0]", "refused 24"),
    ("read-phylip [_0/]", "refused 24"),
    ("read-phylip [0_/]", "refused 24"),
    ("read-phylip [0^/]", "refused 24"),
    ("read-phylip [-0/]", "refused 24"),
    ("read-phylip [0x0/]", "refused 24"),
    ("read-phylip [000000000000000000000000000000/]", "matrix 0:"),
    ("read-phylip [01/~_0/]", "matrix 1: 0"),
    ("read-phylip [1025/]", "refused 24"),
    ("read-phylip [1024/]", "refused 24"),
    ("read-phylip [18446744073709551616/]", "refused 24"),
    ("read-phylip [18446744073709551617/~_0/]", "refused 24"),
    // As many rows as trees, and nothing behind
    ("read-phylip [0//]", "refused 24"),
    ("read-phylip [0/0]", "refused 24"),
    ("read-phylip [0/~/]", "refused 24"),
    ("read-phylip [1/]", "refused 24"),
    ("read-phylip [1//]", "refused 24"),
    ("read-phylip [1/~/]", "refused 24"),
    ("read-phylip [1/~_0]", "refused 24"),
    ("read-phylip [1/~_0//]", "refused 24"),
    ("read-phylip [1/~_0/_]", "refused 24"),
    ("read-phylip [1/~_0/~_0/]", "refused 24"),
    ("read-phylip [2/~_0_5/]", "refused 24"),
    ("read-phylip [2/~_0_5/~_5_0]", "refused 24"),
    ("read-phylip [2/~_0_5/~_5_0/~_0_0/]", "refused 24"),
    ("read-phylip [2/~_0_5~_5_0/]", "refused 24"),
    ("read-phylip [2/~_0/_5/~_5_0/]", "refused 24"),
    // Names: the first ten bytes of a row
    ("read-phylip [1/__________0/]", "refused 24"),
    ("read-phylip [1/___________0/]", "matrix 1: 0"),
    ("read-phylip [1/1234567890_0/]", "matrix 1: 0"),
    ("read-phylip [1/12345678900/]", "refused 24"),
    ("read-phylip [1/_1_2_3_4_5_0/]", "matrix 1: 0"),
    ("read-phylip [1/!!!!!!!!!!_0/]", "matrix 1: 0"),
    ("read-phylip [1/abcdefghi>_0/]", "refused 24"),
    ("read-phylip [1/t0_0/]", "refused 24"),
    ("read-phylip 310a7e7e7e7e7e7e7e7e7e7e20300a", "matrix 1: 0"),
    ("read-phylip 310a7e7e7e7e7e7e7e7e7e7f20300a", "refused 24"),
    ("read-phylip 310a1f7e7e7e7e7e7e7e7e7e20300a", "refused 24"),
    ("read-phylip 310a7e7e7e7ec37e7e7e7e7e20300a", "refused 24"),
    ("read-phylip [2/same_name!_0_1/same_name!_1_0/]", "matrix 2: 0 1 1 0"),
    // Values
    ("read-phylip [2/~_0_65535/~_65535_0/]", "matrix 2: 0 65535 65535 0"),
    ("read-phylip [2/~_0_65536/~_65536_0/]", "refused 24"),
    ("read-phylip [2/~_0_0065535/~_65535_00/]", "matrix 2: 0 65535 65535 0"),
    ("read-phylip [2/~_0_18446744073709551616/~_0_0/]", "refused 24"),
    ("read-phylip [2/~___0_____5/~_5__0/]", "matrix 2: 0 5 5 0"),
    ("read-phylip [2/~_0_5_/~_5_0/]", "refused 24"),
    ("read-phylip [2/~_0_5/~_5_0_/]", "refused 24"),
    ("read-phylip [2/~_0_5^/~_5_0^/]", "refused 24"),
    ("read-phylip [2/~_0>5/~_5_0/]", "refused 24"),
    ("read-phylip [2/~>0_5/~_5_0/]", "refused 24"),
    ("read-phylip [2/~_0_/~_5_0/]", "refused 24"),
    ("read-phylip [2/~_0/~_5_0/]", "refused 24"),
    ("read-phylip [2/~_0_5_6/~_5_0/]", "refused 24"),
    ("read-phylip [2/~_0_-5/~_-5_0/]", "refused 24"),
    ("read-phylip [2/~_0_5.0/~_5.0_0/]", "refused 24"),
    ("read-phylip [2/~0_5/~_5_0/]", "refused 24"),
    // 25, behind every 24
    ("read-phylip [1/~_1/]", "refused 25"),
    ("read-phylip [2/~_0_5/~_5_1/]", "refused 25"),
    ("read-phylip [2/~_1_5/~_5_0/]", "refused 25"),
    ("read-phylip [2/~_1_5/~_6_7/]", "refused 25"),
    ("read-phylip [2/~_1_5/~_6_7]", "refused 24"),
    ("read-phylip [2/~_1_5/~_6_65536/]", "refused 24"),
    ("read-phylip [3/~_0_1_2/~_1_0_3/~_2_4_0/]", "refused 25"),
    ("read-phylip [3/~_0_1_2/~_1_0_3/~_2_3_0/]", "matrix 3: 0 1 2 1 0 3 2 3 0"),
    // Buffers, of entries for reading and of bytes for writing
    ("room 3", "done"),
    ("read-phylip [2/~_0_5/~_5_0/]", "refused 4"),
    ("read-phylip [2/~_0_5/~_6_0/]", "refused 25"),
    ("room 4", "done"),
    ("read-phylip [2/~_0_5/~_5_0/]", "matrix 2: 0 5 5 0"),
    ("room 51", "done"),
    ("phylip", "refused 4"),
    ("room 53", "done"),
    ("phylip", "bytes [3/~_0_2_0/~_2_0_2/~_0_2_0/]"),
];

/// With every file in brackets in hex; spaces inside hex are there to be read.
fn spelled(line: &str) -> String {
    let words: Vec<String> = line.split(' ').map(|word| in_hex(word).unwrap_or(word.to_string())).collect();
    match (&words[0][..], words.split_last()) {
        ("feed", Some((text, front))) => format!("{} {}", front.join(" "), hex(text.as_bytes())),
        ("bytes", _) => format!("bytes {}", words[1..].concat()),
        _ => words.join(" ").replace("NAMES", &hex(b"A B C D E")),
    }
}

fn in_hex(word: &str) -> Option<String> {
    let mut file = word.strip_prefix('[')?.strip_suffix(']')?.to_string();
    for name in ["t0________", "t1________", "t2________"] {
        file = file.replacen('~', name, 1);
    }
    Some(hex(file.replace('/', "\n").replace('_', " ").replace('^', "\r").replace('>', "\t").as_bytes()))
}

fn calls() -> Vec<Check> {
    let input: String = CALLS.iter().map(|(call, _)| format!("{}\n", spelled(call))).collect();
    let answers = String::from_utf8(treecalls(input.as_bytes())).expect("answers are ASCII");
    let answers: Vec<&str> = answers.lines().collect();
    let right = |i: usize| answers.len() == CALLS.len() && answers[i] == spelled(CALLS[i].1);
    (0..CALLS.len()).map(|i| (format!("treecalls {}", CALLS[i].0), right(i))).collect()
}

/// 1,001 trees without splits: the last rows, and how many bytes there are.
fn names_of_five_bytes() -> Vec<Check> {
    let names = hex(b"A B C D");
    let star = hex(b"(A,B,C,D);".repeat(1001).as_slice());
    let input = format!("lend 1000000\nopen 4 1 1024 1 1 {names} 0,0,0,0 0,0,0,0\nbatch 0 {star}\nphylip\n");
    let answers = String::from_utf8(treecalls(input.as_bytes())).expect("answers are ASCII");
    let file = answers.lines().nth(3).unwrap_or_default();
    let row = |name: &str| hex(format!("\n{name}{}\n", " 0".repeat(1001)).as_bytes());
    vec![
        ("phylip of 1,001 trees, its bytes".to_string(), file.len() == 6 + 2 * (5 + 1001 * (10 + 2002 + 1))),
        ("phylip of 1,001 trees, the last row".to_string(), file.ends_with(&row("t1000     "))),
        ("phylip of 1,001 trees, the one before".to_string(), file.contains(&row("t999      "))),
        ("phylip of 1,001 trees, the first line".to_string(), file.starts_with("bytes 313030310a743020")),
    ]
}

/// The checker on the store by hand before and after each call: no byte may change, and the answer must be right.
fn checker_checks() -> Vec<Check> {
    let before = [by_hand(), vec![7; 3]].concat();
    let differences = |call: &str, answer: &str, after: &[u8]| {
        let script = format!("lend 9047\npoke 0 {}\n{}\npeek 0 9047\n", hex(&before), spelled(call));
        let answers = format!("done\ndone\n{}\nbytes {}\n", spelled(answer), hex(after));
        Report::of(script.as_bytes(), answers.as_bytes()).differences
    };
    let pairs = [
        ("phylip", "bytes [2/~_0_2/~_2_0/]"),
        ("read-phylip [2/~_0_2/~_2_0/]", "matrix 2: 0 2 2 0"),
        ("read-phylip [2/~_0_2/~_3_0/]", "refused 25"),
        ("read-phylip [2/~_0_2/~_2_0]", "refused 24"),
    ];
    let mut checks = Vec::new();
    for (call, answer) in pairs {
        let changed = |at: usize| differences(call, answer, &with_byte(&before, at, before[at] ^ 1));
        let right = differences(call, answer, &before) == 0;
        let touched = [0, 2768, 4200, 9032, 9044].iter().all(|at| changed(*at) == 1);
        let wrong = differences(call, "refused 4", &before) == 1;
        checks.push((format!("checker, {call}"), right && touched && wrong));
    }
    checks
}
