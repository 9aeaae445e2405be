//! Checks of split files: calls and their answers by hand, and the checker on a call that must leave the store as it is.

use crate::calls::treecalls;
use crate::check::Report;
use crate::storecheck::{by_hand, with_byte};
use crate::words::hex;

type Check = (String, bool);

pub fn split_file_checks() -> Vec<Check> {
    [calls(), checker_checks()].concat()
}

/// Calls and answers in order; NAMES stands for the list A to E in hex, and the last word of a feeding is a text. A file is
/// written as its records, `mask:count:trees` with commas between, mask and numbers in decimal, in brackets.
const CALLS: [(&str, &str); 78] = [
    ("file", "refused 1"),
    ("records -", "refused 1"),
    ("merge 00 00", "refused 1"),
    ("file-strict -", "refused 1"),
    ("file-majority 00", "refused 1"),
    ("lend 20000", "done"),
    ("open 5 1 9 9 1 NAMES 0,0,0,0,0 0,0,0,0,0", "done"),
    ("file", "bytes -"),
    ("feed 0 (A,B,C,D,E);", "accepted 12 0"),
    ("file", "bytes -"),
    ("withdraw 0", "done"),
    // The sample of document 01
    ("feed 0 ((A,B),C,(D,E));", "accepted 16 0"),
    ("feed 0 ((A,B),D,(C,E));", "accepted 16 1"),
    ("feed 0 ((D,E),(C,(A,B)));", "accepted 18 2"),
    (
        "file",
        "bytes 140000000000000001000000030000001800000000000000020000000300000\
         01c000000000000000300000003000000",
    ),
    ("file", "bytes [20:1:3,24:2:3,28:3:3]"),
    ("records [20:1:3,24:2:3,28:3:3]", "records 3 20:1 24:2 28:3"),
    ("file-strict [20:1:3,24:2:3,28:3:3]", "text (A,B,(C,D,E));"),
    ("file-majority [20:1:3,24:2:3,28:3:3]", "text (A,B,(C,(D,E)));"),
    // Lines that are no calls
    ("file -", "bad line"),
    ("records", "bad line"),
    ("records 0", "bad line"),
    ("merge -", "bad line"),
    ("merge - - -", "bad line"),
    ("merge - 0", "bad line"),
    ("file-strict", "bad line"),
    // An empty file
    ("records -", "records -"),
    ("merge - -", "refused 21"),
    ("merge - [24:1:1]", "refused 21"),
    ("merge [24:1:1] -", "refused 21"),
    ("file-strict -", "refused 14"),
    ("file-majority -", "refused 14"),
    // 19 and 20, of the first file and then of the second, before 21
    ("records 0c", "refused 19"),
    ("records 0c000000000000000100000001000000ff", "refused 19"),
    ("records [0:1:1]", "refused 20"),
    ("records [8:1:1]", "refused 20"),
    ("records [13:1:1]", "refused 20"),
    ("records [30:1:1]", "refused 20"),
    ("records [36:1:1]", "refused 20"),
    ("records [28:1:1]", "records 1 28:1"),
    ("records [12:0:1]", "refused 20"),
    ("records [12:2:1]", "refused 20"),
    ("records [12:0:0]", "refused 20"),
    ("records [12:1:1,20:1:2]", "refused 20"),
    ("records [12:1:1,12:1:1]", "refused 20"),
    ("records [20:1:1,12:1:1]", "refused 20"),
    ("merge 00 [0:1:1]", "refused 19"),
    ("merge [0:1:1] 00", "refused 20"),
    ("merge - 00", "refused 19"),
    ("merge [12:1:1] [12:0:1]", "refused 20"),
    ("merge 00 -", "refused 19"),
    ("file-strict 00", "refused 19"),
    ("file-majority [12:0:1]", "refused 20"),
    // Merges
    ("merge [12:1:2,24:2:2] [20:3:3,24:1:3]", "bytes [12:1:5,20:3:5,24:3:5]"),
    ("merge [20:3:3,24:1:3] [12:1:2,24:2:2]", "bytes [12:1:5,20:3:5,24:3:5]"),
    ("merge [12:4294967294:4294967294] [12:1:1]", "bytes [12:4294967295:4294967295]"),
    ("merge [12:4294967295:4294967295] [12:1:1]", "refused 22"),
    ("merge [12:1:4294967295] [20:1:1]", "refused 22"),
    ("merge [12:1:2147483648] [20:1:2147483648]", "refused 22"),
    // Chosen splits; 12 and 20 disagree, 12 and 28 agree
    ("file-strict [12:2:2,20:2:2]", "refused 23"),
    ("file-majority [12:2:3,20:2:3]", "refused 23"),
    ("file-strict [12:2:3,20:2:3]", "text (A,B,C,D,E);"),
    ("file-majority [12:1:2,20:1:2]", "text (A,B,C,D,E);"),
    ("file-majority [12:2:3,20:1:3,28:3:3]", "text (A,B,((C,D),E));"),
    ("file-majority [12:2147483648:4294967295]", "text (A,B,(C,D),E);"),
    ("file-majority [12:2147483647:4294967295]", "text (A,B,C,D,E);"),
    ("file-strict [12:4294967294:4294967295,28:4294967295:4294967295]", "text (A,B,(C,D,E));"),
    // Buffers
    ("room 47", "done"),
    ("file", "refused 4"),
    ("merge [12:1:1,20:1:1] [12:1:1,24:1:1]", "refused 4"),
    ("merge [12:1:1,20:1:1] [20:1:1]", "bytes [12:1:2,20:2:2]"),
    ("room 1", "done"),
    ("records [12:1:1]", "records 1 12:1"),
    ("records [12:1:1,20:1:1]", "refused 4"),
    ("file-majority [12:2:2,20:2:2]", "refused 23"),
    ("file-majority [12:2:2]", "refused 4"),
    ("merge [12:1:4294967295] [20:1:1]", "refused 22"),
    ("trees", "number 3"),
];

/// With every file in brackets in hex.
fn spelled(line: &str) -> String {
    let words: Vec<String> = line.split(' ').map(|word| in_hex(word).unwrap_or(word.to_string())).collect();
    match (line.starts_with("feed"), words.split_last()) {
        (true, Some((text, front))) => format!("{} {}", front.join(" "), hex(text.as_bytes())),
        _ => words.join(" ").replace("NAMES", &hex(b"A B C D E")),
    }
}

fn in_hex(word: &str) -> Option<String> {
    let records = word.strip_prefix('[')?.strip_suffix(']')?;
    let record = |record: &str| -> Option<String> {
        let numbers: Vec<u64> = record.split(':').filter_map(|number| number.parse().ok()).collect();
        let [mask, count, trees] = numbers[..] else {
            return None;
        };
        let bytes = [&mask.to_le_bytes()[..], &count.to_le_bytes()[..4], &trees.to_le_bytes()[..4]].concat();
        Some(hex(&bytes))
    };
    records.split(',').map(record).collect()
}

fn calls() -> Vec<Check> {
    let input: String = CALLS.iter().map(|(call, _)| format!("{}\n", spelled(call))).collect();
    let answers = String::from_utf8(treecalls(input.as_bytes())).expect("answers are ASCII");
    let answers: Vec<&str> = answers.lines().collect();
    let right = |i: usize| answers.len() == CALLS.len() && answers[i] == spelled(CALLS[i].1);
    (0..CALLS.len()).map(|i| (format!("treecalls {}", CALLS[i].0), right(i))).collect()
}

/// The checker on the store by hand before and after each call: no byte may change, and the answer must be right.
fn checker_checks() -> Vec<Check> {
    let before = [by_hand(), vec![7; 3]].concat();
    let differences = |call: &str, answer: &str, after: &[u8]| {
        let script = format!("lend 9047\npoke 0 {}\n{}\npeek 0 9047\n", hex(&before), spelled(call));
        let answers = format!("done\ndone\n{}\nbytes {}\n", spelled(answer), hex(after));
        Report::of(script.as_bytes(), answers.as_bytes()).differences
    };
    let pairs = [
        ("file", "bytes [20:1:2,24:1:2,28:2:2]"),
        ("records [12:1:1]", "records 1 12:1"),
        ("merge [12:1:1] [12:1:1]", "bytes [12:2:2]"),
        ("file-strict [12:1:1]", "text (A,B,(C,D),E);"),
        ("file-majority [12:1:2]", "text (A,B,C,D,E);"),
        ("merge [12:1:1] 00", "refused 19"),
    ];
    let mut checks = Vec::new();
    for (call, answer) in pairs {
        let changed = |at: usize| differences(call, answer, &with_byte(&before, at, before[at] ^ 1));
        let right = differences(call, answer, &before) == 0;
        let touched = [0, 2768, 4200, 9032, 9044].iter().all(|at| changed(*at) == 1);
        let wrong = differences(call, "refused 4", &before) == 1;
        checks.push((format!("checker, {call}"), right && touched && wrong));
    }
    checks
}
