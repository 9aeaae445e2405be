//! Lines that are no calls, and calls at the edges of numbers, lists and lent memory.

use crate::maker::joined;
use crate::random::Random;
use crate::words::hex;

/// A line of every call that is one once something is opened.
const GOOD: [&str; 43] = [
    "size 4 1 1 1 1",
    "size 4 1 1 1 1 lengths",
    "open 4 1 1 1 1 41204220432044 0,0,0,0 0,0,0,0 lengths",
    "open 4 1 1 1 1 41204220432044 0,0,0,0 0,0,0,0",
    "feed 0 28",
    "feed 0 -",
    "close 0",
    "withdraw 0",
    "batch 0 3b",
    "nexus -",
    "nexus 234e4558555320424547494e2054524545533b205452454520743d28412c422c432c44293b20454e443b",
    "trees",
    "count",
    "splits",
    "split 0",
    "tree 0",
    "one 0 0",
    "two 0 0",
    "weighted 0 0",
    "lengths 0",
    "matrix",
    "strict",
    "majority",
    "both",
    "write 0",
    "collisions",
    "file",
    "records -",
    "records 06000000000000000100000002000000",
    "merge 06000000000000000100000002000000 0a000000000000000300000003000000",
    "merge - -",
    "file-strict 06000000000000000200000002000000",
    "file-majority 06000000000000000100000002000000",
    "phylip",
    "read-phylip 300a",
    "read-phylip 320a74302020202020202020203020370a74312020202020202020203720300a",
    "claim -",
    "claim 3b",
    "claim 28412c422c432c44293b",
    "agree 6 12",
    "room 7",
    "peek 0 1",
    "poke 8866 00",
];

const OTHERS: [&str; 94] = [
    "",
    " ",
    "  ",
    "-",
    "0",
    "xyzzy",
    "lend",
    "lend -",
    "lend 8388609",
    "lend 18446744073709551615",
    "lend 18446744073709551616",
    "peek 0 18446744073709551615",
    "peek 18446744073709551615 1",
    "peek 18446744073709551615 18446744073709551615",
    "peek 18446744073709551615 0",
    "poke 18446744073709551615 00",
    "poke 18446744073709551615 -",
    "poke 0 0",
    "poke 0 000",
    "poke 0 0x",
    "poke 0 AA",
    "room -1",
    "room --",
    "room 18446744073709551615",
    "room 18446744073709551616",
    "agree 18446744073709551615 18446744073709551615",
    "agree 18446744073709551616 0",
    "agree 007 1",
    "agree 0000000000000000000000000000000000000001 2",
    "agree 9223372036854775808 9223372036854775809",
    "size 4 1 1 1 18446744073709551615",
    "size 18446744073709551616 1 1 1 1",
    "open 4 1 1 1 1 - - -",
    "open 4 1 1 1 1 - 0,,0,0 0,0,0,0",
    "open 4 1 1 1 1 - ,0,0,0 0,0,0,0",
    "open 4 1 1 1 1 - 0,0,0,0, 0,0,0,0",
    "open 4 1 1 1 1 - 0,0,0,-1 0,0,0,0",
    "open 4 1 1 1 1 - 0,0,0,0 0,0,0,18446744073709551616",
    "open 4 1 1 1 1 - 0,0,0,0 0,0,0,18446744073709551615",
    "open 4 1 1 1 1 4120422043204 0,0,0,0 0,0,0,0",
    "open 4 1 1 1 1 41204220432044 0,0,0,0 0,0,0,0",
    "size lengths",
    "size 4 1 1 1 lengths",
    "size 4 1 1 1 lengths 1",
    "size 4 1 1 1 1 lengths lengths",
    "open lengths",
    "open 4 1 1 1 1 41204220432044 0,0,0,0 lengths",
    "open 4 1 1 1 1 lengths 41204220432044 0,0,0,0 0,0,0,0",
    "weighted 18446744073709551615 18446744073709551616",
    "lengths 18446744073709551615",
    "lengths 18446744073709551616",
    "withdraw 007",
    "withdraw 18446744073709551615",
    "withdraw 18446744073709551616",
    "withdraw 0 lengths",
    "feed 0 --",
    "nexus",
    "nexus - -",
    "nexus 0",
    "nexus 0 234e45585553",
    "records 0",
    "records 00",
    "records 0g",
    "records --",
    "merge",
    "merge -",
    "merge - 0",
    "merge 0 -",
    "merge - 06",
    "merge 06 -",
    "merge 0x -",
    "merge - AA",
    "merge  - -",
    "merge - - -",
    "merge 2020 2020",
    "file strict",
    "read-phylip",
    "read-phylip 0",
    "read-phylip 30",
    "read-phylip 30 0a",
    "read-phylip 300A",
    "read-phylip --",
    "read phylip 300a",
    "phylip 300a",
    "claim",
    "claim 0",
    "claim 3",
    "claim 3B",
    "claim --",
    "claim - -",
    "claim 28412c422c432c44 293b",
    "claim 1 28412c422c432c44293b",
    "claim 0 3b",
    "Claim 3b",
];

/// A script of so many rounds; its last line has no end.
pub fn oddities(seed: u64, count: usize) -> Vec<u8> {
    let mut random = Random::new(seed);
    let mut lines = before_lending();
    for _ in 0..count {
        lines.extend(opened());
        for line in GOOD {
            lines.extend(changed_lines(&mut random, line));
        }
        lines.extend(OTHERS.map(str::to_string));
        lines.extend(edges_of_memory());
    }
    lines.extend(longest_lines());
    let mut script = joined(&lines);
    script.extend(any_bytes(&mut random));
    script.extend(b"trees");
    script
}

/// No byte is lent before the first `lend`.
fn before_lending() -> Vec<String> {
    let lines = ["peek 0 0", "peek 0 1", "peek 1 0", "poke 0 -", "poke 1 -", "poke 0 00", "trees", "feed 0 3b"];
    lines.map(str::to_string).to_vec()
}

fn opened() -> Vec<String> {
    let open = "open 4 1 1 1 1 41204220432044 0,0,0,0 0,0,0,0";
    ["lend 9379", "room -", open, "trees"].map(str::to_string).to_vec()
}

/// The line as it is, and changed in each way that makes it no call, or nearly.
fn changed_lines(random: &mut Random, line: &str) -> Vec<String> {
    let words: Vec<&str> = line.split(' ').collect();
    let last = words.len() - 1;
    let with_last = |word: &str| [&words[..last], &[word]].concat().join(" ");
    let mut out = vec![line.to_string(), words[..last].join(" ")];
    for change in ["L ", " L", "L 0", "L\t", "L\r", "L -", "\0L", "L\0", "xL"] {
        out.push(change.replace('L', line));
    }
    out.push(line.to_uppercase());
    out.push(line.replacen(' ', "  ", 1));
    out.push(line.replacen(' ', "\t", 1));
    for word in ["", "-", "--", "x", "0x0", "-0", "+0", "0,", ",", "0,0", "1e0", "0.0", "18446744073709551616", "3B"] {
        out.push(with_last(word));
    }
    out.push(cut_anywhere(random, line));
    out
}

fn cut_anywhere(random: &mut Random, line: &str) -> String {
    line[..random.between(0, line.len())].to_string()
}

fn edges_of_memory() -> Vec<String> {
    let lines = [
        "lend 8388608",
        "peek 8388608 0",
        "peek 8388607 1",
        "peek 8388607 2",
        "peek 8388608 1",
        "poke 8388608 -",
        "poke 8388607 07",
        "peek 8388606 2",
        "poke 8388607 0708",
        "poke 8388608 07",
        "peek 8388607 1",
        "trees",
        "lend 2",
        "peek 0 2",
        "peek 0 3",
        "peek 2 0",
        "peek 3 0",
        "poke 0 0102",
        "peek 0 2",
        "poke 1 0304",
        "peek 0 2",
        "poke 1 03",
        "peek 0 2",
        "lend 2",
        "peek 0 2",
        "lend 0",
        "peek 0 0",
        "peek 0 1",
        "trees",
        "room 0",
        "room -",
    ];
    lines.map(str::to_string).to_vec()
}

/// The longest NEXUS file; the longest text and claim; the longest line, with room for all bytes that can be lent; one as long that is no call, and
/// longer ones.
fn longest_lines() -> Vec<String> {
    let lend = "lend 8388608".to_string();
    let poke = format!("poke 0 {}", "3b".repeat(8_388_608));
    let mut lines = opened();
    lines.extend([
        longest_file(),
        longest_quotes(),
        "feed 0 28412c422c432c44293b".to_string(),
        longest_claim(),
        lend,
        poke,
        "peek 8388605 3".to_string(),
        "x".repeat(16_777_224),
        "x".repeat(16_777_225),
        "x".repeat(34_000_000),
    ]);
    lines
}

/// A NEXUS file of as many bytes as a batch may have, with as many trees as they can hold.
fn longest_file() -> String {
    let (front, back) = ("#NEXUS BEGIN TREES;", "END;");
    let long = 8_388_608 - front.len() - back.len();
    let trees = "TREE t=;".repeat(long / 8);
    let blanks = " ".repeat(long % 8);
    format!("nexus {}", hex(format!("{front}{trees}{blanks}{back}").as_bytes()))
}

/// A text of as many bytes with its semicolon, all others hidden by quotes.
fn longest_quotes() -> String {
    format!("feed 0 27{}273b", "3b".repeat(8_388_605))
}

/// A claim of as many bytes.
fn longest_claim() -> String {
    format!("claim 27{}273b", "3b".repeat(8_388_605))
}

/// Lines of bytes by chance.
fn any_bytes(random: &mut Random) -> Vec<u8> {
    (0..2000).map(|_| if random.one_in(30) { b'\n' } else { random.below(256) as u8 }).chain([b'\n']).collect()
}
