//! `selfcheck`: the samples of document 01, the sheet of the summary program, the limits, and the settled points; then
//! the checks of quotes, of lengths, of stores, of NEXUS files, of withdrawals, of split files, of matrices, of claims and of
//! release sheets.

use crate::calls::treecalls;
use crate::claimcheck::claim_checks;
use crate::collection::Collection;
use crate::consensus::{majority, strict, written, Counts};
use crate::filecheck::file_checks;
use crate::grow;
use crate::lengthcheck::length_checks;
use crate::opening::{open, Numbers};
use crate::phylipcheck::phylip_checks;
use crate::quotecheck::quote_checks;
use crate::random::Random;
use crate::sets::{agree, taxa_of};
use crate::sheetcheck::sheet_checks;
use crate::splitfilecheck::split_file_checks;
use crate::storecheck::store_checks;
use crate::summary::treesum;
use crate::text::is_length;
use crate::verdict::{judge, Masks};
use crate::withdrawcheck::withdrawal_checks;
use crate::words::hex;

const T0: &str = "((A,B),C,(D,E))";
const T1: &str = "((A,B),D,(C,E))";
const T2: &str = "((D,E),(C,(A,B)))";
const S5: &str = "((A,B),C,D,E)";

/// Prints a line for each check, and answers whether all are right.
pub fn selfcheck() -> bool {
    let checks = [
        samples(),
        sheets(),
        lengths(),
        forms(),
        limits(),
        properties(),
        calls(),
        quote_checks(),
        length_checks(),
        store_checks(),
        file_checks(),
        withdrawal_checks(),
        split_file_checks(),
        phylip_checks(),
        claim_checks(),
        sheet_checks(),
    ]
    .concat();
    for (name, right) in &checks {
        println!("{} {name}", if *right { "ok" } else { "not ok" });
    }
    checks.iter().all(|(_, right)| *right)
}

type Check = (String, bool);

fn check(name: &str, right: bool) -> Check {
    (name.to_string(), right)
}

/// The first letters as names.
fn letters(n: usize) -> Vec<Vec<u8>> {
    (0..n).map(|i| vec![b'A' + i as u8]).collect()
}

/// The verdict over the first letters: the masks, or the refusal.
fn verdict(n: usize, text: &str) -> Result<Vec<u64>, u32> {
    judge(&letters(n), text.as_bytes()).map(|masks| masks.into_iter().collect())
}

/// A collection over A to E that was fed these texts.
fn fed(texts: &[&str]) -> Collection {
    let numbers = Numbers { taxa: 5, lanes: 1, tree_room: 10, split_room: 10, places: 1, lengths: false };
    let Ok(opening) = open(numbers, b"A B C D E", &[0; 5], &[0; 5], u64::MAX) else {
        panic!("the opening of the samples is refused");
    };
    let mut collection = Collection::new(opening);
    for text in texts {
        collection.feed(0, format!("{text};").as_bytes());
    }
    collection
}

fn samples() -> Vec<Check> {
    let trees = fed(&[T0, T1, T2, S5]);
    let distances = |i, j| [trees.one_sided(i, j), trees.one_sided(j, i), trees.doubled(i, j)].map(|d| d.unwrap_or(99));
    let agreement = |a, b| agree(&taxa_of(a), &taxa_of(b));
    let majority = |texts: &[&str]| fed(texts).majority_splits().into_iter().collect::<Vec<u64>>();
    vec![
        check("S1", verdict(5, T0) == Ok(vec![24, 28])),
        check("S2", verdict(5, T1) == Ok(vec![20, 28])),
        check("S3", verdict(5, T2) == verdict(5, T0)),
        check("S4", distances(0, 1) == [1, 1, 2]),
        check("S5", verdict(5, S5) == Ok(vec![28]) && distances(3, 0) == [0, 1, 1]),
        check("S6", !agreement(20, 24)),
        check("S7", agreement(24, 28)),
        check("S8", majority(&[T0, T1, T2]) == [24, 28]),
        check("S9", majority(&[T0, T1]) == [28]),
        check("S10", verdict(5, "((A),B,C,D,E)") == Err(7)),
        check("S11", verdict(5, "(A,A,C,D,F)") == Err(9)),
        check("S12", verdict(5, "(A,B,C,D)") == Err(10)),
        check("S13", verdict(4, "((A,B),(C,D))") == Ok(vec![12])),
        check("S14", verdict(4, "(A,(B,C,D))") == Ok(vec![]) && written_over(4, "(A,(B,C,D))") == "(A,B,C,D);"),
    ]
}

fn written_over(n: usize, text: &str) -> String {
    let masks = judge(&letters(n), text.as_bytes()).unwrap_or_default();
    String::from_utf8(written(&letters(n), &masks)).expect("names are ASCII")
}

fn sheets() -> Vec<Check> {
    let sample = format!("A B C D E\n{T0};\n{T1};\n{T2};\n");
    let answer = "taxa 5 trees 3 refused 0 splits 3\n20 1\n24 2\n28 3\n0 2 0\n2 0 2\n0 2 0\n\
                  majority (A,B,(C,(D,E)));\nstrict (A,B,(C,D,E));\n";
    let none = "taxa 4 trees 0 refused 1 splits 0\nmajority none\nstrict none\n";
    let is = |input: &str, answer: &str| treesum(input.as_bytes()) == answer.as_bytes();
    vec![
        check("treesum sample", is(&sample, answer)),
        check("treesum unfinished text", is("A B C D\n(A,B,C,D)", none)),
        check("treesum no text", is("A B C D", &none.replace("refused 1", "refused 0"))),
        check("treesum blanks at the end", is("A B C D\n \r\n\t", &none.replace("refused 1", "refused 0"))),
        check("treesum empty line", is("", "names refused 2\n") && is("\n(A,B,C,D);", "names refused 2\n")),
        check("treesum CR", is("A B C D\r\n", "names refused 3\n")),
        check("treesum double space", is("A B  C", "names refused 3\n")),
        check("treesum end space", is("A B C ", "names refused 3\n")),
        check("treesum 3 names", is("A B C\n", "names refused 2\n")),
        check("treesum same name", is("A B A D\n", "names refused 3\n")),
    ]
}

fn lengths() -> Vec<Check> {
    let good = ["5.", ".5", "+.5e-3", "00", "1E5", "-1", "1.5e+0"];
    let bad = [".", "e5", "1e", "1.2.3", "", "+", "1e5.", "--1", "1e1e1", ".e1"];
    vec![
        check("lengths", good.iter().all(|length| is_length(length.as_bytes()))),
        check("no lengths", !bad.iter().any(|length| is_length(length.as_bytes()))),
    ]
}

fn forms() -> Vec<Check> {
    let refused = |text: &str, refusal: u32| verdict(5, text) == Err(refusal);
    let sevens = ["", " \n", "A B", "(A,B,C,D,E", "A,B", "(A,B,C,D,E) x y", "(A,B,C,D,E):", "(A,B[x],C,D,E)", "(,A)"];
    let dressed = " ( (A :1, B:2 ) ab\t:3e1 ,C , (D,E) 100 ) root : 0\r\n";
    vec![
        check("7", sevens.iter().all(|text| refused(text, 7))),
        check("7 before 8", refused("(X,A", 7)),
        check("8 before 9", refused("(X,A,A,B,C)", 8)),
        check("9 before 8", refused("(A,A,X,B,C)", 9)),
        check("A alone", refused("A", 10) && refused("X", 8)),
        check("dressed text", verdict(5, dressed) == Ok(vec![24, 28])),
        check("long leaf", refused(&format!("(A,B,C,D,{})", "E".repeat(33)), 8)),
        check("long inner label", verdict(5, &format!("{S5}{}", "x".repeat(2000))) == Ok(vec![28])),
    ]
}

/// "Run only": bytes, taxa, nesting, rooms, all constants 0.
fn limits() -> Vec<Check> {
    let padded = |long: usize| format!("{S5}{}", " ".repeat(long - S5.len()));
    let nested = |brackets: usize| format!("{}A{}", "(".repeat(brackets), ",A)".repeat(brackets));
    let opened = |n: usize| {
        let names: Vec<String> = (0..n).map(|i| format!("t{i}")).collect();
        treesum(names.join(" ").as_bytes()).starts_with(b"taxa")
    };
    let longest = longest_written();
    vec![
        check("4608 bytes", verdict(5, &padded(4608)) == Ok(vec![28])),
        check("4609 bytes", verdict(5, &padded(4609)) == Err(6)),
        check("64 taxa", opened(64) && !opened(65) && opened(4) && !opened(3)),
        check("nesting 63", verdict(5, &nested(63)) == Err(9)),
        check("nesting 64", verdict(5, &nested(64)) == Err(7)),
        check("longest written tree", longest == 4349),
    ]
}

/// A ladder of 64 names of 32 bytes, one of them all apostrophes, the others all but one.
fn longest_written() -> usize {
    let other = |i: u8| [&[b'\''; 31][..], &[b'a'.wrapping_add(i)]].concat();
    let names: Vec<Vec<u8>> = (0..63).map(other).chain([vec![b'\''; 32]]).collect();
    let splits = (2..63u32).map(|low| u64::MAX << low).collect();
    written(&names, &splits).len()
}

/// What must hold of every tree and every set of trees, on generated ones.
fn properties() -> Vec<Check> {
    let (mut read_back, mut in_pairs, mut nested) = (true, true, true);
    let (mut accepted, mut kept) = (0, [0, 0]);
    for seed in 0..200 {
        let mut random = Random::new(seed);
        let n = random.between(4, 20);
        let names = grow::names(&mut random, n);
        let shapes = [3, 3].map(|most_children| grow::shape(&mut random, &names, most_children));
        let texts = [(); 4].map(|_| {
            let shape = random.pick(&shapes);
            grow::text_of(&mut random, shape)
        });
        let trees: Vec<Masks> = texts.iter().filter_map(|text| judge(&names, text).ok()).collect();
        let counts = counted(&trees);
        let (strict, majority) = (strict(&counts, trees.len() as u64), majority(&counts, trees.len() as u64));
        read_back &= trees.iter().chain([&strict, &majority]).all(|splits| reads_back(&names, splits));
        in_pairs &= trees.iter().chain([&majority]).all(agree_in_pairs);
        nested &= strict.is_subset(&majority);
        accepted += trees.len();
        kept = [kept[0] + strict.len(), kept[1] + majority.len()];
    }
    vec![
        check("generated texts are trees", accepted == 4 * 200),
        check("some of their splits are strict, more are majority splits", kept[0] > 100 && kept[1] > 2 * kept[0]),
        check("written trees read back", read_back),
        check("splits of a tree and majority splits agree in pairs", in_pairs),
        check("strict splits are majority splits", nested),
    ]
}

fn counted(trees: &[Masks]) -> Counts {
    let mut counts = Counts::new();
    for mask in trees.iter().flatten() {
        *counts.entry(*mask).or_insert(0) += 1;
    }
    counts
}

fn reads_back(names: &[Vec<u8>], splits: &Masks) -> bool {
    let text = written(names, splits);
    let bare = text.strip_suffix(b";").expect("a semicolon at the end");
    judge(names, bare).is_ok_and(|read| read == *splits)
}

fn agree_in_pairs(splits: &Masks) -> bool {
    splits.iter().all(|a| splits.iter().all(|b| agree(&taxa_of(*a), &taxa_of(*b))))
}

/// Calls and answers in order; NAMES, T0; and the like stand for their hex.
const CALLS: [(&str, &str); 57] = [
    ("trees", "refused 1"),
    ("size 5 2 2 3 6", "bytes 13668"),
    ("lend 13667", "done"),
    ("open 5 2 2 3 6 NAMES 0,0,0,0,0 0,0,0,0,0", "refused 4"),
    ("lend 13670", "done"),
    ("trees", "refused 1"),
    ("open 5 2 2 3 7 NAMES 0,0,0,0,0 0,0,0,0,0", "refused 2"),
    ("open 5 2 2 3 6 NAMES 0,0,0,0,6 0,0,0,0,0", "refused 2"),
    ("open 5 2 2 3 6 NAMES 0,0,0,0,0 0,0,0,0", "refused 2"),
    ("open 5 2 2 3 6 NAMES 0,0,0,0,0 0,0,0,0,0", "done"),
    ("matrix", "matrix 0:"),
    ("strict", "refused 14"),
    ("both", "refused 14"),
    ("splits", "splits"),
    ("feed 2 -", "refused 0 5"),
    ("feed 1 -", "more 0"),
    ("feed 1 2828", "more 2"),
    ("feed 0 T0;", "accepted 16 0"),
    ("close 1", "refused 7"),
    ("close 1", "done"),
    ("batch 0 S5;28", "batch 1 taken 15"),
    ("feed 1 T1;", "refused 16 11"),
    ("count", "number 2"),
    ("splits", "splits 24:1 28:2"),
    ("split 1", "split 28 2"),
    ("split 2", "refused 13"),
    ("tree 0", "tree 24 28"),
    ("one 0 1", "number 1"),
    ("two 1 0", "number 1"),
    ("matrix", "matrix 2: 0 1 1 0"),
    ("majority", "text (A,B,(C,D,E));"),
    ("both", "both (A,B,(C,D,E)); (A,B,(C,D,E));"),
    ("write 0", "text (A,B,(C,(D,E)));"),
    ("collisions", "number 1"),
    ("room 3", "done"),
    ("matrix", "refused 4"),
    ("both", "refused 4"),
    ("tree 2", "refused 13"),
    ("room -", "done"),
    ("agree 20 24", "agree 0"),
    ("agree 24 28", "agree 1"),
    ("peek 13668 2", "bytes a5a5"),
    ("poke 13669 00ff", "bad line"),
    ("peek 13670 0", "bytes -"),
    ("peek 13667 1", "unmodelled"),
    ("poke 0 00", "done"),
    ("trees", "unmodelled"),
    ("tree  0", "bad line"),
    ("tree 18446744073709551616", "bad line"),
    // The last free split room, one past it, and a tree without new splits
    ("open 5 1 9 3 6 NAMES 0,0,0,0,0 0,0,0,0,0", "done"),
    ("peek 9947 1", "unmodelled"),
    ("peek 13668 1", "bytes a5"),
    ("feed 0 T0;", "accepted 16 0"),
    ("feed 0 T1;", "accepted 16 1"),
    ("feed 0 NEW;", "refused 16 12"),
    ("count", "number 3"),
    ("feed 0 T2;", "accepted 18 2"),
];

fn calls() -> Vec<Check> {
    let input: String = CALLS.iter().map(|(call, _)| format!("{}\n", spelled(call))).collect();
    let answers = String::from_utf8(treecalls(input.as_bytes())).expect("answers are ASCII");
    let answers: Vec<&str> = answers.lines().collect();
    let right = |i: usize| answers.len() == CALLS.len() && answers[i] == CALLS[i].1;
    (0..CALLS.len()).map(|i| check(&format!("treecalls {}", CALLS[i].0), right(i))).collect()
}

fn spelled(call: &str) -> String {
    let mut line = call.replace("NAMES", &hex(b"A B C D E"));
    for (word, text) in [("T0;", T0), ("T1;", T1), ("T2;", T2), ("S5;", S5), ("NEW;", "((A,C),B,(D,E))")] {
        line = line.replace(word, &hex(format!("{text};").as_bytes()));
    }
    line
}
