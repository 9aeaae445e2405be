//! Checks of lengths: values by hand and beside the standard library's, sums and differences, splits' lengths, weighted
//! distances, calls and a store by hand.

use crate::branches::{length_inside, length_outside};
use crate::calls::treecalls;
use crate::changes::STORED_LENGTHS;
use crate::double::Double;
use crate::length::value;
use crate::lengthsamples::{FAULTY, OUTSIDE, PLACES, VALUES};
use crate::random::Random;
use crate::text::is_length;
use crate::verdict::{judge_with_lengths, Tree};
use crate::weights::{summed, weighted};
use crate::words::hex;

type Check = (String, bool);

pub fn length_checks() -> Vec<Check> {
    [values(), beside_the_library(), sums(), trees(), distances(), calls()].concat()
}

fn check(kind: &str, what: &str, right: bool) -> Check {
    (format!("{kind} {what}"), right)
}

// Values

fn values() -> Vec<Check> {
    let inside = |(token, bits): &(&str, u64)| {
        let is = is_length(token.as_bytes()) && value(token.as_bytes()) == Some(Double(*bits));
        check("length", token, is && parsed(token.as_bytes()) == *bits)
    };
    let outside =
        |token: &&str| check("length", token, is_length(token.as_bytes()) && value(token.as_bytes()).is_none());
    let long =
        |front: &str, digit: &str, behind: &str| value(format!("{front}{}{behind}", digit.repeat(4000)).as_bytes());
    let mut checks: Vec<Check> = VALUES.iter().map(inside).chain(OUTSIDE.iter().map(outside)).collect();
    checks.extend([
        check("length", "of many leading zeros", long("", "0", "7") == value(b"7")),
        check("length", "of many zeros behind the point", long("-0.", "0", "7e4001") == value(b"-7")),
        check("length", "of many zeros in its exponent", long("7e-", "0", "22") == value(b"7e-22")),
        check("length", "of many nines", long("", "9", "").is_none() && long("1e-", "9", "").is_none()),
        check(
            "length",
            "of many zeros and a power",
            long("0.", "0", "").is_none() && long("1", "0", "e-4000").is_none(),
        ),
    ]);
    checks
}

/// The standard library rounds a decimal number once too; but it knows minus zero.
fn parsed(token: &[u8]) -> u64 {
    let text = std::str::from_utf8(token).expect("a length is ASCII");
    let bits = text.parse::<f64>().expect("a length is a number").to_bits();
    if Double(bits).is_minus_zero() {
        0
    } else {
        bits
    }
}

fn beside_the_library() -> Vec<Check> {
    let mut random = Random::new(1);
    let is_right = |token: &Vec<u8>| is_length(token) && value(token) == Some(Double(parsed(token)));
    let inside = (0..30_000).all(|_| is_right(&length_inside(&mut random)));
    let outside = (0..3_000).all(|_| value(&length_outside(&mut random)).is_none());
    let near = (0..5_000).all(|i| is_right(&format!("{}e1", (1u64 << 53) - i).into_bytes()));
    vec![
        check("lengths", "by chance, as the standard library has them", inside),
        check("lengths", "by chance, outside the exact range", outside),
        check("lengths", "near the largest, as the standard library has them", near),
    ]
}

// Sums and differences

fn sums() -> Vec<Check> {
    let of = |token: &str| value(token.as_bytes()).expect("a length in the exact range");
    let sum = |a: &str, b: &str, sum: u64| check("sum", &format!("{a} and {b}"), of(a).plus(of(b)) == Double(sum));
    let stored = |a: u64, b: u64, sum: u64| {
        let (a, b) = (Double(a), Double(b));
        check("sum", &format!("{} and {}", a.word(), b.word()), a.plus(b) == Double(sum) && b.plus(a) == Double(sum))
    };
    vec![
        sum("0.1", "0.2", 0x3fd3333333333334),
        sum("0.1", "-0.1", 0),
        sum("-0.3", "0.3", 0),
        sum("0", "-0", 0),
        sum("9007199254740992", "1", 0x4340000000000000),
        sum("9007199254740992", "2", 0x4340000000000001),
        sum("9007199254740992", "3", 0x4340000000000002),
        sum("9007199254740992", "-1", 0x433fffffffffffff),
        sum("9007199254740991", "-9007199254740992", 0xbff0000000000000),
        sum("1e22", "1e-22", 0x4480f0cf064dd592),
        sum("1e-22", "-1", 0xbff0000000000000),
        stored(1, 1, 2),
        stored(0x000fffffffffffff, 1, 0x0010000000000000),
        stored(0x0010000000000000, 0x8000000000000001, 0x000fffffffffffff),
        stored(0x7fefffffffffffff, 0x7fefffffffffffff, 0x7ff0000000000000),
        stored(0xffefffffffffffff, 0xffefffffffffffff, 0xfff0000000000000),
        // Half a unit of the largest's last place is past it, a little less is not
        stored(0x7fefffffffffffff, 0x7c90000000000000, 0x7ff0000000000000),
        stored(0x7fefffffffffffff, 0x7c8fffffffffffff, 0x7fefffffffffffff),
        stored(0x7ff0000000000000, 0xffefffffffffffff, 0x7ff0000000000000),
        stored(0x7fefffffffffffff, 0xffefffffffffffff, 0),
        check("sums", "by chance, as the machine has them", sums_by_chance()),
        check("order", "of doubles, as the machine has it", orders_by_chance()),
    ]
}

/// A double that a store may hold, often near the other.
fn some_double(random: &mut Random, near: Double) -> Double {
    let close = near.0.wrapping_add(random.next() % 5).wrapping_sub(random.next() % (1 << 54));
    let bits = [random.next(), close, close ^ 1 << 63, near.0 ^ 1 << 63, *random.pick(&STORED_LENGTHS)];
    let double = Double(*random.pick(&bits));
    if double.is_finite() && !double.is_minus_zero() {
        double
    } else {
        Double::ZERO
    }
}

fn sums_by_chance() -> bool {
    let mut random = Random::new(2);
    let mut last = Double::ZERO;
    (0..30_000).all(|_| {
        let a = some_double(&mut random, last);
        let b = some_double(&mut random, a);
        last = b;
        let (on_a, on_b) = (f64::from_bits(a.0), f64::from_bits(b.0));
        a.plus(b).0 == (on_a + on_b).to_bits() && a.minus(b).0 == (on_a - on_b).to_bits()
    })
}

fn orders_by_chance() -> bool {
    let mut random = Random::new(3);
    (0..5_000).all(|_| {
        let a = some_double(&mut random, Double::ZERO);
        let b = some_double(&mut random, a);
        f64::from_bits(a.0).partial_cmp(&f64::from_bits(b.0)) == Some(a.rank().cmp(&b.rank()))
    })
}

// Trees

fn letters() -> Vec<Vec<u8>> {
    (b'A'..=b'E').map(|letter| vec![letter]).collect()
}

fn judged(text: &str) -> Result<Tree, u32> {
    judge_with_lengths(&letters(), text.as_bytes())
}

/// The masks of a text with their lengths, or the refusal; `-` for none.
fn shown(text: &str) -> String {
    match judged(text) {
        Err(refusal) => refusal.to_string(),
        Ok(tree) => {
            let length = |mask: &u64| tree.lengths.get(mask).map_or("-".to_string(), |length| length.word());
            let words: Vec<String> = tree.splits.iter().map(|mask| format!("{mask}:{}", length(mask))).collect();
            words.join(" ")
        }
    }
}

const ONE: &str = "3ff0000000000000";
const TWO: &str = "4000000000000000";
const THREE: &str = "4008000000000000";

fn trees() -> Vec<Check> {
    let cases = [
        ("((A:9,B:9):1,C:9,(D:9,E:9):2):9", format!("24:{TWO} 28:{ONE}")),
        ("((A,B):1,C,(D,E))", format!("24:- 28:{ONE}")),
        ("((A,B),C,(D,E))", "24:- 28:-".to_string()),
        ("((A,B):1,(C,(D,E):3):2)", format!("24:{THREE} 28:{THREE}")),
        ("((C,(D,E):3):2,(A,B):1)", format!("24:{THREE} 28:{THREE}")),
        ("((A,B):1,(C,(D,E):3))", format!("24:{THREE} 28:-")),
        ("((A,B),(C,(D,E):3):2)", format!("24:{THREE} 28:-")),
        ("((A,B),(C,(D,E):3)):2", format!("24:{THREE} 28:-")),
        ("((A,B):0.1,(C,D,E):.2)", "28:3fd3333333333334".to_string()),
        ("((A,B):5,(C,D,E):-5)", "28:0000000000000000".to_string()),
        ("((A,B):-0,(C,D,E):-0.)", "28:0000000000000000".to_string()),
        ("(A:1,(B,C,(D,E):3):2)", format!("24:{THREE}")),
        ("((B,C,(D,E):3):2,A:1)", format!("24:{THREE}")),
        ("(A,(B,(C,(D,E):1):2):7)", format!("24:{ONE} 28:{TWO}")),
        ("(((A,B):1,C):2,D,E)", format!("24:{TWO} 28:{ONE}")),
        ("(A:1,B:1,C:1,D:1,E:1):1", String::new()),
    ];
    let mut checks: Vec<Check> =
        cases.iter().map(|(text, lengths)| check("tree", text, shown(text) == *lengths)).collect();
    for place in PLACES.iter().filter(|place| place.contains('L')) {
        let of = |length: &str| judged(&place.replace('L', length)).err();
        checks.push(check("tree", &place.escape_default().to_string(), of("1e23") == Some(17) && of("1e22").is_none()));
    }
    for (text, refusal) in FAULTY {
        let of = |length: &str| judged(&text.replace('L', length)).err();
        checks.push(check("text", text, ["1e23", "1"].iter().all(|length| of(length) == Some(refusal))));
    }
    checks
}

/// Trees of A to E; the first two have other splits in part.
const TREES: [&str; 5] = [
    "((A,B):1,C,(D,E):3)",
    "((A,B):2.5,(C,E):0.5,D)",
    "(A,B,C,D,E)",
    "((A,B):9007199254740992,C,(D,E):-1)",
    "((A,B),C,(D,E):1)",
];

fn distances() -> Vec<Check> {
    let trees = TREES.map(|text| judged(text).expect("a tree"));
    let between = |i: usize, j: usize| weighted(&trees[i], &trees[j]).map(|distance| distance.0);
    let over = |some: &[usize], mask: u64| {
        let some: Vec<Tree> = some.iter().map(|i| trees[*i].clone()).collect();
        summed(&some, mask).map(|of| [of.shortest.0, of.longest.0, of.sum.0])
    };
    vec![
        check("weighted", "masks of either tree", between(0, 1) == Some(0x4014000000000000)),
        check("weighted", "the other way", between(1, 0) == between(0, 1)),
        check("weighted", "a tree and itself", between(0, 0) == Some(0) && between(2, 2) == Some(0)),
        check("weighted", "a tree without splits", between(2, 0) == Some(0x4010000000000000)),
        // 4 and 2^53 - 1
        check("weighted", "rounded", between(0, 3) == Some(0x4340000000000002)),
        // 1 and 2^53, the smaller mask first: half way, to the even one
        check("weighted", "each step rounded", between(3, 2) == Some(0x4340000000000000)),
        check(
            "weighted",
            "a length absent",
            between(4, 0).is_none() && between(0, 4).is_none() && between(4, 4).is_none(),
        ),
        check(
            "summed",
            "in tree order",
            over(&[0, 3, 0], 28) == Some([0x3ff0000000000000, 0x4340000000000000, 0x4340000000000000]),
        ),
        check(
            "summed",
            "in another order",
            over(&[0, 0, 3], 28) == Some([0x3ff0000000000000, 0x4340000000000000, 0x4340000000000001]),
        ),
        check(
            "summed",
            "by value",
            over(&[0, 3], 24) == Some([0xbff0000000000000, 0x4008000000000000, 0x4000000000000000]),
        ),
        check("summed", "the trees having it", over(&[2, 1, 4], 20) == Some([0x3fe0000000000000; 3])),
        check("summed", "a length absent", over(&[0, 4], 28).is_none() && over(&[0, 4], 24).is_some()),
    ]
}

// Calls

/// Calls and answers in order; NAMES stands for the list A to E in hex, and what follows `feed 0 ` is a text.
const CALLS: [(&str, &str); 46] = [
    ("size 5 1 2 3 6", "bytes 9052"),
    ("size 5 1 2 3 6 lengths", "bytes 10076"),
    ("size 64 8 1024 4096 8192 lengths", "bytes 811072"),
    ("size 5 1 0 3 6 lengths", "refused 2"),
    ("size 5 1 2 3 lengths", "bad line"),
    ("size 5 1 2 3 6 length", "bad line"),
    ("weighted 0 0", "refused 1"),
    ("lengths 0", "refused 1"),
    ("lend 10075", "done"),
    ("open 5 1 2 3 6 NAMES 0,0,0,0,0 0,0,0,0,0 lengths", "refused 4"),
    ("lend 10077", "done"),
    ("open 5 1 2 3 6 NAMES 0,0,0,0,0 0,0,0,0,0 lengths", "done"),
    ("peek 10076 1", "bytes a5"),
    ("peek 10075 1", "unmodelled"),
    ("weighted 0 0", "refused 13"),
    ("lengths 0", "refused 13"),
    ("feed 0 ((A,B):1e23,C,(D,E));", "refused 21 17"),
    ("feed 0 ((A,B),C,(D,E):1e23:);", "refused 22 7"),
    ("feed 0 (A:1e23,B,C,D);", "refused 15 10"),
    ("feed 0 ((A,B):0.1,C,(D,E):2);", "accepted 22 0"),
    ("weighted 0 0", "double 0000000000000000"),
    ("weighted 0 1", "refused 13"),
    ("lengths 0", "lengths 4000000000000000 4000000000000000 4000000000000000"),
    ("lengths 1", "lengths 3fb999999999999a 3fb999999999999a 3fb999999999999a"),
    ("lengths 2", "refused 13"),
    ("feed 0 ((A,B):.2,(C,E):3,D);", "accepted 21 1"),
    ("weighted 0 1", "double 4014666666666666"),
    ("weighted 1 0", "double 4014666666666666"),
    ("lengths 2", "lengths 3fb999999999999a 3fc999999999999a 3fd3333333333334"),
    ("feed 0 ((A,B):.2,(C,E):1e-23,D);", "refused 25 17"),
    ("feed 0 ((A,B):.2,(C,E):1e-22,D);", "refused 25 11"),
    ("one 0 1", "number 1"),
    ("two 0 1", "number 2"),
    ("open 5 1 2 3 6 NAMES 0,0,0,0,0 0,0,0,0,0 lengths", "done"),
    ("feed 0 ((A,B),C,(D,E):2);", "accepted 18 0"),
    ("weighted 0 0", "refused 18"),
    ("lengths 0", "lengths 4000000000000000 4000000000000000 4000000000000000"),
    ("lengths 1", "refused 18"),
    ("feed 0 (A,B,C,D,E);", "accepted 12 1"),
    ("weighted 1 1", "double 0000000000000000"),
    ("weighted 0 1", "refused 18"),
    // Not kept
    ("open 5 1 2 3 6 NAMES 0,0,0,0,0 0,0,0,0,0", "done"),
    ("feed 0 ((A,B):1e23,C,(D,E):1);", "accepted 23 0"),
    ("weighted 0 0", "refused 18"),
    ("lengths 1", "refused 18"),
    ("weighted 0 1", "refused 13"),
];

fn spelled(call: &str) -> String {
    match call.strip_prefix("feed 0 ") {
        Some(text) => format!("feed 0 {}", hex(text.as_bytes())),
        None => call.replace("NAMES", &hex(b"A B C D E")),
    }
}

fn calls() -> Vec<Check> {
    let input: String = CALLS.iter().map(|(call, _)| format!("{}\n", spelled(call))).collect();
    let answers = String::from_utf8(treecalls(input.as_bytes())).expect("answers are ASCII");
    let answers: Vec<&str> = answers.lines().collect();
    let right = |i: usize| answers.len() == CALLS.len() && answers[i] == CALLS[i].1;
    (0..CALLS.len()).map(|i| check("treecalls", CALLS[i].0, right(i))).collect()
}
