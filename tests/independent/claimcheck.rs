//! Checks of claims: calls and their answers by hand, the bytes before the semicolon, the highest masks, every root of a few
//! trees, and the checker on a call that must leave the store as it is.

use crate::calls::treecalls;
use crate::check::Report;
use crate::grow::{names, tokens, BARE};
use crate::limits::bare_text;
use crate::random::Random;
use crate::rooting::{every_root, further_splits, resolved, rooted, turned};
use crate::sets::{agree, taxa_of};
use crate::storecheck::{by_hand, with_byte};
use crate::verdict::{judge, Masks};
use crate::words::hex;

type Check = (String, bool);

pub fn claim_checks() -> Vec<Check> {
    [calls(), sizes(), highest_masks(), roots(), checker_checks()].concat()
}

/// Calls and answers in order; NAMES stands for the list A to E in hex, the last word of a feeding is a text, and that of a
/// claim in brackets too, with `_` for a blank, `/` for LF and `^` for CR.
const CALLS: [(&str, &str); 118] = [
    // 1, and then 14, before all else
    ("claim -", "refused 1"),
    ("claim [((A,B),C,(D,E));]", "refused 1"),
    ("lend 20000", "done"),
    ("claim [((A,B),C,(D,E));]", "refused 1"),
    ("open 5 1 4 9 1 NAMES 0,0,0,0,0 0,0,0,0,0", "done"),
    ("claim [((A,B),C,(D,E));]", "refused 14"),
    ("claim [(A,B,C,D,E);]", "refused 14"),
    ("claim -", "refused 14"),
    ("claim [;]", "refused 14"),
    ("claim [(F,A,A]", "refused 14"),
    // A tree alone: 24 and 28
    ("feed 0 ((A,B),C,(D,E));", "accepted 16 0"),
    ("majority", "text (A,B,(C,(D,E)));"),
    ("claim [(A,B,(C,(D,E)));]", "same"),
    ("claim [((A,B),C,(D,E));]", "same"),
    ("claim [((D,E),(C,(A,B)));]", "same"),
    ("claim [((E,D),(B,A),C);]", "same"),
    ("claim [(D,E,(C,(A,B)));]", "same"),
    ("claim [(E,(D,((A,B),C)));]", "same"),
    ("claim [(C,((A,B),(D,E)));]", "same"),
    ("claim [((A,B),C,D,E);]", "majority 24"),
    ("claim [(A,B,C,(D,E));]", "majority 28"),
    ("claim [(A,B,C,D,E);]", "majority 24"),
    ("claim [((A,B),D,(C,E));]", "text 20"),
    ("claim [((A,C),B,(D,E));]", "text 26"),
    ("claim [((A,D),B,(C,E));]", "text 20"),
    ("claim [(A,(B,C),(D,E));]", "text 6"),
    ("claim [((A,B),E,(C,D));]", "text 12"),
    ("claim [((A,D),C,(B,E));]", "text 18"),
    ("claim [((B,C),A,D,E);]", "text 6"),
    // Two, of which each has one split that the other lacks: half is no majority
    ("feed 0 ((A,B),D,(C,E));", "accepted 16 1"),
    ("claim [((A,B),C,D,E);]", "same"),
    ("claim [(A,B,(C,D,E));]", "same"),
    ("claim [((A,B),(C,D,E));]", "same"),
    ("claim [((A,B),C,(D,E));]", "text 24"),
    ("claim [((A,B),D,(C,E));]", "text 20"),
    ("claim [(A,B,C,D,E);]", "majority 28"),
    ("claim [(A,B,C,(D,E));]", "text 24"),
    ("claim [((A,E),B,C,D);]", "text 14"),
    ("claim [((A,B),E,(C,D));]", "text 12"),
    // Three
    ("feed 0 ((D,E),(C,(A,B)));", "accepted 18 2"),
    ("majority", "text (A,B,(C,(D,E)));"),
    ("claim [((A,B),C,(D,E));]", "same"),
    ("claim [((A,B),D,(C,E));]", "text 20"),
    ("claim [((A,B),C,D,E);]", "majority 24"),
    // Blanks, lengths, labels and quotes
    ("claim [_((A,B)_,C,/(D,E))^_;]", "same"),
    ("claim [((A:1,B:2)x:3,C:.5,(D,E)100:0)root:1e5;]", "same"),
    ("claim [((A:1e99,B):1e23,C,(D,E):-9007199254740993):0e23;]", "same"),
    ("claim [(('A','B'),C,('D',E))'root_it''s';]", "same"),
    ("claim [((A,B)';',C,(D,E))';;';]", "same"),
    ("claim [((A,B)'_',C,(D,E))'''';]", "same"),
    // 7: no semicolon outside quotes, more than one, or something behind it
    ("claim -", "refused 7"),
    ("claim [;]", "refused 7"),
    ("claim [_;]", "refused 7"),
    ("claim [;;]", "refused 7"),
    ("claim [']", "refused 7"),
    ("claim [';]", "refused 7"),
    ("claim ['';]", "refused 7"),
    ("claim [';';]", "refused 8"),
    ("claim [((A,B),C,(D,E))]", "refused 7"),
    ("claim [((A,B),C,(D,E));/]", "refused 7"),
    ("claim [((A,B),C,(D,E));_]", "refused 7"),
    ("claim [((A,B),C,(D,E));^/]", "refused 7"),
    ("claim [((A,B),C,(D,E));;]", "refused 7"),
    ("claim [((A,B),C,(D,E));_;]", "refused 7"),
    ("claim [((A,B),C,(D,E));((A,B),C,(D,E));]", "refused 7"),
    ("claim [;((A,B),C,(D,E));]", "refused 7"),
    ("claim [((A,B);,C,(D,E));]", "refused 7"),
    ("claim [((A,B),C,(D,E))';]", "refused 7"),
    ("claim [((A,B),C,(D,E));']", "refused 7"),
    ("claim [((A,B),C,(D,E));'']", "refused 7"),
    ("claim [((A,B),C,(D,E))';']", "refused 7"),
    ("claim [((A,B),C,(D,E))'x;]", "refused 7"),
    ("claim [((A,B),C,(D,E))'x;'y;]", "refused 7"),
    ("claim [((A,B),C,(D,E);]", "refused 7"),
    ("claim [((A),B,C,D,E);]", "refused 7"),
    ("claim [((A,F),C;]", "refused 7"),
    ("claim [(A,A,C,D,F)x_y;]", "refused 7"),
    // 8 and 9 by the first faulty leaf, then 10
    ("claim [((A,B),C,(D,F));]", "refused 8"),
    ("claim [(F,A,A,B,C);]", "refused 8"),
    ("claim [(A,A,F,B,C);]", "refused 9"),
    ("claim [((A,B),C,(D,A));]", "refused 9"),
    ("claim [((A,B),C,D);]", "refused 10"),
    ("claim [A;]", "refused 10"),
    ("claim [(a,B,C,D,E);]", "refused 8"),
    // Lines that are no calls
    ("claim", "bad line"),
    ("claim 0", "bad line"),
    ("claim 3B", "bad line"),
    ("claim 3b 3b", "bad line"),
    ("claim 1 3b", "bad line"),
    ("Claim 3b", "bad line"),
    // No buffer is asked for, and no lane is touched
    ("room 0", "done"),
    ("feed 0 ((A,'", "more 5"),
    ("claim [((A,B),C,(D,E));]", "same"),
    ("claim [B),C,(D,E));]", "refused 7"),
    ("claim [;]", "refused 7"),
    ("feed 0 B'),D,(C,E));", "accepted 13 3"),
    ("claim [((A,B),C,D,E);]", "same"),
    // The tree room is full, and there are splits that no tree has; 11 and 12 are not asked
    ("feed 0 ((A,C),B,(D,E));", "refused 16 11"),
    ("claim [((A,C),B,(D,E));]", "text 24"),
    ("claim [((A,B),(E,(C,D)));]", "text 12"),
    // Withdrawn trees count no more
    ("withdraw 0", "done"),
    ("claim [((A,B),D,(C,E));]", "same"),
    ("claim [((A,B),C,(D,E));]", "majority 20"),
    ("withdraw 0", "done"),
    ("withdraw 1", "done"),
    ("claim [((A,B),C,(D,E));]", "same"),
    ("withdraw 0", "done"),
    ("claim [((A,B),C,(D,E));]", "refused 14"),
    // Lengths kept: 17 is not asked; trees without splits
    ("open 5 1 4 2 1 NAMES 0,0,0,0,0 0,0,0,0,0 lengths", "done"),
    ("feed 0 (A,B,C,D,E):1e23;", "refused 17 17"),
    ("feed 0 (A,B,C,D,E):1;", "accepted 14 0"),
    ("claim [(A,B,C,D,E):1e23;]", "same"),
    ("claim [(E,(D,C,B,A):1e99);]", "same"),
    ("claim [(A:9007199254740993,B,C,(D,E):1.0e-22);]", "text 24"),
    ("claim [(A,(B,C),(D,E));]", "text 6"),
    ("feed 0 ((A,C),(B,D),E);", "accepted 16 1"),
    ("claim [((A,C),(B,D),E);]", "text 10"),
    ("claim [(A,B,C,D,E);]", "same"),
];

/// With every text in hex.
fn spelled(line: &str) -> String {
    let words: Vec<String> = line.split(' ').map(|word| in_hex(word).unwrap_or(word.to_string())).collect();
    match (line.starts_with("feed"), words.split_last()) {
        (true, Some((text, front))) => format!("{} {}", front.join(" "), hex(text.as_bytes())),
        _ => words.join(" ").replace("NAMES", &hex(b"A B C D E")),
    }
}

fn in_hex(word: &str) -> Option<String> {
    let text = word.strip_prefix('[')?.strip_suffix(']')?;
    Some(hex(text.replace('_', " ").replace('/', "\n").replace('^', "\r").as_bytes()))
}

fn calls() -> Vec<Check> {
    let input: String = CALLS.iter().map(|(call, _)| format!("{}\n", spelled(call))).collect();
    let answers = String::from_utf8(treecalls(input.as_bytes())).expect("answers are ASCII");
    let answers: Vec<&str> = answers.lines().collect();
    let right = |i: usize| answers.len() == CALLS.len() && answers[i] == CALLS[i].1;
    (0..CALLS.len()).map(|i| (format!("treecalls {}", CALLS[i].0), right(i))).collect()
}

/// What a claim is answered over A to E and the first tree of document 01.
fn answered(text: &[u8]) -> String {
    let opening = "lend 20000\nopen 5 1 9 9 1 NAMES 0,0,0,0,0 0,0,0,0,0\nfeed 0 ((A,B),C,(D,E));";
    let lines: Vec<String> = opening.lines().map(spelled).collect();
    let input = format!("{}\nclaim {}\n", lines.join("\n"), hex(text));
    let answers = String::from_utf8(treecalls(input.as_bytes())).expect("answers are ASCII");
    answers.lines().last().unwrap_or_default().to_string()
}

/// "6 counts the bytes before the first such, or all."
fn sizes() -> Vec<Check> {
    let tree = "((A,B),C,(D,E))";
    let blanks = |long: usize, end: &str| format!("{tree}{}{end}", " ".repeat(long - tree.len()));
    let quotes = |long: usize, end: &str| format!("{tree}'{}'{end}", ";".repeat(long - tree.len() - 2));
    let open = |long: usize, end: &str| format!("{tree}'{}{end}", ";".repeat(long - tree.len() - 1));
    let many = ";".repeat(9000);
    let samples = [
        (blanks(4607, ";"), "same"),
        (blanks(4608, ";"), "same"),
        (blanks(4609, ";"), "refused 6"),
        (blanks(4607, ""), "refused 7"),
        (blanks(4608, ""), "refused 7"),
        (blanks(4609, ""), "refused 6"),
        (blanks(4608, ";;"), "refused 7"),
        (blanks(4609, ";;"), "refused 6"),
        (blanks(4608, ";\n"), "refused 7"),
        (blanks(4609, ";\n"), "refused 6"),
        (blanks(4608, &many), "refused 7"),
        (blanks(4609, &many), "refused 6"),
        (quotes(4607, ";"), "same"),
        (quotes(4608, ";"), "same"),
        (quotes(4609, ";"), "refused 6"),
        (quotes(4608, ""), "refused 7"),
        (quotes(4609, ""), "refused 6"),
        (open(4607, ""), "refused 7"),
        (open(4607, ";"), "refused 7"),
        (open(4608, ";"), "refused 6"),
        (open(4609, ""), "refused 6"),
        (many.clone(), "refused 7"),
        (format!("x{many}"), "refused 7"),
        (format!("'{many}"), "refused 6"),
        (" ".repeat(4608), "refused 7"),
        (" ".repeat(4609), "refused 6"),
    ];
    let name = |i: usize| format!("claim of many bytes, {i}");
    samples.iter().enumerate().map(|(i, (text, right))| (name(i), answered(text.as_bytes()) == *right)).collect()
}

/// Masks are whole numbers, also with the highest bit: over t0 to t63 a tree with the split of the last two.
fn highest_masks() -> Vec<Check> {
    let names: Vec<String> = (0..64).map(|i| format!("t{i}")).collect();
    let zeros = ["0"; 64].join(",");
    let star = format!("({});", names.join(","));
    let last = star.replace("t62,t63", "(t62,t63)");
    let first = star.replace("t1,t2,", "(t1,t2),");
    let both = last.replace("t1,t2,", "(t1,t2),");
    let list = hex(names.join(" ").as_bytes());
    let head = format!("lend 20000\nopen 64 1 2 9 1 {list} {zeros} {zeros}\nfeed 0 {}\n", hex(last.as_bytes()));
    let claims: String = [&last, &star, &first, &both].map(|text| format!("claim {}\n", hex(text.as_bytes()))).concat();
    let answers = String::from_utf8(treecalls(format!("{head}{claims}").as_bytes())).expect("answers are ASCII");
    let right = ["same", "majority 13835058055282163712", "text 6", "text 6"];
    let told: Vec<&str> = answers.lines().skip(3).collect();
    vec![("claims with the highest mask".to_string(), told == right)]
}

/// Every root of a tree gives its splits, whatever the order of the children; a further split agrees with all.
fn roots() -> Vec<Check> {
    let (mut alike, mut agreeing, mut full, mut seen) = (true, true, true, 0);
    for seed in 0..60 {
        let mut random = Random::new(seed);
        let n = random.between(4, 12);
        let names = names(&mut random, n);
        let splits = judge(&names, &bare_text(&mut random, &names, 4)).expect("a tree of all names");
        for root in every_root(n, &splits) {
            let shape = turned(&mut random, rooted(&names, &splits, &root));
            alike &= judge(&names, &tokens(&mut random, &shape, BARE).concat()) == Ok(splits.clone());
            seen += 1;
        }
        let agrees = |mask: &u64, with: &Masks| with.iter().all(|other| agree(&taxa_of(*mask), &taxa_of(*other)));
        agreeing &= further_splits(n, &splits).iter().all(|mask| agrees(mask, &splits) && !splits.contains(mask));
        full &= resolved(&mut random, n, &splits).len() == n - 3;
    }
    vec![
        ("every root gives the same splits".to_string(), alike && seen > 1000),
        ("further splits agree".to_string(), agreeing),
        ("a resolved tree has n - 3 splits".to_string(), full),
    ]
}

/// The checker on the store by hand before and after each call: no byte may change, and the answer must be right.
fn checker_checks() -> Vec<Check> {
    let before = [by_hand(), vec![7; 3]].concat();
    let differences = |call: &str, answer: &str, after: &[u8]| {
        let script = format!("lend 9047\npoke 0 {}\n{}\npeek 0 9047\n", hex(&before), spelled(call));
        let answers = format!("done\ndone\n{answer}\nbytes {}\n", hex(after));
        Report::of(script.as_bytes(), answers.as_bytes()).differences
    };
    let pairs = [
        ("claim [((A,B),C,D,E);]", "same"),
        ("claim [((A,B),C,(D,E));]", "text 24"),
        ("claim [(A,B,C,D,E);]", "majority 28"),
        ("claim [B,C,D,E);]", "refused 7"),
        ("claim [(A,B,C,D,F);]", "refused 8"),
    ];
    let mut checks = Vec::new();
    for (call, answer) in pairs {
        let changed = |at: usize| differences(call, answer, &with_byte(&before, at, before[at] ^ 1));
        let right = differences(call, answer, &before) == 0;
        let touched = [0, 2768, 4096, 4105, 4200, 9032, 9044].iter().all(|at| changed(*at) == 1);
        let wrong = differences(call, "text 28", &before) == 1 && differences(call, "majority 24", &before) == 1;
        checks.push((format!("checker, {call}"), right && touched && wrong));
    }
    checks
}
