//! Checks of release sheets and of the program `treesheet`: what is printed and told, by hand.

use crate::treesheet::{treesheet, Done, Files};

type Check = (String, bool);

pub fn sheet_checks() -> Vec<Check> {
    [sheets(), totals(), ends(), bad_uses(), matrices(), pieces()].concat()
}

/// Files in memory; what stands in for standard input is read once.
struct Shelf(Vec<(&'static str, String)>);

impl Files for Shelf {
    fn read(&mut self, name: &[u8], may_be_input: bool) -> Result<Vec<u8>, String> {
        let file = self.0.iter_mut().find(|(other, _)| other.as_bytes() == name && (may_be_input || *other != "-"));
        match file {
            Some((_, bytes)) if name == b"-" => Ok(std::mem::take(bytes).into_bytes()),
            Some((_, bytes)) => Ok(bytes.clone().into_bytes()),
            None => Err("No such file or directory".to_string()),
        }
    }
}

const FIVE: &str = "A B C D E\n";
const T0: &str = "((A,B),C,(D,E));";
const T1: &str = "((A,B),D,(C,E));";
const T2: &str = "((D,E),(C,(A,B)));";

fn shelf() -> Shelf {
    let seven = "(A,B,(C,(D,E)),(F,G));";
    let six = "(A,B,((C,D),(E,F)));";
    Shelf(vec![
        ("five", FIVE.to_string()),
        ("sample", format!("{T0}\n{T1}\n{T2}\n")),
        ("two", format!("{T0}{T1}")),
        ("star", "(A,B,C,D,E);".to_string()),
        ("mixed", format!("{T0} (A,B,C,D,X); {T1} {T2} (A,B")),
        ("-", T0.to_string()),
        ("nothing", " \n".to_string()),
        ("bad.nex", "#NEXUS BEGIN TREES; TREE".to_string()),
        ("keys.nex", "#NEXUS BEGIN TREES; TRANSLATE 1 A, 1 B; END;".to_string()),
        ("good.nex", format!("#NEXUS BEGIN TREES; TREE a = {T0} TREE b = (A,A,C,D,E); TREE c = {T2} END;")),
        ("seven.names", "A B C D E F G".to_string()),
        ("nested", "(D,((G,B),(E,(F,C))),A);".to_string()),
        ("seven", [seven, seven, "(A,B,(C,D,E),F,G);", seven].concat()),
        ("six.names", "A B C D E F\n(A,B,C);\n".to_string()),
        ("six", [six.repeat(10), "((A,B,C,D),E,F);".to_string(), "((A,B),E,F,(C,D));".to_string()].concat()),
        ("marks.names", "D 'a_b' a_b 'c d'\n".to_string()),
        ("marks", "((a_b,'a_b'),('c d',D));".to_string()),
        ("three.names", "A B C\n".to_string()),
        ("twice.names", "A B C D A\n".to_string()),
    ])
}

fn run(words: &[&str]) -> Done {
    run_with(words, &mut shelf())
}

fn run_with(words: &[&str], files: &mut Shelf) -> Done {
    let words: Vec<Vec<u8>> = words.iter().map(|word| word.as_bytes().to_vec()).collect();
    treesheet(&words, files)
}

/// The words, which one space parts (`~` stands for a blank in a word), and the sheet, without line ends at its ends.
const SHEETS: [(&str, &str); 21] = [
    (
        "five sample",
        "
taxa 5 trees 3 refused 0 splits 3
group 2 D E
group 3 C D E
majority (A,B,(C,(D,E)));
strict (A,B,(C,D,E));
+- A
+- B
+-3-+- C
    +-2-+- D
        +- E
",
    ),
    (
        "--splits five two",
        "
taxa 5 trees 2 refused 0 splits 3
group 2 C D E
majority (A,B,(C,D,E));
strict (A,B,(C,D,E));
+- A
+- B
+-2-+- C
    +- D
    +- E
20 1
24 1
28 2
",
    ),
    (
        "--splits --apart C five star",
        "
taxa 5 trees 1 refused 0 splits 0
majority (A,B,C,D,E);
strict (A,B,C,D,E);
+- A
+- B
+- C
+- D
+- E
apart A none
apart B none
apart D none
apart E none
",
    ),
    ("five nothing", "\ntaxa 5 trees 0 refused 0 splits 0\nmajority none\nstrict none\n"),
    (
        "--apart E --splits five nothing",
        "
taxa 5 trees 0 refused 0 splits 0
majority none
strict none
apart A none
apart B none
apart C none
apart D none
",
    ),
    ("--newick five nothing", "\n"),
    ("--newick five sample", "\n(A,B,(C,(D,E)));\n(A,B,(C,D,E));\n"),
    ("--newick seven.names seven", "\n(A,B,(C,(D,E)),(F,G));\n(A,B,(C,D,E),F,G);\n"),
    // A group in a group, another behind it
    (
        "--splits --apart D seven.names seven",
        "
taxa 7 trees 4 refused 0 splits 3
group 3 D E
group 4 C D E
group 3 F G
majority (A,B,(C,(D,E)),(F,G));
strict (A,B,(C,D,E),F,G);
+- A
+- B
+-4-+- C
|   +-3-+- D
|       +- E
+-3-+- F
    +- G
24 3
28 4
96 3
apart A none
apart B none
apart F none
apart G none
apart C 4 C D E
apart E 3 D E
",
    ),
    // The first strain of the list is in no group
    (
        "--apart A seven.names seven",
        "
taxa 7 trees 4 refused 0 splits 3
group 3 D E
group 4 C D E
group 3 F G
majority (A,B,(C,(D,E)),(F,G));
strict (A,B,(C,D,E),F,G);
+- A
+- B
+-4-+- C
|   +-3-+- D
|       +- E
+-3-+- F
    +- G
apart B none
apart C none
apart D none
apart E none
apart F none
apart G none
",
    ),
    // Groups in groups, their strains in another order than that of the list; D is in none beside the first strain
    (
        "--apart F seven.names nested",
        "
taxa 7 trees 1 refused 0 splits 4
group 1 C F
group 1 C E F
group 1 B G
group 1 B C E F G
majority (A,((B,G),((C,F),E)),D);
strict (A,((B,G),((C,F),E)),D);
+- A
+-1-+-1-+- B
|   |   +- G
|   +-1-+-1-+- C
|       |   +- F
|       +- E
+- D
apart A none
apart D none
apart B 1 B C E F G
apart G 1 B C E F G
apart E 1 C E F
apart C 1 C F
",
    ),
    (
        "--apart D seven.names nested nested",
        "
taxa 7 trees 2 refused 0 splits 4
group 2 C F
group 2 C E F
group 2 B G
group 2 B C E F G
majority (A,((B,G),((C,F),E)),D);
strict (A,((B,G),((C,F),E)),D);
+- A
+-2-+-2-+- B
|   |   +- G
|   +-2-+-2-+- C
|       |   +- F
|       +- E
+- D
apart A none
apart B none
apart C none
apart E none
apart F none
apart G none
",
    ),
    // Counts of two digits, bars within a group
    (
        "--apart F six.names six",
        "
taxa 6 trees 12 refused 0 splits 3
group 11 C D
group 11 E F
group 11 C D E F
majority (A,B,((C,D),(E,F)));
strict (A,B,C,D,E,F);
+- A
+- B
+-11-+-11-+- C
     |    +- D
     +-11-+- E
          +- F
apart A none
apart B none
apart C 11 C D E F
apart D 11 C D E F
apart E 11 E F
",
    ),
    // Another count, once the first ten are withdrawn: of two trees no group is the majority's but what both have
    (
        "--drop 10 --splits six.names six",
        "
taxa 6 trees 2 refused 0 splits 3
majority (A,B,C,D,E,F);
strict (A,B,C,D,E,F);
+- A
+- B
+- C
+- D
+- E
+- F
12 1
48 1
60 1
",
    ),
    // Names and labels
    (
        "--apart a_b marks.names marks",
        "
taxa 4 trees 1 refused 0 splits 1
group 1 'a_b' a_b
majority (D,('a_b',a_b),c_d);
strict (D,('a_b',a_b),c_d);
+- D
+-1-+- 'a_b'
|   +- a_b
+- c_d
apart D none
apart c_d none
apart a_b 1 'a_b' a_b
",
    ),
    (
        "--apart a~b marks.names marks marks",
        "
taxa 4 trees 2 refused 0 splits 1
group 2 'a_b' a_b
majority (D,('a_b',a_b),c_d);
strict (D,('a_b',a_b),c_d);
+- D
+-2-+- 'a_b'
|   +- a_b
+- c_d
apart D none
apart c_d none
apart 'a_b' 2 'a_b' a_b
",
    ),
    (
        "--apart c_d marks.names marks",
        "
taxa 4 trees 1 refused 0 splits 1
group 1 'a_b' a_b
majority (D,('a_b',a_b),c_d);
strict (D,('a_b',a_b),c_d);
+- D
+-1-+- 'a_b'
|   +- a_b
+- c_d
apart D none
apart 'a_b' none
apart a_b none
",
    ),
    // Files that are refused, and standard input, which is there once
    ("--newick five bad.nex - -", "\n(A,B,(C,(D,E)));\n(A,B,(C,(D,E)));\n"),
    ("--newick five good.nex", "\n(A,B,(C,(D,E)));\n(A,B,(C,(D,E)));\n"),
    ("--newick --drop 1 five mixed mixed", "\n(A,B,(C,D,E));\n(A,B,(C,D,E));\n"),
    (
        "five bad.nex mixed keys.nex",
        "
taxa 5 trees 3 refused 4 splits 3
group 2 D E
group 3 C D E
majority (A,B,(C,(D,E)));
strict (A,B,(C,D,E));
+- A
+- B
+-3-+- C
    +-2-+- D
        +- E
",
    ),
];

fn words_of(words: &str) -> Vec<String> {
    words.split(' ').map(|word| word.replace('~', " ")).collect()
}

fn run_words(words: &str) -> Done {
    let words = words_of(words);
    run(&words.iter().map(String::as_str).collect::<Vec<&str>>())
}

fn sheets() -> Vec<Check> {
    let right = |words: &str, sheet: &str| run_words(words).printed == sheet[1..].as_bytes();
    SHEETS.iter().map(|(words, sheet)| (format!("treesheet {words}"), right(words, sheet))).collect()
}

/// The words, the exit status, and what is told.
const TOTALS: [(&str, i32, &str); 17] = [
    ("five sample", 0, "3 trees taken, 0 refused, 0 withdrawn\n"),
    ("five nothing", 0, "0 trees taken, 0 refused, 0 withdrawn\n"),
    ("--newick five nothing nothing", 0, "0 trees taken, 0 refused, 0 withdrawn\n"),
    ("--drop 0 five sample", 0, "3 trees taken, 0 refused, 0 withdrawn\n"),
    ("--drop 2 five sample sample", 0, "2 trees taken, 0 refused, 4 withdrawn\n"),
    ("--drop 3 five sample star", 0, "0 trees taken, 0 refused, 4 withdrawn\n"),
    ("--drop 1000000 five sample", 0, "0 trees taken, 0 refused, 3 withdrawn\n"),
    ("--drop 0001 five -", 0, "0 trees taken, 0 refused, 1 withdrawn\n"),
    ("five - -", 0, "1 trees taken, 0 refused, 0 withdrawn\n"),
    (
        "five mixed",
        1,
        "mixed, tree 2: refused 8, a leaf names no taxon\nmixed, tree 5: refused 7, the text is malformed\n\
         3 trees taken, 2 refused, 0 withdrawn\n",
    ),
    (
        "--drop 2 five mixed",
        1,
        "mixed, tree 2: refused 8, a leaf names no taxon\nmixed, tree 5: refused 7, the text is malformed\n\
         2 trees taken, 2 refused, 1 withdrawn\n",
    ),
    (
        "--drop 4 five mixed",
        1,
        "mixed, tree 2: refused 8, a leaf names no taxon\nmixed, tree 5: refused 7, the text is malformed\n\
         0 trees taken, 2 refused, 3 withdrawn\n",
    ),
    (
        "--drop 9 five mixed",
        1,
        "mixed, tree 2: refused 8, a leaf names no taxon\nmixed, tree 5: refused 7, the text is malformed\n\
         0 trees taken, 2 refused, 3 withdrawn\n",
    ),
    (
        "--drop 1 five good.nex",
        1,
        "good.nex, tree 2: refused 9, a leaf names a taxon again\n1 trees taken, 1 refused, 1 withdrawn\n",
    ),
    (
        "five sample bad.nex keys.nex good.nex",
        1,
        "bad.nex: refused 15, the NEXUS file is malformed\nkeys.nex: refused 16, a key is listed twice\n\
         good.nex, tree 2: refused 9, a leaf names a taxon again\n5 trees taken, 3 refused, 0 withdrawn\n",
    ),
    ("five two two two two two two two two two two two", 0, "22 trees taken, 0 refused, 0 withdrawn\n"),
    (
        "seven.names sample",
        1,
        "sample, tree 1: refused 10, a taxon is missing\nsample, tree 2: refused 10, a taxon is missing\n\
         sample, tree 3: refused 10, a taxon is missing\n0 trees taken, 3 refused, 0 withdrawn\n",
    ),
];

fn totals() -> Vec<Check> {
    let right = |words: &str, status: i32, told: &str| {
        let done = run_words(words);
        done.status == status && done.told == told.as_bytes()
    };
    TOTALS
        .iter()
        .map(|(words, status, told)| (format!("treesheet {words}, told"), right(words, *status, told)))
        .collect()
}

/// The words with which nothing can be done, and what is told.
const ENDS: [(&str, &str); 14] = [
    ("gone sample", "gone: No such file or directory\n"),
    ("- sample", "-: No such file or directory\n"),
    ("five gone", "gone: No such file or directory\n"),
    ("five --splits sample", "--splits: No such file or directory\n"),
    ("five -x", "-x: No such file or directory\n"),
    ("-x five", "-x: No such file or directory\n"),
    (
        "--matrix out five bad.nex gone sample",
        "bad.nex: refused 15, the NEXUS file is malformed\ngone: No such file or directory\n",
    ),
    ("three.names sample", "three.names: refused 2, a number is out of range\n"),
    ("twice.names gone", "twice.names: refused 3, the name list is not different names of 1 to 32 bytes\n"),
    ("--apart X twice.names gone", "twice.names: refused 3, the name list is not different names of 1 to 32 bytes\n"),
    ("--apart X five gone", "treesheet: no strain X\n"),
    ("--apart 'A' five gone", "treesheet: no strain 'A'\n"),
    ("--apart 'c~d' marks.names marks", "treesheet: no strain 'c d'\n"),
    ("--apart  five gone", "treesheet: no strain \n"),
];

fn ended(done: &Done, told: &str) -> bool {
    done.status == 2 && done.told == told.as_bytes() && done.printed.is_empty() && done.matrix.is_none()
}

fn ends() -> Vec<Check> {
    let mut checks: Vec<Check> =
        ENDS.iter().map(|(words, told)| (format!("treesheet {words}"), ended(&run_words(words), told))).collect();
    let long = "x".repeat(4097);
    let untold = "treesheet: a name: File name too long\n";
    checks.push(("treesheet, names of a long name".to_string(), ended(&run(&[&long, "five"]), untold)));
    checks.push(("treesheet, a file of a long name".to_string(), ended(&run(&["five", &long]), untold)));
    let of_bytes = |front: &str, bytes: usize, words: &[&str]| {
        let file = format!("{front}{}", " ".repeat(bytes - front.len()));
        let done = run_with(words, &mut Shelf(vec![("five", FIVE.to_string()), ("x", file)]));
        ended(&done, "x: too long\n")
    };
    let nexus = "#NEXUS BEGIN TREES; END;";
    for (what, right) in [
        ("a long NEXUS file", of_bytes(nexus, 8_388_609, &["five", "x"])),
        ("the longest NEXUS file", !of_bytes(nexus, 8_388_608, &["five", "x"])),
        ("a long Newick file", !of_bytes(T0, 8_388_609, &["five", "x"])),
        ("long names", of_bytes(FIVE, 8_388_609, &["x", "five"])),
        ("the longest names", !of_bytes(FIVE, 8_388_608, &["x", "five"])),
    ] {
        checks.push((format!("treesheet, {what}"), right));
    }
    checks
}

const BAD_USES: [&str; 27] = [
    "five",
    "--splits",
    "--splits five",
    "--help",
    "--",
    "-- five sample",
    "--split five sample",
    "--splitss five sample",
    "--SPLITS five sample",
    "--splits=1 five sample",
    "--splits --splits five sample",
    "--newick --drop 1 --newick five sample",
    "--drop 1 --drop 1 five sample",
    "--apart A --apart A five sample",
    "--matrix a --matrix b five sample",
    "--newick --splits five sample",
    "--splits --newick five sample",
    "--apart A --newick five sample",
    "--newick --apart A five sample",
    "--drop five sample",
    "--drop -1 five sample",
    "--drop +1 five sample",
    "--drop 1x five sample",
    "--drop 1.0 five sample",
    "--drop 1000001 five sample",
    "--drop 18446744073709551617 five sample",
    "--drop  five sample",
];

fn bad_uses() -> Vec<Check> {
    let told = "treesheet [--matrix FILE] [--splits] [--drop N] [--newick] [--apart NAME] NAMES FILE..\n";
    let check = |words: &&str| (format!("treesheet {words}, bad use"), ended(&run_words(words), told));
    let none = ("treesheet without words, bad use".to_string(), ended(&run(&[]), told));
    let wanting = ["--matrix", "--drop", "--apart"];
    let last = |option: &&str| (format!("treesheet {option} alone, bad use"), ended(&run(&[option]), told));
    let long = "0".repeat(4097);
    let too_long = |option: &&str| {
        (format!("treesheet {option} with a long word, bad use"), ended(&run(&[option, &long, "five", "sample"]), told))
    };
    let with_words = wanting.iter().map(last).chain(wanting.iter().map(too_long));
    BAD_USES.iter().map(check).chain([none]).chain(with_words).collect()
}

fn matrices() -> Vec<Check> {
    let row = |i: usize, values: &str| format!("t{i}         {values}\n");
    let written = |words: &str| run_words(words).matrix;
    let is = |words: &str, path: &str, matrix: &str| written(words) == Some((path.into(), matrix.as_bytes().to_vec()));
    let three = ["3\n".to_string(), row(0, "0 2 0"), row(1, "2 0 2"), row(2, "0 2 0")].concat();
    let two = ["2\n".to_string(), row(0, "0 2"), row(1, "2 0")].concat();
    [
        ("treesheet --matrix", is("--matrix out five sample", "out", &three)),
        ("treesheet --matrix with --newick", is("--newick --matrix --splits five sample", "--splits", &three)),
        ("treesheet --matrix with --drop", is("--drop 1 --matrix out five mixed", "out", &two)),
        ("treesheet --matrix without trees", is("--matrix  five nothing", "", "0\n")),
        ("treesheet without --matrix", written("five sample").is_none()),
    ]
    .map(|(what, right)| (what.to_string(), right))
    .to_vec()
}

/// Trees are withdrawn after each piece, so that there is room for those of the next; of a NEXUS file after all of them.
fn pieces() -> Vec<Check> {
    let text = format!("{T0}{}", " ".repeat(100 - T0.len()));
    let texts = text.repeat(1500);
    // 1,024 texts, and one that ends at this byte
    let ends_at =
        |byte: usize| [" ".repeat(44), T0.to_string()].concat().repeat(1024) + &" ".repeat(byte - 61_456) + T0;
    let nexus = format!("#NEXUS BEGIN TREES; {} END;", format!("TREE t = {T0} ").repeat(1500));
    let last = |file: &str, drop: &str| {
        let mut files = Shelf(vec![("five", FIVE.to_string()), ("x", file.to_string())]);
        let told = run_with(&["--drop", drop, "five", "x"], &mut files).told;
        let told = String::from_utf8(told).expect("told in ASCII");
        told.lines().last().unwrap_or_default().to_string()
    };
    let is = |what: &str, file: &str, drop: &str, totals: &str| (what.to_string(), last(file, drop) == totals);
    vec![
        // 655 of them end in the first piece, 655 in the second
        is("treesheet, 1,500 texts", &texts, "0", "1024 trees taken, 476 refused, 0 withdrawn"),
        is("treesheet, 600 of 1,500 texts dropped", &texts, "600", "900 trees taken, 0 refused, 600 withdrawn"),
        is("treesheet, 400 of 1,500 texts dropped", &texts, "400", "1024 trees taken, 76 refused, 400 withdrawn"),
        is("treesheet, 656 of 1,500 texts dropped", &texts, "656", "844 trees taken, 0 refused, 656 withdrawn"),
        is("treesheet, 1,500 texts dropped", &texts, "1500", "0 trees taken, 0 refused, 1500 withdrawn"),
        is("treesheet, a piece's last text", &ends_at(65_536), "1", "1023 trees taken, 1 refused, 1 withdrawn"),
        is("treesheet, the next piece's first text", &ends_at(65_537), "1", "1024 trees taken, 0 refused, 1 withdrawn"),
        is(
            "treesheet, 600 trees of a NEXUS file dropped",
            &nexus,
            "600",
            "424 trees taken, 476 refused, 600 withdrawn",
        ),
    ]
}
