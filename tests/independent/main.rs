//! An independent calculation of every answer, to compare the proved programs with. It is written from document 01,
//! entries 2026-01 to 2026-03 and 2026-05 to 2026-08 of document 02 and the settled points, and shares nothing with the code that it is compared with.

mod big;
mod branches;
mod calls;
mod changes;
mod check;
mod claim;
mod claimcheck;
mod claimrefusals;
mod claims;
mod claimscript;
mod collection;
mod compare;
mod consensus;
mod damage;
mod damaging;
mod double;
mod edges;
mod filecheck;
mod filelimits;
mod filerefusals;
mod files;
mod filesamples;
mod filescript;
mod generator;
mod givenfiles;
mod grow;
mod hash;
mod labels;
mod layout;
mod length;
mod lengthcheck;
mod lengthsamples;
mod lengthscript;
mod limits;
mod maker;
mod memory;
mod mixed;
mod nexus;
mod nightjob;
mod oddities;
mod opening;
mod parts;
mod phylip;
mod phylipcheck;
mod phyliprefusals;
mod phylips;
mod phylipscript;
mod question;
mod quotecheck;
mod quotes;
mod quotesamples;
mod random;
mod reading;
mod refusals;
mod release;
mod rooting;
mod script;
mod selfcheck;
mod sets;
mod sheetcheck;
mod sheetfiles;
mod splitfile;
mod splitfilecheck;
mod splitfilerefusals;
mod splitfiles;
mod splitfilescript;
mod starters;
mod storecheck;
mod stores;
mod summary;
mod text;
mod treesheet;
mod verdict;
mod weights;
mod whole;
mod withdrawals;
mod withdrawcheck;
mod withdrawrefusals;
mod words;

use compare::Run;
use nightjob::{Done, Given};
use std::io::{Read, Write};

fn main() {
    // The words of `treesheet` may be any bytes.
    if std::env::args_os().nth(1).is_some_and(|word| word == "treesheet") {
        std::process::exit(sheetfiles::run(std::env::args_os().skip(2).collect()));
    }
    let words: Vec<String> = std::env::args().skip(1).collect();
    let words: Vec<&str> = words.iter().map(String::as_str).collect();
    match words[..] {
        ["edges"] => print_lines(&edges::edges()),
        ["read"] => print_lines(&reading::read(&input())),
        ["treesum"] => print(&summary::treesum(&input())),
        ["treecalls"] => print(&calls::treecalls(&input())),
        ["nexus-texts"] => print_lines(&givenfiles::texts_of(&input())),
        ["nexus-calls", names, nexus] => print(&givenfiles::calls_of(names, &file(nexus))),
        ["nexus-damages", seed, count, names, nexus] => nexus_damages(seed, count, names, &file(nexus)),
        ["nightjob", "write", out, names, trees] => {
            let [a, b] = [names, trees].map(file);
            night_job(out, &nightjob::written_trees(&given(names, &a), &given(trees, &b)));
        }
        ["nightjob", "merge", out, names, first, second] => {
            let [a, b, c] = [names, first, second].map(file);
            night_job(out, &nightjob::merged(&given(names, &a), &given(first, &b), &given(second, &c)));
        }
        ["nightjob", "show", names, splits] => {
            let [a, b] = [names, splits].map(file);
            night_job("", &nightjob::shown(&given(names, &a), &given(splits, &b)));
        }
        ["starter-names"] => print(&starters::name_list()),
        ["selfcheck"] => finish(selfcheck::selfcheck()),
        ["check", script, answers] => finish(check::check(&file(script), &file(answers))),
        ["same-verdicts", a, b, c, d] => finish(beside(compare::same_verdicts, [a, b, c, d])),
        ["same-answers", a, b, c, d] => finish(beside(compare::same_answers, [a, b, c, d])),
        ["damaged", seed, count, script, answers] => damaged(seed, count, &file(script), &file(answers)),
        [maker, seed, count] => generated(maker, seed, count),
        _ => usage(),
    }
}

type Make = fn(u64, usize) -> Vec<u8>;

/// The generators by their words.
fn maker(word: &str) -> Option<Make> {
    Some(match word {
        "texts" => generator::texts,
        "sheet" => generator::sheet,
        "calls" => script::calls,
        "refusals" => refusals::refusals,
        "stores" => stores::stores,
        "made" => stores::made,
        "nexus" => filescript::nexus,
        "quotes" => quotes::quotes,
        "lengths" => lengthscript::lengths,
        "withdrawals" => withdrawals::withdrawals,
        "splitfiles" => splitfilescript::splitfiles,
        "phylips" => phylipscript::phylips,
        "claims" => claimscript::claims,
        "starters" => starters::run,
        "limits" => limits::limits,
        "largest" => limits::largest,
        "oddities" => oddities::oddities,
        _ => return mixed::way(word),
    })
}

/// Prints what a generator makes, and the seed beside it.
fn generated(word: &str, seed: &str, count: &str) {
    let (Some(make), Ok(seed), Ok(count)) = (maker(word), seed.parse(), count.parse()) else {
        return usage();
    };
    eprintln!("seed {seed}");
    print(&make(seed, count));
}

fn damaged(seed: &str, count: &str, script: &[u8], answers: &[u8]) {
    let (Ok(seed), Ok(count)) = (seed.parse(), count.parse()) else {
        return usage();
    };
    eprintln!("seed {seed}");
    print(&damaging::damaged(seed, count, script, answers));
}

fn nexus_damages(seed: &str, count: &str, names: &str, nexus: &[u8]) {
    let (Ok(seed), Ok(count)) = (seed.parse(), count.parse()) else {
        return usage();
    };
    eprintln!("seed {seed}");
    print(&givenfiles::damages_of(seed, count, names, nexus));
}

/// Two scripts, each with its answers behind it.
fn beside(same: fn(&Run, &Run) -> bool, names: [&str; 4]) -> bool {
    let files = names.map(file);
    let [a, b, c, d] = &files;
    same(&Run { script: a, answers: b }, &Run { script: c, answers: d })
}

fn given<'a>(name: &'a str, bytes: &'a [u8]) -> Given<'a> {
    Given { name, bytes }
}

/// Does what a run of `splitfiles` does.
fn night_job(out: &str, done: &Done) {
    print(&done.printed);
    eprint!("{}", done.told);
    if let Some(bytes) = &done.file {
        std::fs::write(out, bytes).unwrap_or_else(|fault| panic!("{out}: {fault}"));
    }
    std::process::exit(done.status);
}

/// What fails is an exit status of 1.
fn finish(all_ok: bool) {
    if !all_ok {
        std::process::exit(1);
    }
}

fn usage() {
    eprintln!("edges | read | treesum | treecalls | selfcheck | check SCRIPT ANSWERS");
    eprintln!("same-verdicts SCRIPT ANSWERS SCRIPT ANSWERS | same-answers SCRIPT ANSWERS SCRIPT ANSWERS");
    eprintln!("nexus-texts | nexus-calls NAMES FILE | nexus-damages SEED COUNT NAMES FILE");
    eprintln!("nightjob write OUT NAMES TREES | nightjob merge OUT NAMES A B | nightjob show NAMES FILE");
    eprintln!("treesheet [--matrix FILE] [--splits] [--drop N] [--newick] [--apart NAME] NAMES FILE.. | starter-names");
    eprintln!("GENERATOR SEED COUNT | damaged SEED COUNT SCRIPT ANSWERS, a generator being");
    eprintln!("texts | sheet | calls | mixed | whole | batched | filed | zeros | refusals | stores | made | nexus");
    eprintln!(
        "quotes | lengths | withdrawals | splitfiles | phylips | claims | limits | largest | oddities | starters"
    );
    std::process::exit(2);
}

fn file(name: &str) -> Vec<u8> {
    std::fs::read(name).unwrap_or_else(|fault| panic!("{name}: {fault}"))
}

fn input() -> Vec<u8> {
    let mut bytes = Vec::new();
    std::io::stdin().lock().read_to_end(&mut bytes).expect("standard input can be read");
    bytes
}

fn print_lines(lines: &[String]) {
    let text: String = lines.iter().map(|line| format!("{line}\n")).collect();
    print(text.as_bytes());
}

fn print(bytes: &[u8]) {
    std::io::stdout().lock().write_all(bytes).expect("standard output can be written");
}
