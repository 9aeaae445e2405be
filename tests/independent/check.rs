//! `check`: goes through a script of calls and the answers that it was given, and computes every answer again.

use crate::calls::{Learnt, Program};
use crate::words::lines;
use std::collections::BTreeMap;

/// The differences that are printed; all are counted.
const MOST_PRINTED: usize = 50;
/// The most bytes of a call or an answer that are printed.
const MOST_SHOWN: usize = 200;

/// Prints the differences and the counts; answers whether there are calls and no differences.
pub fn check(script: &[u8], answers: &[u8]) -> bool {
    let report = Report::of(script, answers);
    report.print();
    report.differences == 0 && !report.calls.is_empty()
}

#[derive(Default)]
pub struct Report {
    pub differences: usize,
    /// The first of them, to print.
    first: Vec<String>,
    /// Calls by kind.
    calls: BTreeMap<String, usize>,
    /// Refusals by kind of call and number.
    refusals: BTreeMap<(String, u32), usize>,
    /// Peeks after which all bytes of a store were known and found right.
    stores: usize,
    /// Pokes that left the store whole, and such that left it not whole.
    pokes: [usize; 2],
}

impl Report {
    pub fn of(script: &[u8], answers: &[u8]) -> Report {
        let mut report = Report::default();
        let mut program = Program::new();
        let calls = lines(script);
        report.compare_numbers(calls.len(), answers);
        for (at, (call, got)) in calls.iter().zip(lines(answers)).enumerate() {
            report.compare(&mut program, at + 1, call, got);
        }
        report
    }

    /// One line for each call, each with its end.
    fn compare_numbers(&mut self, calls: usize, answers: &[u8]) {
        let got = lines(answers).len();
        if calls != got {
            self.difference(0, b"", &format!("{calls} answers"), &format!("{got} answers"));
        }
        if answers.last().is_some_and(|b| *b != b'\n') {
            self.difference(got, b"", "a line end", "none");
        }
    }

    fn compare(&mut self, program: &mut Program, at: usize, call: &[u8], got: &[u8]) {
        self.look_at_bytes(program, at, call, got);
        let expected = program.answer(call);
        if expected != got {
            let (expected, got) = shown_from(first_other(&expected, got), &expected, got);
            self.difference(at, call, &expected, &got);
        }
        self.count(program, call, &expected);
    }

    fn look_at_bytes(&mut self, program: &mut Program, at: usize, call: &[u8], got: &[u8]) {
        match program.learn(call, got) {
            Learnt::Nothing => (),
            Learnt::Agrees => self.stores += 1,
            Learnt::NotWhole => self.difference(at, call, "a whole store", "bytes that are not whole"),
            Learnt::HoldsOther => self.difference(at, call, "the collection", "bytes that hold another"),
        }
    }

    fn difference(&mut self, at: usize, call: &[u8], expected: &str, got: &str) {
        self.differences += 1;
        if self.first.len() < MOST_PRINTED {
            self.first.push(format!("line {at}: {}\n    expected {expected}\n    got      {got}", shown(call)));
        }
    }

    fn count(&mut self, program: &Program, call: &[u8], expected: &[u8]) {
        let word = call.split(|b| *b == b' ').next().unwrap_or_default();
        let kind = if expected == b"bad line" { "bad-line".to_string() } else { shown(word) };
        for refusal in refusals_in(&kind, expected) {
            *self.refusals.entry((kind.clone(), refusal)).or_insert(0) += 1;
        }
        if let ("poke", Some(whole)) = (&kind[..], program.is_whole()) {
            self.pokes[usize::from(!whole)] += 1;
        }
        *self.calls.entry(kind).or_insert(0) += 1;
    }

    fn print(&self) {
        self.first.iter().for_each(|difference| println!("{difference}"));
        self.calls.iter().for_each(|(kind, count)| println!("calls {kind} {count}"));
        self.refusals.iter().for_each(|((kind, refusal), count)| println!("refused {kind} {refusal} {count}"));
        println!("stores {} whole-pokes {} other-pokes {}", self.stores, self.pokes[0], self.pokes[1]);
        println!("all {} differences {}", self.calls.values().sum::<usize>(), self.differences);
    }
}

/// The refusals of an answer: the last word of `refused ..`, or those among the verdicts of a batch or a file.
fn refusals_in(kind: &str, answer: &[u8]) -> Vec<u32> {
    let answer = String::from_utf8_lossy(answer);
    let number = |word: &str| word.parse().ok();
    match answer.strip_prefix("refused ") {
        Some(words) => words.split(' ').next_back().and_then(number).into_iter().collect(),
        None if matches!(kind, "batch" | "nexus") => {
            answer.split(' ').filter_map(|w| w.strip_prefix('-').and_then(number)).collect()
        }
        None => Vec::new(),
    }
}

fn first_other(a: &[u8], b: &[u8]) -> usize {
    a.iter().zip(b).take_while(|(x, y)| x == y).count()
}

/// Both from a little before the first byte that differs.
fn shown_from(at: usize, a: &[u8], b: &[u8]) -> (String, String) {
    let from = if at < MOST_SHOWN / 2 { 0 } else { at - MOST_SHOWN / 4 };
    let cut = |line: &[u8]| match from {
        0 => shown(line),
        _ => format!("(from byte {from}) {}", shown(&line[from..])),
    };
    (cut(a), cut(b))
}

fn shown(bytes: &[u8]) -> String {
    String::from_utf8_lossy(&bytes[..bytes.len().min(MOST_SHOWN)]).into_owned()
}
