//! Two runs beside each other: the same verdicts, or the same answers.

use crate::words::lines;

/// A script, and what it was answered with.
pub struct Run<'a> {
    pub script: &'a [u8],
    pub answers: &'a [u8],
}

type Pair<'a> = (&'a [u8], &'a [u8]);

impl<'a> Run<'a> {
    /// Each call with its answer; none if there are not as many answers as calls.
    fn pairs(&self) -> Vec<Pair<'a>> {
        let (calls, answers) = (lines(self.script), lines(self.answers));
        if calls.len() != answers.len() {
            return Vec::new();
        }
        calls.into_iter().zip(answers).collect()
    }

    /// The verdicts, closings and withdrawals in their order, and all answers behind the last `room`; none if there is none of either.
    fn outcome(&self) -> Vec<String> {
        let pairs = self.pairs();
        let last = pairs.iter().rposition(|(call, _)| kind(call) == b"room");
        let behind: Vec<String> =
            last.map_or(&[][..], |at| &pairs[at + 1..]).iter().map(|(_, answer)| text(answer)).collect();
        let verdicts: Vec<String> = pairs.iter().flat_map(verdicts_of).collect();
        if verdicts.is_empty() || behind.is_empty() {
            return Vec::new();
        }
        [verdicts, behind].concat()
    }
}

/// The calls whose answers may depend on the number of places, the constants or the layout.
const OPEN_TO_CHANGE: [&[u8]; 3] = [b"size", b"collisions", b"peek"];

fn kind(call: &[u8]) -> &[u8] {
    call.split(|b| *b == b' ').next().unwrap_or_default()
}

fn text(bytes: &[u8]) -> String {
    String::from_utf8_lossy(bytes).into_owned()
}

/// Without the bytes taken, which depend on how the texts were cut.
fn verdicts_of((call, answer): &Pair) -> Vec<String> {
    let answer = text(answer);
    let words: Vec<&str> = answer.split(' ').collect();
    match (kind(call), &words[..]) {
        (b"feed", ["more", _]) => Vec::new(),
        (b"feed", ["accepted", _, tree]) => vec![tree.to_string()],
        (b"feed", ["refused", _, refusal]) => vec![format!("-{refusal}")],
        (b"batch", ["batch", verdicts @ .., "taken", _]) => verdicts.iter().map(|word| word.to_string()).collect(),
        (b"nexus", ["nexus", verdicts @ ..]) => verdicts.iter().map(|word| word.to_string()).collect(),
        (b"feed" | b"batch" | b"nexus" | b"close" | b"withdraw", _) => vec![format!("{} {answer}", text(kind(call)))],
        _ => Vec::new(),
    }
}

/// Whether both runs came to the same verdicts, closings, withdrawals and last answers.
pub fn same_verdicts(a: &Run, b: &Run) -> bool {
    same_lines(&a.outcome(), &b.outcome())
}

/// Whether the answers to the same calls are equal, save those that may depend on places and constants.
pub fn same_answers(a: &Run, b: &Run) -> bool {
    let kept = |run: &Run| -> Vec<String> {
        let pairs = run.pairs().into_iter().filter(|(call, _)| !OPEN_TO_CHANGE.contains(&kind(call)));
        pairs.map(|(call, answer)| format!("{}: {}", text(kind(call)), text(answer))).collect()
    };
    same_lines(&kept(a), &kept(b))
}

/// Prints the first difference, if there is one. Two runs of nothing are not the same.
fn same_lines(a: &[String], b: &[String]) -> bool {
    let alike = a.iter().zip(b).take_while(|(x, y)| x == y).count();
    let line = |of: &[String]| of.get(alike).map_or("nothing".to_string(), |line| line.chars().take(200).collect());
    if a != b {
        println!("the {}th differs: {} and {}", alike + 1, line(a), line(b));
    }
    a == b && !a.is_empty()
}
