//! `read`: cases of texts, each with a semicolon behind it, to the verdict and the hash of the splits.
//!
//! Lines of the input: the name list; the first constants; the number of places; the second constants; then the
//! texts in hex, one a line.

use crate::hash::{identifier, place};
use crate::labels::first_outside;
use crate::opening::{open, Numbers, Opening};
use crate::verdict::{judge, Masks};
use crate::words::{bytes, lines, list, number};

/// The answers, a line each; `more` where quotes hide the semicolon, `bad line` for a line that is not as said above,
/// `opening refused K` for a bad head.
pub fn read(input: &[u8]) -> Vec<String> {
    let lines = lines(input);
    let [names, first, places, second, texts @ ..] = &lines[..] else {
        return vec!["bad line".to_string()];
    };
    let (Some(first), Some(places), Some(second)) = (list(first), number(places), list(second)) else {
        return vec!["bad line".to_string()];
    };
    match opened(names, &first, places, &second) {
        Err(refusal) => vec![format!("opening refused {refusal}")],
        Ok(opening) => texts.iter().map(|line| answer(&opening, line)).collect(),
    }
}

/// The names are counted as the constants are; the rooms are the largest.
fn opened(names: &[u8], first: &[u64], places: u64, second: &[u64]) -> Result<Opening, u32> {
    let taxa = first.len() as u64;
    let numbers = Numbers { taxa, lanes: 1, tree_room: 1024, split_room: 4096, places, lengths: false };
    open(numbers, names, first, second, u64::MAX)
}

fn answer(opening: &Opening, line: &[u8]) -> String {
    let Some(text) = bytes(line) else {
        return "bad line".to_string();
    };
    let text = [&text[..], b";"].concat();
    let Some(end) = first_outside(false, &text, b';') else {
        return "more".to_string();
    };
    match judge(&opening.names, &text[..end]) {
        Err(refusal) => format!("refused {refusal}"),
        Ok(splits) => splits_line(opening, &splits),
    }
}

fn splits_line(opening: &Opening, splits: &Masks) -> String {
    let mut out = "splits".to_string();
    for mask in splits {
        let place = place(*mask, &opening.first, opening.numbers.places);
        let identifier = identifier(*mask, &opening.second);
        out.push_str(&format!(" {mask}:{place}:{identifier}"));
    }
    out
}
