//! The summary program `treesum`.

use crate::collection::{Collection, Fed};
use crate::labels::split_outside;
use crate::opening::{open, Numbers};

const TREE_ROOM: u64 = 48;
const SPLIT_ROOM: u64 = 256;

/// What `treesum` writes for this input.
pub fn treesum(input: &[u8]) -> Vec<u8> {
    let line_end = input.iter().position(|b| *b == b'\n');
    let (line, texts) = match line_end {
        Some(at) => (&input[..at], &input[at + 1..]),
        None => (input, &input[input.len()..]),
    };
    match opened(line) {
        Err(refusal) => format!("names refused {refusal}\n").into_bytes(),
        Ok(mut collection) => {
            let refused = fed(&mut collection, texts);
            sheet(&collection, refused)
        }
    }
}

/// "The names are counted as spaces plus one", those outside quotes; "a count outside 4 to 64 gives 2, any other
/// fault 3".
/// The constants decide nothing that is written here.
fn opened(line: &[u8]) -> Result<Collection, u32> {
    let taxa = split_outside(line, b' ').len() as u64;
    let numbers = Numbers { taxa, lanes: 1, tree_room: TREE_ROOM, split_room: SPLIT_ROOM, places: 1, lengths: false };
    let zeros = vec![0; taxa as usize];
    open(numbers, line, &zeros, &zeros, u64::MAX).map(Collection::new)
}

/// Feeds all texts, closes the lane, and counts the refused ones, "a refused closing included".
fn fed(collection: &mut Collection, texts: &[u8]) -> u64 {
    let mut refused = 0;
    let mut rest = texts;
    while !rest.is_empty() {
        let taken = match collection.feed(0, rest) {
            Fed::More { taken } | Fed::Accepted { taken, .. } => taken,
            Fed::Refused { taken, .. } => {
                refused += 1;
                taken
            }
        };
        rest = &rest[taken..];
    }
    if collection.close(0).is_err() {
        refused += 1;
    }
    refused
}

fn sheet(collection: &Collection, refused: u64) -> Vec<u8> {
    let trees = collection.number_of_trees();
    let counts = collection.counts();
    let mut lines: Vec<Vec<u8>> = Vec::new();
    let taxa = collection.opening().names.len();
    lines.push(format!("taxa {taxa} trees {trees} refused {refused} splits {}", counts.len()).into_bytes());
    lines.extend(counts.iter().map(|(mask, count)| format!("{mask} {count}").into_bytes()));
    let matrix = collection.matrix(usize::MAX).unwrap_or_default();
    lines.extend(matrix.chunks(trees.max(1)).map(row));
    lines.push(tree_line(b"majority ", collection.majority_text(usize::MAX)));
    lines.push(tree_line(b"strict ", collection.strict_text(usize::MAX)));
    lines.into_iter().flat_map(|line| [line, b"\n".to_vec()].concat()).collect()
}

fn row(distances: &[u64]) -> Vec<u8> {
    let words: Vec<String> = distances.iter().map(u64::to_string).collect();
    words.join(" ").into_bytes()
}

fn tree_line(word: &[u8], text: Result<Vec<u8>, u32>) -> Vec<u8> {
    [word, &text.unwrap_or_else(|_| b"none".to_vec())].concat()
}
