//! The refusals of split files: each in each place that can give it, alone and before those that come behind it.

use crate::collection::Collection;
use crate::splitfile::{file_of, Record, MOST};
use crate::words::hex;

/// Two trees have the split of the taxa 1 and 2.
const GOOD: Record = Record { mask: 6, count: 2, trees: 2 };
/// It disagrees with the other.
const OTHER: Record = Record { mask: 10, count: 2, trees: 2 };

/// Files of a wrong length, some with wrong records too.
fn wrong_lengths() -> Vec<Vec<u8>> {
    let (good, bad) = (file_of(&[GOOD]), file_of(&[Record { count: 0, ..GOOD }]));
    let longer = |file: &[u8]| [file, &[0]].concat();
    vec![vec![0], good[..15].to_vec(), longer(&good), longer(&bad), [&bad[..], &good[1..]].concat()]
}

/// Files with a record that is improper or out of order.
fn wrong_records() -> Vec<Vec<u8>> {
    let files = [
        vec![Record { mask: 0, ..GOOD }],
        vec![Record { mask: 7, ..GOOD }],
        vec![Record { count: 0, ..GOOD }],
        vec![Record { count: 3, ..GOOD }],
        vec![GOOD, Record { trees: 3, ..OTHER }],
        vec![OTHER, GOOD],
        vec![GOOD, OTHER, OTHER],
    ];
    files.iter().map(|records| file_of(records)).collect()
}

/// Lines that are refused in buffers of any length: 19 and 20, of a merge for the first file and then for the second,
/// before all else; 14, 21, 22 and 23 before 4.
pub fn refused_split_files() -> Vec<String> {
    let (lengths, records) = (wrong_lengths(), wrong_records());
    let (good, full) = (file_of(&[GOOD]), file_of(&[Record { mask: 6, count: MOST, trees: MOST }]));
    let mut merges = vec![(Vec::new(), Vec::new()), (Vec::new(), good.clone()), (good.clone(), Vec::new())];
    merges.extend([(full.clone(), good.clone()), (file_of(&[OTHER]), full.clone()), (full.clone(), full)]);
    let mut lines = Vec::new();
    for wrong in lengths.iter().chain(&records) {
        let file = hex(wrong);
        lines.extend([format!("records {file}"), format!("file-strict {file}"), format!("file-majority {file}")]);
        merges.extend([&good, &Vec::new(), &lengths[0], &records[2]].map(|other| (wrong.clone(), other.clone())));
        merges.extend([&good, &Vec::new()].map(|other| (other.clone(), wrong.clone())));
    }
    lines.extend(merges.iter().map(|(first, second)| format!("merge {} {}", hex(first), hex(second))));
    let disagreeing = hex(&file_of(&[GOOD, OTHER]));
    for file in ["-", &disagreeing] {
        lines.extend([format!("file-strict {file}"), format!("file-majority {file}")]);
    }
    lines
}

/// Each call that writes a file or reads one into buffers, and the elements of its answer.
pub fn file_answers_with_lengths(held: &Collection) -> Vec<(String, usize)> {
    let all = usize::MAX;
    let (own, other) = (held.file(all).unwrap_or_default(), file_of(&[GOOD]));
    let mut out = vec![("file".to_string(), own.len())];
    for file in [&own[..], &other] {
        let records = held.records(file, all).map_or(0, |splits| splits.counts.len());
        let long = |text: Result<Vec<u8>, u32>| text.map_or(0, |bytes| bytes.len());
        out.push((format!("records {}", hex(file)), records));
        out.push((format!("merge {} {}", hex(file), hex(&other)), long(held.merge(file, &other, all))));
        out.push((format!("merge {} {}", hex(&other), hex(file)), long(held.merge(&other, file, all))));
        out.push((format!("file-strict {}", hex(file)), long(held.file_strict(file, all))));
        out.push((format!("file-majority {}", hex(file)), long(held.file_majority(file, all))));
    }
    out
}
