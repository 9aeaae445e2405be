//! Scripts for a NEXUS file that is given, over names that are given: as it is, and damaged.

use crate::files::damage_bytes;
use crate::labels::split_outside;
use crate::maker::Maker;
use crate::nexus::plain_texts;
use crate::opening::{names_of, Numbers};
use crate::random::Random;

/// The most damaged files for one collection, so that it is not soon full.
const MOST_DAMAGED: usize = 20;

/// The plain texts of a file's trees between quotation marks, or the refusal, a line each.
pub fn texts_of(file: &[u8]) -> Vec<String> {
    match plain_texts(file) {
        Ok(texts) => {
            let shown = |text: &Vec<u8>| text.escape_ascii().to_string().replace("\\'", "'");
            texts.iter().map(|text| format!("\"{}\"", shown(text))).collect()
        }
        Err(refusal) => vec![format!("refused {refusal}")],
    }
}

/// The file while a lane is in mid-text, all lent bytes before and after it, and every question; no lengths are kept.
pub fn calls_of(names: &str, file: &[u8]) -> Vec<u8> {
    let mut maker = opened(Random::new(1), names, false);
    maker.nexus(file);
    maker.peek();
    maker.questions();
    maker.close(1);
    maker.script()
}

/// The file cut at each byte, and so many damages to it; lengths are kept or not.
pub fn damages_of(seed: u64, count: usize, names: &str, file: &[u8]) -> Vec<u8> {
    let mut random = Random::new(seed);
    let damaged = |_| {
        let mut bytes = file.to_vec();
        damage_bytes(&mut random, &mut bytes);
        bytes
    };
    let cuts = (0..file.len()).map(|long| file[..long].to_vec());
    let files: Vec<Vec<u8>> = (0..count).map(damaged).chain(cuts).collect();
    let mut out = Vec::new();
    for some in files.chunks(MOST_DAMAGED) {
        let lengths = random.one_in(2);
        let mut maker = opened(Random::new(random.next()), names, lengths);
        some.iter().for_each(|file| maker.nexus(file));
        maker.peek();
        maker.questions();
        out.extend(maker.script());
    }
    out
}

fn opened(random: Random, names: &str, lengths: bool) -> Maker {
    let taxa = split_outside(names.as_bytes(), b' ').len() as u64;
    let names = names_of(names.as_bytes(), taxa).expect("a list of names");
    let numbers = Numbers { taxa, lanes: 2, tree_room: 40, split_room: 60, places: 11, lengths };
    let mut maker = Maker::open(random, names, numbers, 1);
    maker.feed(1, b"('");
    maker.peek();
    maker
}
