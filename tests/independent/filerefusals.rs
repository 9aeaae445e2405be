//! The refusals of NEXUS files and of the trees in them, while lanes are in mid-text; all lent bytes are peeked before
//! and after.

use crate::files::file_of;
use crate::labels::{written_name, written_names};
use crate::maker::Maker;
use crate::refusals::faulty_texts;
use crate::verdict::MOST_BYTES;
use crate::words::hex;

/// 15 and 16 before 4; 4 in a list one verdict too short; the verdicts 6 to 10 and 17, alone and together.
pub fn files(maker: &mut Maker) {
    begin_lanes(maker);
    for room in ["room 0", "room 1", "room -"] {
        maker.ask(room);
        for line in refused_files(maker) {
            maker.watched(line);
        }
    }
    let texts = faulty_texts(maker);
    for text in &texts {
        nexus_of(maker, std::slice::from_ref(text));
    }
    for room in [0, texts.len() - 1, texts.len(), texts.len() + 1] {
        maker.ask(format!("room {room}"));
        nexus_of(maker, &texts);
    }
    nexus_of(maker, &[]);
    maker.ask("room -");
    end_lanes(maker);
}

/// The last lane ran over in open quotes, if it is not the first, which holds the front of a text.
pub fn begin_lanes(maker: &mut Maker) {
    maker.feed(maker.numbers.lanes - 1, &[&vec![b' '; MOST_BYTES], &b"'"[..]].concat());
    maker.close(0);
    maker.feed(0, b"(");
    maker.peek();
}

/// A lane that was touched would come to another verdict.
pub fn end_lanes(maker: &mut Maker) {
    let rest = written_names(&maker.names, b',');
    maker.feed(0, &[&rest[..], b");"].concat());
    maker.close(maker.numbers.lanes - 1);
    maker.peek();
}

/// A file that is malformed, one with a key listed twice, and one that is both, each with trees that are good.
pub fn refused_files(maker: &mut Maker) -> Vec<String> {
    let star = maker.star(&maker.names);
    let [first, second] = [written_name(&maker.names[0]), written_name(&maker.names[1])];
    let pair = |key: &[u8], name: &[u8]| [key, b" ", name].concat();
    let twice = [pair(b"1", &first), pair(b"2", &second), pair(b"1", &second)].join(&b',');
    let trees = [&b" TREE t="[..], &star, b"; TREE u=", &star, b"; "].concat();
    let file = |parts: &[&[u8]]| format!("nexus {}", hex(&parts.concat()));
    let head = b"#NEXUS BEGIN TREES; ";
    vec![
        file(&[]),
        file(&[head, &trees]),
        file(&[head, &trees, b"END; x"]),
        file(&[head, b"TRANSLATE ", &twice, b";", &trees, b"END;"]),
        file(&[head, b"TRANSLATE ", &twice, b",;", &trees, b"END;"]),
        file(&[head, b"TRANSLATE ", &twice, b";", &trees, b"TREE =A; END;"]),
        file(&[head, b"TRANSLATE ", &twice, b";", &trees, b"END; BEGIN x;"]),
        file(&[head, b"TRANSLATE ", &twice, b";", &trees, b"END; BEGIN x; '; END;"]),
        file(&[head, b"TRANSLATE ", &twice, b", 3 '';", &trees, b"END;"]),
        file(&[head, b"TRANSLATE ", &twice, b", '1' A;", &trees, b"END;"]),
        file(&[head, &trees, b"TREE 'v'=A; END;"]),
        file(&[head, &trees, b"TREE v='A; END;"]),
    ]
}

/// A file with exactly these texts.
fn nexus_of(maker: &mut Maker, texts: &[Vec<u8>]) {
    let file = file_of(&mut maker.random, &maker.names, texts);
    maker.nexus(&file);
    maker.peek();
}

/// 6 to 10 and 17 before 11, and 11 before 12.
pub fn files_at_full_rooms(maker: &mut Maker) {
    let mut texts = faulty_texts(maker);
    for _ in 0..4 {
        let text = maker.any_text();
        texts.insert(maker.random.below(texts.len()), text);
    }
    nexus_of(maker, &texts);
}
