//! The refusals of claims, each alone and before those that come behind it, while lanes are in mid-text; all lent bytes are
//! peeked before and after.

use crate::claims::claim_line;
use crate::filerefusals::{begin_lanes, end_lanes};
use crate::maker::Maker;
use crate::refusals::faulty_texts;
use crate::verdict::MOST_BYTES;

/// Claims with one or more faults, from 6 to 10; 17 is not asked.
pub fn refused_claims(maker: &mut Maker) -> Vec<String> {
    let star = maker.star(&maker.names);
    let long = [&star[..], &vec![b' '; MOST_BYTES + 1 - star.len()]].concat();
    let mut texts: Vec<Vec<u8>> = faulty_texts(maker).iter().map(|text| [text, &b";"[..]].concat()).collect();
    for end in [&b""[..], b";\n", b";;", b";'", b"';", b";(A,B);"] {
        texts.extend([[&star[..], end].concat(), [&long[..], end].concat()]);
    }
    texts.iter().map(|text| claim_line(text)).collect()
}

/// In a buffer of no element and of any, with such as are answered between them.
pub fn claims(maker: &mut Maker) {
    begin_lanes(maker);
    for room in ["room 0", "room -"] {
        maker.ask(room);
        for line in refused_claims(maker) {
            maker.watched(line);
            maker.claim_calls();
        }
        maker.peek();
    }
    end_lanes(maker);
}

/// Trees with new splits, where neither a tree nor a split has room; 11 and 12 are not asked.
pub fn claims_at_full_rooms(maker: &mut Maker) {
    for _ in 0..6 {
        let text = [maker.any_text(), b";".to_vec()].concat();
        maker.claim(&text);
        maker.claim_calls();
        maker.peek();
    }
}
