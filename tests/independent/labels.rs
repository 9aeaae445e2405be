//! Labels and quotes, by entry 2026-02 of document 02: what a label reads as, how a name is written, and what stands
//! outside quotes.

use crate::text::is_label_byte;

/// The bytes that make a name be written in quotes: "an underscore or one of `( ) [ ] ' : ; ,`".
pub const MARKS: &[u8; 9] = b"_()[]':;,";

// Reading

/// What the quoted label in front reads as, and what stands behind it; none if there is none, if it does not end, is
/// empty, or holds a byte outside 32 to 126.
pub fn quoted_label(bytes: &[u8]) -> Option<(Vec<u8>, &[u8])> {
    let mut rest = bytes.strip_prefix(b"'")?;
    let mut label = Vec::new();
    loop {
        rest = match rest {
            // "Two quotes inside meaning one."
            [b'\'', b'\'', behind @ ..] => {
                label.push(b'\'');
                behind
            }
            [b'\'', behind @ ..] => return (!label.is_empty()).then_some((label, behind)),
            [b @ 32..=126, behind @ ..] => {
                label.push(*b);
                behind
            }
            _ => return None,
        };
    }
}

/// "An underscore in an unquoted label stands for a blank."
pub fn unquoted_label(token: &[u8]) -> Vec<u8> {
    token.iter().map(|b| if *b == b'_' { b' ' } else { *b }).collect()
}

/// What a label of exactly these bytes reads as; none if they are no label.
pub fn label(bytes: &[u8]) -> Option<Vec<u8>> {
    match quoted_label(bytes) {
        Some((label, behind)) => behind.is_empty().then_some(label),
        None => (!bytes.is_empty() && bytes.iter().all(|b| is_label_byte(*b))).then(|| unquoted_label(bytes)),
    }
}

// Outside quotes

/// Whether an odd number of apostrophes stands in these bytes.
pub fn is_odd(bytes: &[u8]) -> bool {
    bytes.iter().filter(|b| **b == b'\'').count() % 2 == 1
}

/// The first place where the sign stands behind an even number of apostrophes; `odd` says that an odd number came
/// before these bytes.
pub fn first_outside(odd: bool, bytes: &[u8], sign: u8) -> Option<usize> {
    let mut odd = odd;
    bytes.iter().position(|b| {
        odd ^= *b == b'\'';
        !odd && *b == sign
    })
}

/// The bytes between such places; they begin outside quotes.
pub fn split_outside(bytes: &[u8], sign: u8) -> Vec<&[u8]> {
    let mut parts = Vec::new();
    let mut rest = bytes;
    while let Some(at) = first_outside(false, rest, sign) {
        parts.push(&rest[..at]);
        rest = &rest[at + 1..];
    }
    parts.push(rest);
    parts
}

// Writing

/// The name in quotes.
pub fn quoted(name: &[u8]) -> Vec<u8> {
    let doubled = name.iter().flat_map(|b| if *b == b'\'' { vec![b'\'', b'\''] } else { vec![*b] });
    [b'\''].into_iter().chain(doubled).chain([b'\'']).collect()
}

/// The name without quotes, "blanks become underscores"; none if that would read as something else.
pub fn unquoted(name: &[u8]) -> Option<Vec<u8>> {
    let plain: Vec<u8> = name.iter().map(|b| if *b == b' ' { b'_' } else { *b }).collect();
    (label(&plain).as_deref() == Some(name)).then_some(plain)
}

/// "A written name is quoted exactly if it holds an underscore or one of `( ) [ ] ' : ; ,`."
pub fn written_name(name: &[u8]) -> Vec<u8> {
    if name.iter().any(|b| MARKS.contains(b)) {
        quoted(name)
    } else {
        name.iter().map(|b| if *b == b' ' { b'_' } else { *b }).collect()
    }
}

/// Names as they are written, with this between them.
pub fn written_names(names: &[Vec<u8>], between: u8) -> Vec<u8> {
    names.iter().map(|name| written_name(name)).collect::<Vec<Vec<u8>>>().join(&between)
}
