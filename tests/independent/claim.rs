//! A claim that a text is the majority tree, of entry 2026-08: "Accept it exactly when its splits are the majority splits,
//! however it is rooted."

use crate::labels::split_outside;
use crate::verdict::{judge, Masks, MOST_BYTES};

#[derive(Debug, PartialEq)]
pub enum Claim {
    Same,
    /// "The smallest mask that is in one set alone, and which set": the text's, or the majority's.
    Text(u64),
    Majority(u64),
}

/// 6 to 10, then the claim beside the majority splits. Neither lengths nor rooms are asked.
pub fn claim(names: &[Vec<u8>], text: &[u8], majority: &Masks) -> Result<Claim, u32> {
    let claimed = judge(names, before_its_semicolon(text)?)?;
    let alone = claimed.symmetric_difference(majority).min();
    Ok(match alone {
        None => Claim::Same,
        Some(mask) if claimed.contains(mask) => Claim::Text(*mask),
        Some(mask) => Claim::Majority(*mask),
    })
}

/// "The text must end with its only semicolon outside quotes, else 7; 6 counts the bytes before the first such, or all."
fn before_its_semicolon(text: &[u8]) -> Result<&[u8], u32> {
    let parts = split_outside(text, b';');
    if parts[0].len() > MOST_BYTES {
        return Err(6);
    }
    match parts[..] {
        [before, b""] => Ok(before),
        _ => Err(7),
    }
}
