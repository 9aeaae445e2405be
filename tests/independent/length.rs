//! The value of a length, by entry 2026-03 of document 02: "that number as a double times or divided by the power of
//! ten, rounded once".

use crate::big::Big;
use crate::double::Double;

/// "A whole number of at most 2^53."
const MOST_WHOLE: u64 = 1 << 53;
/// "Its power of ten lies from −22 to 22."
const MOST_POWER: u64 = 22;

/// The value of a token that is a length; none outside the exact range.
pub fn value(token: &[u8]) -> Option<Double> {
    let (decimal, exponent) = match token.iter().position(|b| matches!(b, b'e' | b'E')) {
        None => (token, &b"0"[..]),
        Some(at) => (&token[..at], &token[at + 1..]),
    };
    let whole = Big::of(Big::of_digits(&digits_of(decimal)).at_most(MOST_WHOLE)?);
    let (divides, power) = power_of_ten(exponent, digits_behind_the_point(decimal))?;
    let (above, below) = match divides {
        true => (whole, Big::of(1).times_ten(power)),
        false => (whole.times_ten(power), Big::of(1)),
    };
    Some(Double::nearest(has_minus(decimal), &above, &below))
}

fn has_minus(part: &[u8]) -> bool {
    part.first() == Some(&b'-')
}

/// "A length's digits without the point."
fn digits_of(part: &[u8]) -> Vec<u8> {
    part.iter().copied().filter(u8::is_ascii_digit).collect()
}

fn digits_behind_the_point(decimal: &[u8]) -> u64 {
    decimal.iter().position(|b| *b == b'.').map_or(0, |point| decimal.len() - point - 1) as u64
}

/// The exponent less the digits behind the point: whether it is below 0, and its size; none outside the range.
fn power_of_ten(exponent: &[u8], behind: u64) -> Option<(bool, u64)> {
    let (size, behind) = (Big::of_digits(&digits_of(exponent)), Big::of(behind));
    let (divides, power) = match (has_minus(exponent), size >= behind) {
        (true, _) => (true, size.plus(&behind)),
        (false, true) => (false, size.minus(&behind)),
        (false, false) => (true, behind.minus(&size)),
    };
    Some((divides, power.at_most(MOST_POWER)?))
}
