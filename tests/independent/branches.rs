//! Lengths by chance, in the exact range and outside it, in every way of writing.

use crate::lengthsamples::{ADDENDS, OUTSIDE, VALUES};
use crate::random::Random;

/// Short ones that come again, so that lengths of trees are equal, and cancel.
const OFTEN: [&str; 13] =
    ["0", "5.", ".5", "+.5e-3", "00", "1E5", "-1", "1e+10", "1e-10", "3.14159", "+0.0E-0", "1", "2"];

/// One of any kind; once in so many times one outside the exact range.
pub fn any_length(random: &mut Random, outside: usize) -> Vec<u8> {
    if random.one_in(outside) {
        return length_outside(random);
    }
    match random.below(10) {
        0..=4 => random.pick(&OFTEN).as_bytes().to_vec(),
        5..=6 => random.pick(&ADDENDS).as_bytes().to_vec(),
        7 => random.pick(&VALUES).0.as_bytes().to_vec(),
        _ => length_inside(random),
    }
}

/// A number up to 2^53, often near it, and a power from −22 to 22.
pub fn length_inside(random: &mut Random) -> Vec<u8> {
    let most = 10u64.pow(random.below(16) as u32);
    let near = (1 << 53) - random.next() % 3;
    let (small, any) = (random.next() % (most + 1), random.next() % (1 << 53));
    let whole = *random.pick(&[small, small, small, near, any]);
    let power = random.between(0, 44) as i64 - 22;
    let power = *random.pick(&[0, -3, power, power, -22, 22]);
    written_length(random, whole, power)
}

/// Past the largest number, past a power, or one of those by hand.
pub fn length_outside(random: &mut Random) -> Vec<u8> {
    let past = 1 + random.below(40) as u64;
    let power = random.between(0, 44) as i64 - 22;
    match random.below(4) {
        0 => written_length(random, (1 << 53) + past, power),
        1 => written_length(random, past, 22 + past as i64),
        2 => written_length(random, past, -22 - past as i64),
        _ => random.pick(&OUTSIDE).as_bytes().to_vec(),
    }
}

/// The number with its point anywhere and the exponent that this asks for; zeros before either, signs, and e or E.
fn written_length(random: &mut Random, whole: u64, power: i64) -> Vec<u8> {
    let zeros = *random.pick(&[0, 0, 0, 0, 1, 3, 30]);
    let digits = format!("{}{whole}", "0".repeat(zeros));
    let some = random.between(0, digits.len());
    let behind = *random.pick(&[0, 0, 1, some, digits.len()]);
    let (before, fraction) = digits.split_at(digits.len() - behind);
    let point = if behind > 0 || random.one_in(8) { "." } else { "" };
    let sign = *random.pick(&["", "", "", "", "", "+", "-", "-"]);
    let exponent = written_exponent(random, power + behind as i64);
    format!("{sign}{before}{point}{fraction}{exponent}").into_bytes()
}

fn written_exponent(random: &mut Random, exponent: i64) -> String {
    if exponent == 0 && !random.one_in(4) {
        return String::new();
    }
    let letter = *random.pick(&["e", "e", "E"]);
    let plus = if random.one_in(3) { "+" } else { "" };
    let sign = if exponent < 0 { "-" } else { plus };
    let zeros = "0".repeat(*random.pick(&[0, 0, 0, 1, 25]));
    format!("{letter}{sign}{zeros}{}", exponent.abs())
}
