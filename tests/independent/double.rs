//! Doubles as their 64 bits: a fraction rounded once, sums and differences rounded once, and their order. No operation
//! of the machine on doubles is used.

use crate::big::Big;

#[derive(Clone, Copy, Debug, PartialEq, Eq)]
pub struct Double(pub u64);

/// The bits that stand for no length in a store; they are no number.
pub const NO_LENGTH: u64 = u64::MAX;

const SIGN: u64 = 1 << 63;
const INFINITY: u64 = 0x7ff << 52;
/// A mantissa has 53 binary digits; the least power of two that one is multiplied by, and the most.
const MANTISSA_DIGITS: usize = 53;
const LEAST_POWER: i64 = -1074;
const MOST_POWER: i64 = 971;

impl Double {
    pub const ZERO: Double = Double(0);

    /// The double nearest to a fraction, with this sign; of two as near the one whose last bit is 0. Zero is plus zero,
    /// and what is past the largest is infinite.
    pub fn nearest(negative: bool, above: &Big, below: &Big) -> Double {
        if above.is_zero() {
            return Double::ZERO;
        }
        let power = power_of(above, below);
        let (mantissa, power) = match rounded(above, below, power) {
            carried if carried == 1 << MANTISSA_DIGITS => (carried / 2, power + 1),
            mantissa => (mantissa, power),
        };
        let bits = match mantissa.checked_sub(1 << 52) {
            // The hidden bit is not there.
            None => mantissa,
            Some(_) if power > MOST_POWER => INFINITY,
            Some(shown) => ((power - LEAST_POWER + 1) as u64) << 52 | shown,
        };
        Double(bits | if negative { SIGN } else { 0 })
    }

    /// "Its 64 bits in 16 lower-case hex digits, the highest first."
    pub fn word(self) -> String {
        format!("{:016x}", self.0)
    }

    pub fn is_negative(self) -> bool {
        self.0 & SIGN != 0
    }

    pub fn is_finite(self) -> bool {
        self.0 & INFINITY != INFINITY
    }

    pub fn is_minus_zero(self) -> bool {
        self.0 == SIGN
    }

    /// Without its sign.
    pub fn size(self) -> Double {
        Double(self.0 & !SIGN)
    }

    pub fn negated(self) -> Double {
        Double(self.0 ^ SIGN)
    }

    /// The mantissa of a finite one, and the power of two that it is multiplied by.
    fn parts(self) -> (u64, i64) {
        let (exponent, shown) = ((self.size().0 >> 52) as i64, self.0 & ((1 << 52) - 1));
        match exponent {
            0 => (shown, LEAST_POWER),
            _ => (shown | 1 << 52, LEAST_POWER - 1 + exponent),
        }
    }

    /// The sum, rounded once. One that is infinite stays, as the other is finite.
    pub fn plus(self, other: Double) -> Double {
        match (self.is_finite(), other.is_finite()) {
            (false, _) => self,
            (_, false) => other,
            _ => finite_sum(self, other),
        }
    }

    /// The difference, rounded once.
    pub fn minus(self, other: Double) -> Double {
        self.plus(other.negated())
    }

    /// What orders doubles by their values.
    pub fn rank(self) -> i128 {
        let size = i128::from(self.size().0);
        if self.is_negative() {
            -size
        } else {
            size
        }
    }
}

/// The power of two by which a mantissa of 53 digits is multiplied to come near the fraction, or the least.
fn power_of(above: &Big, below: &Big) -> i64 {
    let digits = MANTISSA_DIGITS as i64;
    let power = above.digits() as i64 - below.digits() as i64 - digits;
    // The quotient has 53 or 54 digits.
    let (scaled, unit) = scaled(above, below, power);
    let one_more = scaled >= unit.doubled(MANTISSA_DIGITS);
    (power + i64::from(one_more)).max(LEAST_POWER)
}

/// The fraction divided by a power of two, as a fraction.
fn scaled(above: &Big, below: &Big, power: i64) -> (Big, Big) {
    let times = power.unsigned_abs() as usize;
    if power < 0 {
        (above.doubled(times), below.clone())
    } else {
        (above.clone(), below.doubled(times))
    }
}

/// The whole number nearest to the fraction divided by the power of two, of two the even one.
fn rounded(above: &Big, below: &Big, power: i64) -> u64 {
    let (scaled, unit) = scaled(above, below, power);
    let (whole, rest) = scaled.divided(&unit);
    let twice = rest.doubled(1);
    whole + u64::from(twice > unit || (twice == unit && whole % 2 == 1))
}

/// Both as whole numbers over the same power of two.
fn finite_sum(a: Double, b: Double) -> Double {
    let ((of_a, power_a), (of_b, power_b)) = (a.parts(), b.parts());
    let least = power_a.min(power_b);
    let whole = |mantissa: u64, power: i64| Big::of(mantissa).doubled((power - least) as usize);
    let (of_a, of_b) = (whole(of_a, power_a), whole(of_b, power_b));
    let (negative, sum) = match (a.is_negative() == b.is_negative(), of_a >= of_b) {
        (true, _) => (a.is_negative(), of_a.plus(&of_b)),
        (false, true) => (a.is_negative(), of_a.minus(&of_b)),
        (false, false) => (b.is_negative(), of_b.minus(&of_a)),
    };
    let (above, below) = scaled(&sum, &Big::of(1), -least);
    Double::nearest(negative, &above, &below)
}
