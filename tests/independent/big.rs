//! Natural numbers of any size, so that a value is rounded only where it is said.

use std::cmp::Ordering;

/// Its limbs in base 2^32, lowest first, the last one not 0.
#[derive(Clone, Debug, PartialEq, Eq)]
pub struct Big(Vec<u32>);

const LIMB: usize = 32;

impl Big {
    pub fn of(value: u64) -> Big {
        Big::trimmed(vec![value as u32, (value >> LIMB) as u32])
    }

    /// What decimal digits say.
    pub fn of_digits(digits: &[u8]) -> Big {
        let next = |number: Big, digit: &u8| number.times_ten(1).plus(&Big::of(u64::from(digit - b'0')));
        digits.iter().fold(Big::of(0), next)
    }

    fn trimmed(mut limbs: Vec<u32>) -> Big {
        while limbs.last() == Some(&0) {
            limbs.pop();
        }
        Big(limbs)
    }

    pub fn is_zero(&self) -> bool {
        self.0.is_empty()
    }

    /// Its value, if that is at most this number.
    pub fn at_most(&self, most: u64) -> Option<u64> {
        (*self <= Big::of(most)).then(|| self.limb(0) | self.limb(1) << LIMB)
    }

    /// How many binary digits it has.
    pub fn digits(&self) -> usize {
        self.0.last().map_or(0, |limb| LIMB * self.0.len() - limb.leading_zeros() as usize)
    }

    fn limb(&self, at: usize) -> u64 {
        u64::from(self.0.get(at).copied().unwrap_or(0))
    }

    fn times(&self, small: u32) -> Big {
        let mut limbs = Vec::new();
        let mut carry = 0;
        for limb in &self.0 {
            carry += u64::from(*limb) * u64::from(small);
            limbs.push(carry as u32);
            carry >>= LIMB;
        }
        limbs.push(carry as u32);
        Big::trimmed(limbs)
    }

    /// Times ten to this power.
    pub fn times_ten(&self, times: u64) -> Big {
        (0..times).fold(self.clone(), |number, _| number.times(10))
    }

    /// Times two to this power.
    pub fn doubled(&self, times: usize) -> Big {
        let mut limbs = vec![0; times / LIMB];
        limbs.extend(self.times(1 << (times % LIMB)).0);
        Big::trimmed(limbs)
    }

    pub fn plus(&self, other: &Big) -> Big {
        let mut limbs = Vec::new();
        let mut carry = 0;
        for at in 0..=self.0.len().max(other.0.len()) {
            carry += self.limb(at) + other.limb(at);
            limbs.push(carry as u32);
            carry >>= LIMB;
        }
        Big::trimmed(limbs)
    }

    /// Less another that is not larger.
    pub fn minus(&self, other: &Big) -> Big {
        let mut limbs = Vec::new();
        let mut borrow = 0;
        for at in 0..self.0.len() {
            let (above, below) = (self.limb(at), other.limb(at) + borrow);
            borrow = u64::from(above < below);
            limbs.push((above + (borrow << LIMB) - below) as u32);
        }
        Big::trimmed(limbs)
    }

    /// The quotient, which fits 64 bits, and the rest.
    pub fn divided(&self, by: &Big) -> (u64, Big) {
        let mut rest = self.clone();
        let mut quotient = 0;
        let most = (self.digits() + 1).saturating_sub(by.digits());
        for power in (0..most).rev() {
            let part = by.doubled(power);
            if part <= rest {
                rest = rest.minus(&part);
                quotient |= 1 << power;
            }
        }
        (quotient, rest)
    }
}

impl Ord for Big {
    fn cmp(&self, other: &Big) -> Ordering {
        let from_the_top = || self.0.iter().rev().cmp(other.0.iter().rev());
        self.0.len().cmp(&other.0.len()).then_with(from_the_top)
    }
}

impl PartialOrd for Big {
    fn partial_cmp(&self, other: &Big) -> Option<Ordering> {
        Some(self.cmp(other))
    }
}
