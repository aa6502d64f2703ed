//! Whole numbers of any size, for fractions.

use std::cmp::Ordering;
use std::fmt;
use std::ops::{Add, Mul, Sub};

/// Sign and magnitude; limbs from the least, the last one not 0, and 0 is not negative.
#[derive(Clone, Debug, Default, PartialEq, Eq)]
pub struct Integer {
    negative: bool,
    limbs: Vec<u64>,
}

impl From<i128> for Integer {
    fn from(value: i128) -> Integer {
        let magnitude = value.unsigned_abs();
        let limbs = vec![magnitude as u64, (magnitude >> 64) as u64];
        Integer::new(value < 0, limbs)
    }
}

impl Integer {
    fn new(negative: bool, mut limbs: Vec<u64>) -> Integer {
        while limbs.last() == Some(&0) {
            limbs.pop();
        }
        let negative = negative && !limbs.is_empty();
        Integer { negative, limbs }
    }

    pub fn is_negative(&self) -> bool {
        self.negative
    }

    pub fn negated(&self) -> Integer {
        Integer::new(!self.negative, self.limbs.clone())
    }

    pub fn plus(&self, other: &Integer) -> Integer {
        if self.negative == other.negative {
            return Integer::new(self.negative, added(&self.limbs, &other.limbs));
        }
        match compared(&self.limbs, &other.limbs) {
            Ordering::Less => Integer::new(other.negative, subtracted(&other.limbs, &self.limbs)),
            _ => Integer::new(self.negative, subtracted(&self.limbs, &other.limbs)),
        }
    }

    pub fn minus(&self, other: &Integer) -> Integer {
        self.plus(&other.negated())
    }

    pub fn times(&self, other: &Integer) -> Integer {
        let negative = self.negative != other.negative;
        Integer::new(negative, multiplied(&self.limbs, &other.limbs))
    }

    /// Times a power of two.
    pub fn shifted(&self, bits: u32) -> Integer {
        let mut limbs = vec![0; bits as usize / 64];
        limbs.extend(multiplied(&self.limbs, &[1 << (bits % 64)]));
        Integer::new(self.negative, limbs)
    }

    /// The quotient by a number above 0, cut toward zero.
    pub fn divided(&self, divisor: &Integer) -> Integer {
        Integer::new(self.negative, quotient(&self.limbs, &divisor.limbs))
    }
}

impl Add for Integer {
    type Output = Integer;

    fn add(self, other: Integer) -> Integer {
        self.plus(&other)
    }
}

impl Sub for Integer {
    type Output = Integer;

    fn sub(self, other: Integer) -> Integer {
        self.minus(&other)
    }
}

impl Mul<i64> for Integer {
    type Output = Integer;

    fn mul(self, factor: i64) -> Integer {
        self.times(&i128::from(factor).into())
    }
}

impl PartialOrd for Integer {
    fn partial_cmp(&self, other: &Integer) -> Option<Ordering> {
        Some(self.cmp(other))
    }
}

impl Ord for Integer {
    fn cmp(&self, other: &Integer) -> Ordering {
        match (self.negative, other.negative) {
            (false, false) => compared(&self.limbs, &other.limbs),
            (true, true) => compared(&other.limbs, &self.limbs),
            (false, true) => Ordering::Greater,
            (true, false) => Ordering::Less,
        }
    }
}

/// Hexadecimal without leading zeros.
impl fmt::LowerHex for Integer {
    fn fmt(&self, out: &mut fmt::Formatter) -> fmt::Result {
        let (last, lower) = self.limbs.split_last().unwrap_or((&0, &[]));
        write!(out, "{}{last:x}", if self.negative { "-" } else { "" })?;
        lower
            .iter()
            .rev()
            .try_for_each(|limb| write!(out, "{limb:016x}"))
    }
}

fn compared(left: &[u64], right: &[u64]) -> Ordering {
    let by_length = left.len().cmp(&right.len());
    by_length.then_with(|| left.iter().rev().cmp(right.iter().rev()))
}

fn added(left: &[u64], right: &[u64]) -> Vec<u64> {
    let mut sum = Vec::new();
    let mut carry = false;
    for index in 0..left.len().max(right.len()) {
        let limb = |limbs: &[u64]| limbs.get(index).copied().unwrap_or(0);
        let (partial, first) = limb(left).overflowing_add(limb(right));
        let (total, second) = partial.overflowing_add(carry.into());
        sum.push(total);
        carry = first || second;
    }
    sum.push(carry.into());
    sum
}

/// For `left` not below `right`.
fn subtracted(left: &[u64], right: &[u64]) -> Vec<u64> {
    let mut borrow = false;
    let difference = left.iter().enumerate().map(|(index, &limb)| {
        let taken = right.get(index).copied().unwrap_or(0);
        let (partial, first) = limb.overflowing_sub(taken);
        let (total, second) = partial.overflowing_sub(borrow.into());
        borrow = first || second;
        total
    });
    difference.collect()
}

fn multiplied(left: &[u64], right: &[u64]) -> Vec<u64> {
    let mut product = vec![0; left.len() + right.len()];
    for (shift, &factor) in left.iter().enumerate() {
        let mut carry = 0;
        for (place, &limb) in product[shift..].iter_mut().zip(right) {
            let total = u128::from(factor) * u128::from(limb) + u128::from(*place) + carry;
            *place = total as u64;
            carry = total >> 64;
        }
        product[shift + right.len()] = carry as u64;
    }
    product
}

/// Bit by bit, from the highest.
fn quotient(dividend: &[u64], divisor: &[u64]) -> Vec<u64> {
    let mut quotient = vec![0; dividend.len()];
    // One limb more, into which the doubled remainder may reach.
    let mut rest = vec![0; divisor.len() + 1];
    for bit in (0..64 * dividend.len()).rev() {
        let mut carry = dividend[bit / 64] >> (bit % 64) & 1;
        for limb in &mut rest {
            let doubled = *limb << 1 | carry;
            carry = *limb >> 63;
            *limb = doubled;
        }
        if not_below(&rest, divisor) {
            rest = subtracted(&rest, divisor);
            quotient[bit / 64] |= 1 << (bit % 64);
        }
    }
    quotient
}

/// Whether a number with one limb more, which may be 0, is at least another.
fn not_below(left: &[u64], right: &[u64]) -> bool {
    let (last, lower) = left.split_last().expect("one limb more");
    *last != 0 || compared(lower, right) != Ordering::Less
}

#[cfg(test)]
mod tests {
    use super::*;

    const SAMPLES: [i128; 9] = [
        0,
        1,
        -1,
        0xffff_ffff_ffff_ffff,
        -0xffff_ffff_ffff_ffff,
        1 << 64,
        -(1 << 64),
        12345678901234567890123,
        -987654321,
    ];

    #[test]
    fn agrees_with_machine_numbers() {
        for left in SAMPLES {
            for right in SAMPLES {
                let (a, b) = (Integer::from(left), Integer::from(right));
                assert_eq!(a.plus(&b), Integer::from(left + right));
                assert_eq!(a.minus(&b), Integer::from(left - right));
                assert_eq!(a.cmp(&b), left.cmp(&right));
                if let Some(product) = left.checked_mul(right) {
                    assert_eq!(a.times(&b), Integer::from(product));
                }
                if right > 0 {
                    assert_eq!(a.divided(&b), Integer::from(left / right));
                }
            }
        }
    }

    #[test]
    fn quotients_undo_products() {
        let divisor = Integer::from(SAMPLES[7]).shifted(131).plus(&1.into());
        let product = Integer::from(i128::MIN).times(&divisor);
        assert_eq!(product.divided(&divisor), Integer::from(i128::MIN));
        assert_eq!(
            product.plus(&1.into()).divided(&divisor),
            Integer::from(i128::MIN + 1)
        );
        assert_eq!(
            Integer::from(-5).shifted(64).shifted(3),
            Integer::from(-5 << 67)
        );
    }

    #[test]
    fn long_products() {
        let x = Integer::from(i128::MAX);
        let y = Integer::from(SAMPLES[7]);
        let left = x.plus(&y).times(&x.minus(&y));
        assert_eq!(left, x.times(&x).minus(&y.times(&y)));
        let power = Integer::from(1 << 100).times(&Integer::from(-(1 << 100)));
        assert_eq!(format!("{power:x}"), format!("-1{}", "0".repeat(50)));
        assert_eq!(format!("{:x}", Integer::from(0)), "0");
    }
}
