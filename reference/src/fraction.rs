//! "A fraction here is a pair of whole numbers, the lower one above 0; fractions are added
//! and compared by cross-multiplying."

use crate::integer::Integer;
use std::cmp::Ordering;

#[derive(Clone, Debug)]
pub struct Fraction {
    pub numerator: Integer,
    pub denominator: Integer,
}

impl From<i64> for Fraction {
    fn from(value: i64) -> Fraction {
        Fraction {
            numerator: i128::from(value).into(),
            denominator: 1.into(),
        }
    }
}

impl Fraction {
    pub fn plus(&self, other: &Fraction) -> Fraction {
        let left = self.numerator.times(&other.denominator);
        let right = other.numerator.times(&self.denominator);
        Fraction {
            numerator: left.plus(&right),
            denominator: self.denominator.times(&other.denominator),
        }
    }

    pub fn minus(&self, other: &Fraction) -> Fraction {
        let negated = Fraction {
            numerator: other.numerator.negated(),
            denominator: other.denominator.clone(),
        };
        self.plus(&negated)
    }

    /// Divided by a whole number above 0.
    pub fn over(&self, divisor: i128) -> Fraction {
        Fraction {
            numerator: self.numerator.clone(),
            denominator: self.denominator.times(&divisor.into()),
        }
    }

    pub fn compare(&self, other: &Fraction) -> Ordering {
        let left = self.numerator.times(&other.denominator);
        left.cmp(&other.numerator.times(&self.denominator))
    }

    /// The sum of many fractions, by halves so that the products stay balanced.
    pub fn sum(terms: &[Fraction]) -> Fraction {
        match terms {
            [] => Fraction::from(0),
            [term] => term.clone(),
            _ => {
                let (left, right) = terms.split_at(terms.len() / 2);
                Fraction::sum(left).plus(&Fraction::sum(right))
            }
        }
    }

    /// Decimal with twelve places, cut off; for magnitudes below 2^16.
    pub fn decimal(&self) -> String {
        let negative = self.numerator.is_negative();
        let mut rest = self.numerator.clone();
        if negative {
            rest = rest.negated();
        }
        let mut digits = String::new();
        for place in 0..=12 {
            let (digit, remainder) = divided(rest, &self.denominator);
            digits += &digit.to_string();
            digits += if place == 0 { "." } else { "" };
            rest = remainder.times(&10.into());
        }
        let sign = if negative { "-" } else { "" };
        format!("{sign}{digits}")
    }
}

/// Quotient below 2^16 and remainder, bit by bit.
fn divided(mut rest: Integer, divisor: &Integer) -> (u64, Integer) {
    let mut quotient = 0;
    for bit in (0..16).rev() {
        let multiple = divisor.times(&(1i128 << bit).into());
        if multiple <= rest {
            rest = rest.minus(&multiple);
            quotient += 1 << bit;
        }
    }
    (quotient, rest)
}

#[cfg(test)]
mod tests {
    use super::*;

    fn fraction(numerator: i128, denominator: i128) -> Fraction {
        Fraction {
            numerator: numerator.into(),
            denominator: denominator.into(),
        }
    }

    #[test]
    fn sums_and_decimals() {
        let sum = Fraction::sum(&[fraction(1, 2), fraction(-1, 3), fraction(1, 7)]);
        assert_eq!(sum.compare(&fraction(13, 42)), Ordering::Equal);
        assert_eq!(sum.decimal(), "0.309523809523");
        let below = fraction(-8191, 2).over(3);
        assert_eq!(below.decimal(), "-1365.166666666666");
        assert_eq!(below.minus(&sum).compare(&below), Ordering::Less);
        assert_eq!(Fraction::from(4095).decimal(), "4095.000000000000");
    }
}
