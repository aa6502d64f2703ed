//! The two-way transform of a tile, exact in whole numbers, and rounding.

use crate::side::Side;
use crate::square::Square;
use std::ops::{Add, Mul, Sub};

/// Whole numbers, which the tables turn without rounding.
pub trait Whole:
    Clone + Default + Add<Output = Self> + Sub<Output = Self> + Mul<i64, Output = Self>
{
}

impl<T> Whole for T where
    T: Clone + Default + Add<Output = T> + Sub<Output = T> + Mul<i64, Output = T>
{
}

#[derive(Clone, Copy, Debug, Default, PartialEq, Eq)]
pub struct Complex<T = i64> {
    pub re: T,
    pub im: T,
}

/// A tile of whole numbers.
pub type Tile<T = i64> = Square<T>;

pub type Bins<T = i64> = Square<Complex<T>>;

impl<T: Whole> Complex<T> {
    pub fn map<U>(&self, part: impl Fn(&T) -> U) -> Complex<U> {
        Complex {
            re: part(&self.re),
            im: part(&self.im),
        }
    }

    /// The real part of a product.
    fn real(&self, factor: Complex) -> T {
        self.re.clone() * factor.re - self.im.clone() * factor.im
    }

    pub fn plus(self, other: Complex<T>) -> Complex<T> {
        Complex {
            re: self.re + other.re,
            im: self.im + other.im,
        }
    }

    pub fn times(&self, factor: Complex) -> Complex<T> {
        Complex {
            re: self.real(factor),
            im: self.re.clone() * factor.im + self.im.clone() * factor.re,
        }
    }
}

impl Complex {
    /// |z|²
    pub fn squared(self) -> i128 {
        let square = |part| i128::from(part) * i128::from(part);
        square(self.re) + square(self.im)
    }

    /// The real part of a product that may exceed 64 bits.
    pub fn real_product(self, other: Complex) -> i128 {
        let product = |left, right| i128::from(left) * i128::from(right);
        product(self.re, other.re) - product(self.im, other.im)
    }
}

/// C(k) + i·S(k)
pub fn turn(side: Side, index: usize) -> Complex {
    Complex {
        re: side.cosine(index),
        im: side.sine(index),
    }
}

/// C(k) − i·S(k)
fn turn_back(side: Side, index: usize) -> Complex {
    Complex {
        re: side.cosine(index),
        im: -side.sine(index),
    }
}

/// "B = two-way 16-point transform of T0−Tz with C(k) and −S(k), exact whole numbers of
/// scale 2^28", or the 32-point one.
pub fn forward<T: Whole>(side: Side, tile: &Tile<T>) -> Bins<T> {
    let turns = turns(side, turn_back);
    let scaled = |value: &T, turn: Complex| turn.map(|&part| value.clone() * part);
    row_pass(&transposed_sums(tile, &turns, scaled), &turns)
}

/// The inverse sum with C(k) and +S(k), its real part, not divided.
pub fn inverse<T: Whole>(side: Side, bins: &Bins<T>) -> Tile<T> {
    let turns = turns(side, turn);
    let real = |bin: &Complex<T>, turn| Complex {
        re: bin.real(turn),
        im: T::default(),
    };
    let sums = transposed_sums(&row_pass(bins, &turns), &turns, real);
    sums.map(|sum| sum.re.clone())
}

/// What a bin is turned by at each place of a line.
fn turns(side: Side, turn: fn(Side, usize) -> Complex) -> Square<Complex> {
    Square::from_fn(side.length, |bin, x| turn(side, bin * x))
}

/// Transforms each row and transposes; nothing is rounded.
fn row_pass<T: Whole>(bins: &Bins<T>, turns: &Square<Complex>) -> Bins<T> {
    transposed_sums(bins, turns, |bin, turn| bin.times(turn))
}

/// out(bin, row) = sum over x of term(value(row, x), turn(bin·x))
fn transposed_sums<V, T: Whole>(
    values: &Square<V>,
    turns: &Square<Complex>,
    term: impl Fn(&V, Complex) -> Complex<T>,
) -> Bins<T> {
    let zero = || Complex {
        re: T::default(),
        im: T::default(),
    };
    Square::from_fn(values.side(), |bin, row| {
        let places = values.row(row).iter().zip(turns.row(bin));
        let terms = places.map(|(value, &turn)| term(value, turn));
        terms.fold(zero(), Complex::plus)
    })
}

/// A fraction "to nearest, halves away from zero"; the divisor is above 0.
pub fn rounded(dividend: i64, divisor: u64) -> i64 {
    let magnitude = (2 * dividend.unsigned_abs() + divisor) / (2 * divisor);
    magnitude as i64 * dividend.signum()
}

#[cfg(test)]
mod tests {
    use super::*;
    use crate::side::{SIXTEEN, THIRTY_TWO};

    /// The transform as one double sum per bin.
    fn direct(side: Side, bins: &Bins, turn: fn(Side, usize) -> Complex) -> Bins {
        let places = 0..side.length;
        Square::from_fn(side.length, |u, v| {
            let mut sum = Complex::default();
            for y in places.clone() {
                for x in places.clone() {
                    let factor = turn(side, u * y).times(turn(side, v * x));
                    sum = sum.plus(bins[(y, x)].times(factor));
                }
            }
            sum
        })
    }

    #[test]
    fn passes_equal_the_double_sum() {
        let sample = |y, x| ((y * 977 + x * x * 31) % 8191) as i64 - 4095;
        for side in [SIXTEEN, THIRTY_TWO] {
            let tile: Tile = Square::from_fn(side.length, sample);
            let bins = forward(side, &tile);
            let input = tile.map(|&re| Complex { re, im: 0 });
            assert_eq!(bins, direct(side, &input, turn_back));
            let small = bins.map(|bin| bin.map(|part| part >> 28));
            let sums = direct(side, &small, turn).map(|bin| bin.re);
            assert_eq!(inverse(side, &small), sums);
        }
    }

    #[test]
    fn halves_go_away_from_zero() {
        let quarters = |dividend| rounded(dividend, 4);
        assert_eq!([-7, -6, -5, -2, -1].map(quarters), [-2, -2, -1, -1, 0]);
        assert_eq!([0, 1, 2, 5, 6].map(quarters), [0, 0, 1, 1, 2]);
    }
}
