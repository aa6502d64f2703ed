//! The exact filtered merge, for side 16: "with the same V', worked in the same fractions, the copy and its bins unrounded too".
//!
//! A sample's whole fraction has millions of digits, so here each part of a bin that a Wiener step gives is cut to a multiple
//! of 2^-96. That step passes an error of its bin on no larger than it came, and the other steps are exact: the sample is
//! the exact one to within 2^-80.

use crate::exact::held;
use crate::fraction::Fraction;
use crate::integer::Integer;
use crate::merge::{covering_tiles, Cover, Plane, Setting};
use crate::side::SIXTEEN;
use crate::square::Square;
use crate::transform::{forward, inverse, turn, Bins, Complex, Tile};

/// Bins are kept in units of 2^-96.
const BITS: u32 = 96;

/// What divides an inverse sum: 256·2^28, and the unit of its bins.
const INVERSE_BITS: u32 = 36 + BITS;

/// The exact filtered sample at a row and column of the frame, held to 0..4095.
pub fn sample(setting: &Setting, row: i64, column: i64) -> Fraction {
    let plane = setting.plane(row % 2, column % 2);
    let count = i128::from(setting.burst.shape.count);
    let term = |cover: &Cover| filtered(&plane, cover, count) * cover.weight;
    let sum = covering_tiles(SIXTEEN, row / 2, column / 2)
        .iter()
        .map(term)
        .fold(Integer::default(), |sum, term| sum + term);
    held(Fraction {
        numerator: sum,
        denominator: Integer::from(count).shifted(24 + INVERSE_BITS),
    })
}

/// The filtered tile's sample, N·2^INVERSE_BITS times.
fn filtered(plane: &Plane, cover: &Cover, count: i128) -> Integer {
    let (row, column) = (cover.tile_row, cover.tile_column);
    let merged = merged_tile(plane, row, column, count);
    let noises = plane.spatial_numbers(row, column);
    let bins = forward(SIXTEEN, &merged);
    // The bins of the merged tile have the scale 2^28 beside its own.
    let scale = Integer::from(count).shifted(28 + INVERSE_BITS);
    let shrunk = |u, v| shrunk(&bins[(u, v)], &scale, noises[(u, v)]);
    let shrunk = Square::from_fn(SIXTEEN.length, shrunk);
    merged[cover.place].minus(&(inverse_at(&shrunk, cover) * count as i64))
}

/// "T0 − Σp/N", N·2^INVERSE_BITS times.
fn merged_tile(plane: &Plane, row: i64, column: i64, count: i128) -> Tile<Integer> {
    let noise = plane.noise_number(row, column);
    let scale = Integer::from(1).shifted(28);
    let mut sum: Bins<Integer> = Square::filled(SIXTEEN.length, Complex::default());
    for difference in plane.differences(row, column) {
        let bins = forward(SIXTEEN, &difference);
        let bin = |u, v| bins[(u, v)].map(|&part| Integer::from(i128::from(part)));
        sum = Square::from_fn(SIXTEEN.length, |u, v| {
            sum[(u, v)].clone().plus(shrunk(&bin(u, v), &scale, noise))
        });
    }
    let reference = plane.reference_tile(row, column);
    let corrections = inverse(SIXTEEN, &sum);
    Square::from_fn(SIXTEEN.length, |y, x| {
        let sample = Integer::from(count * i128::from(reference[(y, x)]));
        sample.shifted(INVERSE_BITS).minus(&corrections[(y, x)])
    })
}

/// The Wiener step on a bin b/scale with the noise V/256, in units: the bin times (V/256)/(|b/scale|² + V/256) is
/// b·V·scale/(256·|b|² + V·scale²), where V is above 0.
fn shrunk(bin: &Complex<Integer>, scale: &Integer, noise: u64) -> Complex<Integer> {
    let noise = Integer::from(i128::from(noise));
    let square = bin.re.times(&bin.re).plus(&bin.im.times(&bin.im));
    let denominator = square.shifted(8).plus(&noise.times(scale).times(scale));
    if noise == Integer::default() {
        return Complex::default();
    }
    let factor = noise.times(scale).shifted(BITS);
    bin.map(|part| part.times(&factor).divided(&denominator))
}

/// One sample of the inverse sum, not divided.
fn inverse_at(bins: &Bins<Integer>, cover: &Cover) -> Integer {
    let (y, x) = cover.place;
    let mut sum = Integer::default();
    for u in 0..SIXTEEN.length {
        for v in 0..SIXTEEN.length {
            let factor = turn(SIXTEEN, u * y).times(turn(SIXTEEN, v * x));
            sum = sum + bins[(u, v)].times(factor).re;
        }
    }
    sum
}
