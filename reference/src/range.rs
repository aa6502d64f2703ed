//! Noise known only as a range: two frames, low and high, between which lies the merge with every curve between the ends.

use crate::image::Image;
use crate::merge::{frame, rounded_bins, shrunk, sum_of, Plane, Setting};
use crate::side::SIXTEEN;
use crate::square::Square;
use crate::transform::{rounded, turn, Tile};

/// The low and the high frame. The settings differ in their levels alone; their side is 16, and s is 0.
pub fn range(lower: &Setting, upper: &Setting) -> [Vec<u16>; 2] {
    let planes = lower.planes().into_iter().zip(upper.planes());
    let planes: Vec<[Image; 2]> = planes
        .map(|(lower, upper)| merged(&lower, &upper))
        .collect();
    [0, 1].map(|end| frame(lower.burst.shape, |plane| &planes[plane][end]))
}

/// A plane of the low and of the high frame.
fn merged(lower: &Plane, upper: &Plane) -> [Image; 2] {
    let tiles = lower.for_tiles(|row, column| {
        let noises = [lower, upper].map(|plane| plane.noise_number(row, column));
        let differences = lower.differences(row, column);
        let ends = differences
            .iter()
            .map(|difference| ends(difference, noises));
        ends.collect::<Vec<_>>()
    });
    // The correction is subtracted: the greatest P gives the low sample.
    [GREATEST, LEAST].map(|end| {
        lower.merged_by(|row, column| {
            let corrections = tiles[row as usize][column as usize].iter();
            sum_of(SIXTEEN, corrections.map(|ends| ends[end].clone()))
        })
    })
}

const LEAST: usize = 0;
const GREATEST: usize = 1;

/// The least and the greatest P of one difference tile: "In each bin, the real and the imaginary part of G each range between
/// their results at the lower and the upper V. Each pixel's sum takes the end that makes it least or greatest, and the
/// recipe's rounding follows."
fn ends(difference: &Tile, noises: [u64; 2]) -> [Tile; 2] {
    let side = SIXTEEN.length;
    let bins = rounded_bins(SIXTEEN, difference);
    let [lower, upper] = noises.map(|noise| bins.map(|&bin| shrunk(bin, noise)));
    let factors = Square::from_fn(side, |down, right| {
        turn(SIXTEEN, down).times(turn(SIXTEEN, right))
    });
    let sums = Square::from_fn(side, |y, x| {
        let (mut least, mut greatest) = (0, 0);
        // A product with the factor at either V: the end that makes the sum least, and greatest.
        let mut add = |lower: i64, upper: i64| {
            least += lower.min(upper);
            greatest += lower.max(upper);
        };
        for u in 0..side {
            for v in 0..side {
                let factor = factors[(u * y % side, v * x % side)];
                let (lower, upper) = (lower[(u, v)], upper[(u, v)]);
                // The real part of a product has a term of either part.
                add(lower.re * factor.re, upper.re * factor.re);
                add(-lower.im * factor.im, -upper.im * factor.im);
            }
        }
        [least, greatest]
    });
    [LEAST, GREATEST].map(|end| sums.map(|sums| rounded(sums[end], 1 << 32)))
}

#[cfg(test)]
mod tests {
    use super::*;
    use crate::random::Random;
    use crate::transform::{inverse, Complex};

    /// Twice a sum's ends another way: the inverse of the sum of both bins, less and more the sum of the magnitudes of
    /// what changes.
    fn doubled_ends(difference: &Tile, noises: [u64; 2]) -> [Tile; 2] {
        let bins = rounded_bins(SIXTEEN, difference);
        let [lower, upper] = noises.map(|noise| bins.map(|&bin| shrunk(bin, noise)));
        let both = Square::from_fn(16, |u, v| lower[(u, v)].plus(upper[(u, v)]));
        let middle = inverse(SIXTEEN, &both);
        let change = Square::from_fn(16, |u, v| {
            let (lower, upper) = (lower[(u, v)], upper[(u, v)]);
            Complex {
                re: (upper.re - lower.re).abs(),
                im: (upper.im - lower.im).abs(),
            }
        });
        let reach = Square::from_fn(16, |y, x| {
            let mut sum = 0;
            for u in 0..16 {
                for v in 0..16 {
                    let factor = turn(SIXTEEN, u * y).times(turn(SIXTEEN, v * x));
                    let change = change[(u, v)];
                    sum += change.re * factor.re.abs() + change.im * factor.im.abs();
                }
            }
            sum
        });
        [-1, 1].map(|sign| Square::from_fn(16, |y, x| middle[(y, x)] + sign * reach[(y, x)]))
    }

    #[test]
    fn ends_are_the_middle_and_the_reach() {
        let mut random = Random::new(1);
        for noises in [[0, 1 << 32], [1 << 20, 1 << 22], [77, 77], [900, 901]] {
            let mut difference = Square::filled(16, 0);
            for y in 0..16 {
                for x in 0..16 {
                    difference[(y, x)] = random.below(8191) as i64 - 4095;
                }
            }
            let doubled = doubled_ends(&difference, noises);
            let expected = doubled.map(|end| end.map(|&sum| rounded(sum, 1 << 33)));
            assert_eq!(ends(&difference, noises), expected);
        }
    }
}
