//! The exact merge: "the same r, V and vectors", "the other steps in fractions".

use crate::fraction::Fraction;
use crate::integer::Integer;
use crate::merge::{covering_tiles, Cover, Setting};
use crate::side::Side;
use crate::transform::{forward, turn, Tile};
use std::cmp::Ordering;
use std::collections::BTreeMap;

/// The exact sample at a row and column of the frame: "the reference's minus (sum over four
/// tiles and the other frames of w·w'·p)/(2^24·N), held to 0..4095".
pub fn sample(setting: &Setting, row: i64, column: i64) -> Fraction {
    let plane = setting.plane(row % 2, column % 2);
    let mut terms = Vec::new();
    for cover in covering_tiles(setting.side, row / 2, column / 2) {
        let noise = plane.noise_number(cover.tile_row, cover.tile_column);
        for difference in plane.differences(cover.tile_row, cover.tile_column) {
            terms.extend(weighted_correction(
                setting.side,
                &difference,
                noise,
                &cover,
            ));
        }
    }
    let unit = i128::from(setting.burst.shape.count) << 24;
    let reference = plane.reference.at(row / 2, column / 2);
    let correction = Fraction::sum(&terms).over(unit);
    held(Fraction::from(reference).minus(&correction))
}

/// The terms of w·w'·p at a sample of a tile, bins of equal denominator taken together.
fn weighted_correction(side: Side, difference: &Tile, noise: u64, cover: &Cover) -> Vec<Fraction> {
    let terms = correction_terms(side, difference, noise.into(), cover);
    let weighted = |(denominator, numerator): (i128, i128)| Fraction {
        numerator: Integer::from(numerator).times(&i128::from(cover.weight).into()),
        denominator: denominator.into(),
    };
    terms.into_iter().map(weighted).collect()
}

/// Numerators of p by denominator. "bins B/2^28, noise V/256, inverse divided by 256·2^28", or "V/16 and 1024·2^28": with
/// k parts of a sample to a bin's one and E the inverse's factor, a bin of side n gives the real part of
/// B/2^28 · (V/k²)/(|B/2^28|² + V/k²) · E/(n²·2^28) = B·E·V/(n²·(k²·|B|² + 2^56·V)).
fn correction_terms(
    side: Side,
    difference: &Tile,
    noise: i128,
    cover: &Cover,
) -> BTreeMap<i128, i128> {
    let mut terms = BTreeMap::new();
    // "where V is 0 the bin's correction is 0"
    if noise == 0 {
        return terms;
    }
    let (y, x) = cover.place;
    let bins = forward(side, difference);
    let noise_unit = i128::from(side.bin_parts.pow(2));
    let places = side.length.pow(2) as i128;
    for u in 0..side.length {
        for v in 0..side.length {
            let bin = bins[(u, v)];
            let factor = turn(side, u * y).times(turn(side, v * x));
            let denominator = places * (noise_unit * bin.squared() + (noise << 56));
            *terms.entry(denominator).or_default() += bin.real_product(factor) * noise;
        }
    }
    terms
}

pub fn held(value: Fraction) -> Fraction {
    let (lowest, highest) = (Fraction::from(0), Fraction::from(4095));
    match (value.compare(&lowest), value.compare(&highest)) {
        (Ordering::Less, _) => lowest,
        (_, Ordering::Greater) => highest,
        _ => value,
    }
}
