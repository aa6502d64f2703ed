//! The choice of the reference for the operator.

use crate::burst::Burst;
use crate::image::Image;
use std::cmp::Reverse;

/// "the sharpest of the first three frames, or of both when there are two"; "a tie goes to the lower index".
pub fn sharpest(burst: &Burst) -> u64 {
    let frames = 0..burst.shape.count.min(3);
    // "the green plane of row parity 0 and column parity 1"
    let sharpness = |&frame: &u64| sharpness(&burst.plane(frame, 0, 1));
    // The first of equal minima is taken.
    frames
        .min_by_key(|frame| Reverse(sharpness(frame)))
        .expect("a burst has a frame")
}

/// "the sum ... of the absolute steps to the right neighbour and to the one below, inside the plane only".
pub fn sharpness(plane: &Image) -> u64 {
    let step = |row, column, down, right| {
        let steps = plane.at(row + down, column + right) - plane.at(row, column);
        steps.unsigned_abs()
    };
    let mut sum = 0;
    for row in 0..plane.height {
        for column in 0..plane.width - 1 {
            sum += step(row, column, 0, 1);
        }
    }
    for row in 0..plane.height - 1 {
        for column in 0..plane.width {
            sum += step(row, column, 1, 0);
        }
    }
    sum
}

#[cfg(test)]
mod tests {
    use super::*;

    #[test]
    fn steps_inside_the_plane() {
        let rows = [[5, 9, 9], [4, 4, 10]];
        let plane = Image::from_fn(3, 2, |row, column| rows[row as usize][column as usize]);
        // To the right 4 and 0, 0 and 6; below 1, 5 and 1.
        assert_eq!(sharpness(&plane), 17);
        let chequered = Image::from_fn(2048, 2048, |row, column| 4095 * ((row + column) % 2));
        assert_eq!(sharpness(&chequered), 34_334_576_640);
    }
}
