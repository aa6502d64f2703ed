//! The four levels that alignment searches.

use crate::burst::Burst;
use crate::image::Image;

/// "Level 1 halves it; level 2 is a quarter of level 1, level 3 a quarter of level 2,
/// each quarter two halvings."
pub fn pyramid(burst: &Burst, frame: u64) -> [Image; 4] {
    let level_0 = burst.square_sums(frame);
    let level_1 = halved(&level_0);
    let level_2 = quartered(&level_1);
    let level_3 = quartered(&level_2);
    [level_0, level_1, level_2, level_3]
}

fn quartered(image: &Image) -> Image {
    halved(&halved(image))
}

/// "Halving: weights 1 3 3 1 at 2p−1..2p+2 in each direction, then floor((sum+32)/64)."
fn halved(image: &Image) -> Image {
    const WEIGHTS: [(i64, i64); 4] = [(-1, 1), (0, 3), (1, 3), (2, 1)];
    Image::from_fn(image.width / 2, image.height / 2, |row, column| {
        let mut sum = 0;
        for (down, row_weight) in WEIGHTS {
            for (right, column_weight) in WEIGHTS {
                let sample = image.at(2 * row + down, 2 * column + right);
                sum += row_weight * column_weight * sample;
            }
        }
        (sum + 32).div_euclid(64)
    })
}

#[cfg(test)]
mod tests {
    use super::*;

    #[test]
    fn halving_mirrors_edges_and_rounds() {
        let corner = Image::from_fn(
            4,
            2,
            |row, column| if (row, column) == (0, 0) { 2 } else { 0 },
        );
        // Row weights 1 + 3, column weights 1 + 3 at column 0 and 1 at none: (2·16 + 32)/64.
        let half = halved(&corner);
        assert_eq!((half.width, half.height), (2, 1));
        assert_eq!((half.at(0, 0), half.at(0, 1)), (1, 0));
        let flat = halved(&Image::from_fn(8, 8, |_, _| 16380));
        assert_eq!(flat.at(3, 3), 16380);
    }
}
