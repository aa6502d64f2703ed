//! Images mirrored at their edges: planes, pyramid levels and what stands between two halvings.

use crate::square::Square;

pub struct Image {
    pub width: i64,
    pub height: i64,
    pixels: Vec<i32>,
}

impl Image {
    /// The image with `pixel(row, column)` at each place.
    pub fn from_fn(width: i64, height: i64, pixel: impl Fn(i64, i64) -> i64) -> Image {
        let mut pixels = Vec::with_capacity((width * height) as usize);
        for row in 0..height {
            for column in 0..width {
                let pixel = pixel(row, column);
                pixels.push(pixel.try_into().expect("a pixel has 32 bits"));
            }
        }
        Image {
            width,
            height,
            pixels,
        }
    }

    /// "Outside reads are to mirror."
    pub fn at(&self, row: i64, column: i64) -> i64 {
        let row = mirrored(row, self.height);
        let column = mirrored(column, self.width);
        self.pixels[(row * self.width + column) as usize].into()
    }

    /// The square whose first pixel is at `row` and `column`.
    pub fn square(&self, row: i64, column: i64, side: i64) -> Square<i32> {
        let places = |first, size| -> Vec<i64> {
            (first..first + side)
                .map(|place| mirrored(place, size))
                .collect()
        };
        let rows = places(row, self.height);
        let columns = places(column, self.width);
        Square::from_fn(side as usize, |y, x| {
            self.pixels[(rows[y] * self.width + columns[x]) as usize]
        })
    }

    /// The pixels row by row, as sample words.
    pub fn into_samples(self) -> Vec<u16> {
        let sample = |pixel: i32| pixel.try_into().expect("a sample has 16 bits");
        self.pixels.into_iter().map(sample).collect()
    }
}

/// "−1 reads 0, −2 reads 1, and past the far end likewise, repeating with period twice the size."
fn mirrored(place: i64, size: i64) -> i64 {
    let place = place.rem_euclid(2 * size);
    place.min(2 * size - 1 - place)
}

#[cfg(test)]
mod tests {
    use super::*;

    #[test]
    fn outside_reads_mirror() {
        let places = [-8, -7, -6, -4, -3, -2, -1, 0, 2, 3, 4, 5, 6, 7, 8, 9];
        let read = [1, 0, 0, 2, 2, 1, 0, 0, 2, 2, 1, 0, 0, 1, 2, 2];
        assert_eq!(places.map(|place| mirrored(place, 3)), read);
        assert_eq!(
            [-172, -2, -1, 0, 1, 2, 172].map(|place| mirrored(place, 1)),
            [0; 7]
        );
    }

    #[test]
    fn squares_mirror_both_ways() {
        let image = Image::from_fn(4, 2, |row, column| 10 * row + column);
        assert_eq!(image.at(-2, 5), 12);
        assert_eq!(image.square(-2, 2, 5).row(0), [12, 13, 13, 12, 11]);
        let square = image.square(1, -3, 4);
        let rows = [
            [12, 11, 10, 10],
            [12, 11, 10, 10],
            [2, 1, 0, 0],
            [2, 1, 0, 0],
        ];
        assert!((0..4).all(|row| square.row(row) == rows[row]));
    }
}
