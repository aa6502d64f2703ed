//! The burst: frames of Bayer samples and their planes.

use crate::image::Image;
use crate::random::Random;
use crate::shape::Shape;

/// "Frames are Bayer RGGB, row by row, 16-bit words holding 0..4095."
#[derive(Clone, Debug, PartialEq, Eq)]
pub struct Burst {
    pub shape: Shape,
    pub reference: u64,
    /// "a black level for each of the four planes", in the order RGGB.
    pub black: [u64; 4],
    pub samples: Vec<u16>,
}

impl Burst {
    /// The indices of the other frames, rising.
    pub fn others(&self) -> Vec<u64> {
        let all = 0..self.shape.count;
        all.filter(|&frame| frame != self.reference).collect()
    }

    pub fn sample(&self, frame: u64, row: i64, column: i64) -> i64 {
        let Shape {
            height, row_length, ..
        } = self.shape;
        let index = (frame * height + row as u64) * row_length + column as u64;
        i64::from(self.samples[index as usize])
    }

    /// The rows of all frames, each without its spare words.
    pub fn rows(&self) -> impl Iterator<Item = &[u16]> {
        let Shape {
            width, row_length, ..
        } = self.shape;
        let rows = self.samples.chunks(row_length as usize);
        rows.map(move |row| &row[..width as usize])
    }

    /// Puts `spare` more words of any value after each row.
    pub fn pad(&mut self, spare: u64, random: &mut Random) {
        let mut padded = Vec::new();
        for row in self.samples.chunks(self.shape.row_length as usize) {
            padded.extend(row);
            padded.extend((0..spare).map(|_| random.word() as u16));
        }
        self.samples = padded;
        self.shape.row_length += spare;
    }

    /// "four planes of W/2 by H/2, by parity of row and column".
    pub fn plane(&self, frame: u64, row_parity: i64, column_parity: i64) -> Image {
        self.half_size(|row, column| {
            self.sample(frame, 2 * row + row_parity, 2 * column + column_parity)
        })
    }

    /// The black level of a plane.
    pub fn black_level(&self, row_parity: i64, column_parity: i64) -> i64 {
        self.black[(2 * row_parity + column_parity) as usize] as i64
    }

    /// "Level 0: the sum of each 2 by 2 Bayer square."
    pub fn square_sums(&self, frame: u64) -> Image {
        self.half_size(|row, column| {
            let places = [(0, 0), (0, 1), (1, 0), (1, 1)];
            let sample = |(y, x)| self.sample(frame, 2 * row + y, 2 * column + x);
            places.into_iter().map(sample).sum()
        })
    }

    fn half_size(&self, pixel: impl Fn(i64, i64) -> i64) -> Image {
        let half = |side: u64| side as i64 / 2;
        Image::from_fn(half(self.shape.width), half(self.shape.height), pixel)
    }
}
