//! The merge recipe in whole numbers.

use crate::burst::Burst;
use crate::image::Image;
use crate::noise::{whole_root, NoiseModel};
use crate::shape::Shape;
use crate::side::{Side, SIXTEEN};
use crate::square::Square;
use crate::transform::{forward, inverse, rounded, Bins, Complex, Tile};

/// What the merge of a burst rests on; the vectors are only read.
#[derive(Clone, Copy)]
pub struct Setting<'a> {
    pub burst: &'a Burst,
    pub vectors: &'a [i32],
    pub side: Side,
    pub noise: NoiseModel,
}

impl<'a> Setting<'a> {
    /// "four planes of W/2 by H/2, by parity of row and column".
    pub fn planes(&self) -> [Plane<'a>; 4] {
        [(0, 0), (0, 1), (1, 0), (1, 1)].map(|(row, column)| self.plane(row, column))
    }

    /// One of them.
    pub fn plane(&self, row_parity: i64, column_parity: i64) -> Plane<'a> {
        let plane = |frame| self.burst.plane(frame, row_parity, column_parity);
        Plane {
            setting: *self,
            black: self.burst.black_level(row_parity, column_parity),
            reference: plane(self.burst.reference),
            others: self.burst.others().into_iter().map(plane).collect(),
        }
    }
}

/// One plane of every frame.
pub struct Plane<'a> {
    setting: Setting<'a>,
    black: i64,
    pub reference: Image,
    others: Vec<Image>,
}

impl Plane<'_> {
    pub fn side(&self) -> Side {
        self.setting.side
    }

    /// Tile indices run from 0 to these, "at level 0's origins".
    fn last_tile(&self) -> (i64, i64) {
        let step = self.side().step();
        (self.reference.height / step, self.reference.width / step)
    }

    /// A value for each tile, by its indices.
    pub fn for_tiles<T>(&self, value: impl Fn(i64, i64) -> T) -> Vec<Vec<T>> {
        let (last_row, last_column) = self.last_tile();
        let tile_row = |row| (0..=last_column).map(|column| value(row, column)).collect();
        (0..=last_row).map(tile_row).collect()
    }

    /// T0 of the tile with these indices.
    pub fn reference_tile(&self, row: i64, column: i64) -> Tile {
        self.tile(&self.reference, row, column, (0, 0))
    }

    /// The tile with these indices, moved by a vector; its origin is one of level 0.
    fn tile(&self, plane: &Image, row: i64, column: i64, (down, right): (i64, i64)) -> Tile {
        let step = self.side().step();
        let (top, left) = (step * (row - 1) + down, step * (column - 1) + right);
        plane
            .square(top, left, self.side().length as i64)
            .map(|&sample| sample.into())
    }

    /// T0−Tz for each other frame.
    pub fn differences(&self, row: i64, column: i64) -> Vec<Tile> {
        let reference = self.reference_tile(row, column);
        let difference = |(slot, other): (usize, &Image)| {
            let moved = self.tile(other, row, column, self.vector(slot, row, column));
            Square::from_fn(reference.side(), |y, x| reference[(y, x)] - moved[(y, x)])
        };
        self.others.iter().enumerate().map(difference).collect()
    }

    /// V
    pub fn noise_number(&self, row: i64, column: i64) -> u64 {
        let root = self.root(row, column);
        self.setting.noise.noise_number(self.side(), root)
    }

    /// V' of each bin, for tiles of side 16.
    pub fn spatial_numbers(&self, row: i64, column: i64) -> Square<u64> {
        let (root, count) = (self.root(row, column), self.setting.burst.shape.count);
        Square::from_fn(SIXTEEN.length, |u, v| {
            self.setting.noise.spatial_number(root, count, u, v)
        })
    }

    fn root(&self, row: i64, column: i64) -> u64 {
        root(&self.reference_tile(row, column), self.black)
    }

    /// "use its vectors unscaled".
    fn vector(&self, slot: usize, row: i64, column: i64) -> (i64, i64) {
        let (last_row, last_column) = self.last_tile();
        let tile = (slot as i64 * (last_row + 1) + row) * (last_column + 1) + column;
        let part = |part| i64::from(self.setting.vectors[(2 * tile + part) as usize]);
        (part(0), part(1))
    }

    /// The sum over the other frames of P for the tile with these indices.
    fn corrections(&self, row: i64, column: i64) -> Tile {
        let noise = self.noise_number(row, column);
        let differences = self.differences(row, column).into_iter();
        let corrections = differences.map(|tile| correction(self.side(), &tile, noise));
        sum_of(self.side(), corrections)
    }

    /// The same with the spatial filter, whose correction counts N times: it is subtracted from the merged tile, to which
    /// each P gives an Nth.
    fn filtered_corrections(&self, row: i64, column: i64) -> Tile {
        let merged = self.corrections(row, column);
        if self.setting.noise.tuning.spatial == 0 {
            return merged;
        }
        let count = self.count();
        let reference = self.reference_tile(row, column);
        // "A copy of the merged tile, before windows, is rounded to 1/256, halves away from zero"
        let copy = Square::from_fn(merged.side(), |y, x| {
            let numerator = 256 * count * reference[(y, x)] - merged[(y, x)];
            rounded(numerator, count as u64)
        });
        let spatial = spatial_correction(&copy, &self.spatial_numbers(row, column));
        Square::from_fn(merged.side(), |y, x| {
            merged[(y, x)] + count * spatial[(y, x)]
        })
    }

    /// N
    fn count(&self) -> i64 {
        self.setting.burst.shape.count as i64
    }

    /// The merged plane.
    fn merged(&self) -> Image {
        self.merged_by(|row, column| self.filtered_corrections(row, column))
    }

    /// The plane from which the tiles' corrections, each a sum over the other frames, are taken.
    pub fn merged_by(&self, corrections: impl Fn(i64, i64) -> Tile) -> Image {
        let tiles = self.for_tiles(corrections);
        let count = self.count();
        let merged = |row, column| {
            let term = |cover: Cover| {
                let tile = &tiles[cover.tile_row as usize][cover.tile_column as usize];
                cover.weight * tile[cover.place]
            };
            let sum = covering_tiles(self.side(), row, column)
                .map(term)
                .iter()
                .sum();
            merged_sample(self.reference.at(row, column), sum, count)
        };
        Image::from_fn(self.reference.width, self.reference.height, merged)
    }
}

/// The sum of tiles, place by place.
pub fn sum_of(side: Side, tiles: impl Iterator<Item = Tile>) -> Tile {
    tiles.fold(Square::filled(side.length, 0), |sum, tile| {
        Square::from_fn(side.length, |y, x| sum[(y, x)] + tile[(y, x)])
    })
}

/// A tile's indices, and a sample's place inside it.
pub struct Cover {
    pub tile_row: i64,
    pub tile_column: i64,
    pub place: (usize, usize),
    /// "w·w'".
    pub weight: i64,
}

/// The "four tiles" that cover a plane's sample.
pub fn covering_tiles(side: Side, row: i64, column: i64) -> [Cover; 4] {
    let step = side.step();
    // Of the tiles that overlap in one direction, the earlier or the later one.
    let inside = |place: i64, later: i64| (place % step + step * (1 - later)) as usize;
    let tiles = [(0, 0), (0, 1), (1, 0), (1, 1)];
    tiles.map(|(down, right)| {
        let (y, x) = (inside(row, down), inside(column, right));
        Cover {
            tile_row: row / step + down,
            tile_column: column / step + right,
            place: (y, x),
            weight: side.window(y) * side.window(x),
        }
    })
}

/// The merged frame, row by row.
pub fn merge(setting: &Setting) -> Vec<u16> {
    let planes = setting.planes().map(|plane| plane.merged());
    frame(setting.burst.shape, |plane| &planes[plane])
}

/// The frame of four planes, row by row.
pub fn frame<'a>(shape: Shape, plane: impl Fn(usize) -> &'a Image) -> Vec<u16> {
    let sample = |row: i64, column: i64| {
        let plane = plane((2 * (row % 2) + column % 2) as usize);
        plane.at(row / 2, column / 2)
    };
    Image::from_fn(shape.width as i64, shape.height as i64, sample).into_samples()
}

/// "r = floor of the root of the sum of T0 squared: the RMS in sixteenths", or "in thirty-seconds", where "each reference sample counts as the
/// amount by which it exceeds its plane's black, or 0".
pub fn root(tile: &Tile, black: i64) -> u64 {
    let excess = |sample: &i64| (sample - black).max(0);
    let squares: i64 = tile.iter().map(|sample| excess(sample).pow(2)).sum();
    whole_root(squares as u64)
}

/// P of one difference tile.
pub fn correction(side: Side, difference: &Tile, noise: u64) -> Tile {
    // Every G is 0 then, and so is P.
    if noise == 0 || difference.iter().all(|&part| part == 0) {
        return Square::filled(side.length, 0);
    }
    let bins = rounded_bins(side, difference);
    inverse_rounded(side, &bins.map(|&bin| shrunk(bin, noise)))
}

/// "Q = B/2^24 (sixteenths), each part to nearest, halves away from zero", or "in quarters".
pub fn rounded_bins(side: Side, difference: &Tile) -> Bins {
    let divisor = (1 << 28) / side.bin_parts;
    forward(side, difference).map(|bin| bin.map(|&part| rounded(part, divisor)))
}

/// What the spatial filter takes from the merged tile, in 1/256: "transformed; bins are rounded likewise to sixteenths. The
/// base's Wiener step on these bins, with V' for V, gives a correction that is turned back, rounded to 1/256".
fn spatial_correction(copy: &Tile, noises: &Square<u64>) -> Tile {
    let bins = forward(SIXTEEN, copy);
    // The copy is in 1/256: its bins have the scale 2^36.
    let sixteenths = |bin: &Complex| bin.map(|&part| rounded(part, 1 << 32));
    let shrunk = |u, v| shrunk(sixteenths(&bins[(u, v)]), noises[(u, v)]);
    inverse_rounded(SIXTEEN, &Square::from_fn(SIXTEEN.length, shrunk))
}

/// "G = V·Q/(|Q|²+V), rounded likewise; 0 if V is 0."
pub fn shrunk(bin: Complex, noise: u64) -> Complex {
    if noise == 0 {
        return Complex { re: 0, im: 0 };
    }
    let square = u64::try_from(bin.squared()).expect("Q has at most 29 bits");
    bin.map(|part| rounded(noise as i64 * part, square + noise))
}

/// "P = real part of the inverse sum of G with C(k) and +S(k), divided by 2^32, rounded
/// likewise: 1/256 sample." For side 32, "P keeps its rule".
pub fn inverse_rounded(side: Side, bins: &Bins) -> Tile {
    inverse(side, bins).map(|&sum| rounded(sum, 1 << 32))
}

/// "Output = T0 − (sum ...)/(2^32·N), to nearest, halves upward, held to 0..4095."
fn merged_sample(reference: i64, sum: i64, count: i64) -> i64 {
    let unit = count << 32;
    let doubled = 2 * (reference * unit - sum) + unit;
    doubled.div_euclid(2 * unit).clamp(0, 4095)
}
