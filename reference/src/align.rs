//! Alignment: tiles of each level, their candidates, and the search around the guess.

use crate::burst::Burst;
use crate::image::Image;
use crate::pyramid::pyramid;
use crate::side::Side;
use crate::square::Square;

/// What align finds for a burst.
pub struct Alignment {
    /// "For each other frame in rising index, tiles go row by row, each as down, right."
    pub vectors: Vec<i32>,
    /// "per other frame in that order, the sum of finest residuals; the rest of its seven
    /// places are 0".
    pub residuals: [u64; 7],
    /// "how many tile rows it summed in all".
    pub rows: u64,
}

#[derive(Clone, Copy, Debug, PartialEq, Eq)]
struct Vector {
    down: i64,
    right: i64,
}

#[derive(Clone, Copy)]
enum Difference {
    Absolute,
    Squared,
}

/// One frame's vectors on one level, with the sum of their residuals.
struct Field {
    rows: i64,
    columns: i64,
    vectors: Vec<Vector>,
    residual: i64,
    /// Tile rows summed on this level and those above.
    summed: u64,
}

/// What the search of one tile finds.
struct Found {
    residual: i64,
    vector: Vector,
    /// Tile rows summed, candidates included.
    summed: u64,
}

/// With tiles of this side at level 0.
pub fn align(burst: &Burst, side: Side) -> Alignment {
    let reference = pyramid(burst, burst.reference);
    let mut alignment = Alignment {
        vectors: Vec::new(),
        residuals: [0; 7],
        rows: 0,
    };
    for (slot, frame) in burst.others().into_iter().enumerate() {
        let field = align_frame(side, &reference, &pyramid(burst, frame));
        alignment.residuals[slot] = field.residual as u64;
        alignment.rows += field.summed;
        for vector in field.vectors {
            let parts = [vector.down as i32, vector.right as i32];
            alignment.vectors.extend(parts);
        }
    }
    alignment
}

/// A coarser field as the next finer level uses it.
#[derive(Clone, Copy)]
struct Coarse<'a> {
    field: &'a Field,
    /// f: vectors are taken this many times.
    factor: i64,
    /// q: finer tiles per coarse tile.
    ratio: i64,
}

/// The field of level 0: "f = 2, q = 2 from level 1 to 0; f = 4, q = 4 from 2 to 1; f = 4,
/// q = 2 from 3 to 2". With side 32, "from level 1 to 0, q is then 1".
fn align_frame(side: Side, reference: &[Image; 4], other: &[Image; 4]) -> Field {
    // "Tiles have side 16 (8 at level 3)"; "the levels above keep their tiles".
    let sides = [side.length as i64, 16, 16, 8];
    let search =
        |level: usize, coarse| Pair::new(level, sides[level], reference, other).search(coarse);
    let led = |level, field, factor, ratio| {
        let coarse = Coarse {
            field,
            factor,
            ratio,
        };
        search(level, Some(coarse))
    };
    let level_3 = search(3, None);
    let level_2 = led(2, &level_3, 4, 2);
    let level_1 = led(1, &level_2, 4, 4);
    led(0, &level_1, 2, 32 / side.length as i64)
}

/// The reference and another frame on one level.
struct Pair<'a> {
    reference: &'a Image,
    other: &'a Image,
    side: i64,
    difference: Difference,
    offsets: Vec<(i64, i64)>,
}

impl<'a> Pair<'a> {
    /// "squared differences at levels 3 to 1, absolute at level 0".
    fn new(level: usize, side: i64, reference: &'a [Image; 4], other: &'a [Image; 4]) -> Pair<'a> {
        Pair {
            reference: &reference[level],
            other: &other[level],
            side,
            difference: match level {
                0 => Difference::Absolute,
                _ => Difference::Squared,
            },
            offsets: offsets_in_tie_order(),
        }
    }

    /// "half step s = 8 (4)".
    fn step(&self) -> i64 {
        self.side / 2
    }

    /// "Indices run from 0 to ceil(size/s)."
    fn tiles(&self, size: i64) -> i64 {
        (size + self.step() - 1) / self.step() + 1
    }

    fn search(&self, coarse: Option<Coarse>) -> Field {
        let mut field = Field {
            rows: self.tiles(self.reference.height),
            columns: self.tiles(self.reference.width),
            vectors: Vec::new(),
            residual: 0,
            summed: coarse.map_or(0, |coarse| coarse.field.summed),
        };
        for row in 0..field.rows {
            for column in 0..field.columns {
                let found = TilePair::new(self, row, column).search(coarse);
                field.residual += found.residual;
                field.vectors.push(found.vector);
                field.summed += found.summed;
            }
        }
        field
    }
}

/// One tile of a pair.
struct TilePair<'a> {
    pair: &'a Pair<'a>,
    row: i64,
    column: i64,
    top: i64,
    left: i64,
    /// The reference's.
    tile: Square<i32>,
}

impl<'a> TilePair<'a> {
    fn new(pair: &'a Pair<'a>, row: i64, column: i64) -> TilePair<'a> {
        // "origin −s + s·index, both ways"
        let (top, left) = (pair.step() * (row - 1), pair.step() * (column - 1));
        TilePair {
            pair,
            row,
            column,
            top,
            left,
            tile: pair.reference.square(top, left, pair.side),
        }
    }

    /// "At level 3 the guess is (0,0)"; elsewhere "the three candidates are always summed whole".
    fn search(&self, coarse: Option<Coarse>) -> Found {
        let coarse = match coarse {
            Some(coarse) => coarse,
            None => return self.best_around(Vector { down: 0, right: 0 }),
        };
        let candidates = self.candidates(coarse);
        let mut found = self.best_around(self.guess(&candidates));
        found.summed += (candidates.len() * self.tile.side()) as u64;
        found
    }

    /// "least sum of absolute differences becomes the guess, the earlier on a tie".
    fn guess(&self, candidates: &[Vector; 3]) -> Vector {
        let sum = |vector: &&Vector| -> i64 {
            let moved = self.moved(**vector, self.pair.side);
            row_sums(Difference::Absolute, &self.tile, &moved, 0, 0).sum()
        };
        // The first of equal minima is taken.
        *candidates.iter().min_by_key(sum).unwrap()
    }

    /// "Three candidates, their vectors times f: own; neighbour sideways; neighbour
    /// vertically."
    fn candidates(&self, coarse: Coarse) -> [Vector; 3] {
        let Coarse {
            field,
            factor,
            ratio,
        } = coarse;
        let row = own_and_neighbour(self.row, ratio, field.rows - 1);
        let column = own_and_neighbour(self.column, ratio, field.columns - 1);
        let scaled = |row: i64, column: i64| {
            let vector = field.vectors[(row * field.columns + column) as usize];
            Vector {
                down: factor * vector.down,
                right: factor * vector.right,
            }
        };
        [
            scaled(row.own, column.own),
            scaled(row.own, column.neighbour),
            scaled(row.neighbour, column.own),
        ]
    }

    /// "all offsets −4..4 in both directions". Sums are whole: in tie order a later offset has to be better.
    fn best_around(&self, guess: Vector) -> Found {
        let plus = |down, right| Vector {
            down: guess.down + down,
            right: guess.right + right,
        };
        let around = self.moved(plus(-4, -4), self.pair.side + 8);
        let mut best = Found {
            residual: i64::MAX,
            vector: guess,
            summed: 0,
        };
        for &(down, right) in &self.pair.offsets {
            let (row, column) = ((down + 4) as usize, (right + 4) as usize);
            let sums = row_sums(self.pair.difference, &self.tile, &around, row, column);
            let (residual, rows) = sum_and_rows(best.residual, sums);
            best.summed += rows;
            if residual < best.residual {
                best.residual = residual;
                best.vector = plus(down, right);
            }
        }
        best
    }

    /// The other frame's square that begins at the tile's origin moved by `vector`.
    fn moved(&self, vector: Vector, side: i64) -> Square<i32> {
        let (top, left) = (self.top + vector.down, self.left + vector.right);
        self.pair.other.square(top, left, side)
    }
}

/// "Ties: smaller |down|+|right| offset, then smaller down, then smaller right."
fn offsets_in_tie_order() -> Vec<(i64, i64)> {
    let all = (-4..=4).flat_map(|down| (-4..=4).map(move |right| (down, right)));
    let mut offsets: Vec<(i64, i64)> = all.collect();
    offsets.sort_by_key(|&(down, right)| (down.abs() + right.abs(), down, right));
    offsets
}

/// The whole sum, and the rows summed when an offset is left "after the row at which its running total reaches the best
/// so far".
fn sum_and_rows(best: i64, sums: impl Iterator<Item = i64>) -> (i64, u64) {
    let (mut total, mut rows) = (0, 0);
    for sum in sums {
        if rows == 0 || total < best {
            rows += 1;
        }
        total += sum;
    }
    (total, rows)
}

/// The sums over the rows of a tile and of the part of `around` that begins at `row` and `column`.
fn row_sums<'a>(
    difference: Difference,
    tile: &'a Square<i32>,
    around: &'a Square<i32>,
    row: usize,
    column: usize,
) -> impl Iterator<Item = i64> + 'a {
    (0..tile.side()).map(move |y| {
        let moved = &around.row(row + y)[column..][..tile.side()];
        let pixels = tile.row(y).iter().zip(moved);
        let distances = pixels.map(|(a, b)| i64::from(a.abs_diff(*b)));
        match difference {
            Difference::Absolute => distances.sum(),
            Difference::Squared => distances.map(|distance| distance * distance).sum(),
        }
    })
}

/// Coarse indices of a tile in one direction.
#[derive(Debug, PartialEq, Eq)]
pub struct CoarseIndices {
    pub own: i64,
    pub neighbour: i64,
}

/// "Own coarse index of a: floor((2a+q)/(2q)). The neighbour is floor(a/q) if that is below
/// own, else own + 1. Both are capped at the last index."
pub fn own_and_neighbour(index: i64, ratio: i64, last: i64) -> CoarseIndices {
    let own = (2 * index + ratio) / (2 * ratio);
    let below = index / ratio;
    let neighbour = if below < own { below } else { own + 1 };
    CoarseIndices {
        own: own.min(last),
        neighbour: neighbour.min(last),
    }
}

#[cfg(test)]
mod tests {
    use super::*;

    #[test]
    fn rows_until_the_best_is_reached() {
        let sums = [3, 3, 4, 9];
        let rows = |best| sum_and_rows(best, sums.into_iter());
        assert_eq!(
            [0, 3, 4, 6, 7, 10].map(rows),
            [1, 1, 2, 2, 3, 3].map(|rows| (19, rows))
        );
        assert_eq!([11, 19, 20, i64::MAX].map(rows), [(19, 4); 4]);
    }

    #[test]
    fn offset_zero_comes_first() {
        let offsets = offsets_in_tie_order();
        assert_eq!(offsets.len(), 81);
        let first = [(0, 0), (-1, 0), (0, -1), (0, 1), (1, 0), (-2, 0), (-1, -1)];
        assert_eq!(offsets[..7], first);
        assert_eq!(offsets[80], (4, 4));
    }
}
