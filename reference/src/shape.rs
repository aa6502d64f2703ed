//! Width, height, frame count and row length, and the lengths that follow from them.

use crate::refusal::{require, Refusal};
use crate::side::Side;

#[derive(Clone, Copy, Debug, PartialEq, Eq)]
pub struct Shape {
    pub width: u64,
    pub height: u64,
    pub count: u64,
    /// "The burst gains a row length L": W words of samples, then spare ones.
    pub row_length: u64,
}

impl Shape {
    /// Rows without spare words.
    pub fn packed(width: u64, height: u64, count: u64) -> Shape {
        Shape {
            width,
            height,
            count,
            row_length: width,
        }
    }

    /// Refusals 1 and 2.
    pub fn check(&self) -> Result<(), Refusal> {
        require(size_allowed(self.width, self.height), Refusal::Size)?;
        require((1..=8).contains(&self.count), Refusal::Count)
    }

    /// Refusal 3: "reference ≥ N".
    pub fn check_reference(&self, reference: u64) -> Result<(), Refusal> {
        require(reference < self.count, Refusal::Reference)
    }

    /// Refusal 23: "a row length outside that range", "from W to W + 256".
    pub fn check_row_length(&self) -> Result<(), Refusal> {
        let allowed = self.width..=self.width + 256;
        require(allowed.contains(&self.row_length), Refusal::RowLength)
    }

    /// "sample length is N·L·H".
    pub fn samples_length(&self) -> u64 {
        self.count * self.row_length * self.height
    }

    /// "vectors (N−1)·2·(W/16+1)·(H/16+1)", "per frame: 2·(W/32+1)·(H/32+1)", 0 for a lone frame.
    pub fn vectors_length(&self, side: Side) -> u64 {
        (self.count - 1) * 2 * self.tiles(side)
    }

    /// "output W·H".
    pub fn output_length(&self) -> u64 {
        self.width * self.height
    }

    /// "work area 2·W·H signed 64-bit words".
    pub fn work_length(&self) -> u64 {
        2 * self.output_length()
    }

    /// Tiles of level 0, and so of each plane.
    pub fn tiles(&self, side: Side) -> u64 {
        let side = side.length as u64;
        (self.width / side + 1) * (self.height / side + 1)
    }
}

/// "Width W and height H are multiples of 64 from 64 to 4096."
pub fn size_allowed(width: u64, height: u64) -> bool {
    let allowed = |side: u64| side % 64 == 0 && (64..=4096).contains(&side);
    allowed(width) && allowed(height)
}
