//! The finest residual of each tile at its lent vector, as a call: its refusals in order, then its work.

use crate::burst::Burst;
use crate::calls::Call;
use crate::refusal::{number, require, Refusal};
use crate::side::Side;

#[derive(Clone)]
pub struct ResidualsCall {
    /// Burst, side, vectors and the work area's length; nothing else of it counts.
    pub call: Call,
    /// "For each other frame in rising index, tiles go row by row."
    pub residuals: Vec<u64>,
}

impl ResidualsCall {
    /// A call of merge with a buffer for the residuals: of the right length, or of the output's where that is wrong.
    pub fn of_call(call: Call) -> ResidualsCall {
        let fits = call.burst.shape.check().is_ok()
            && call.check_output_length(&call.output).is_ok()
            && Side::of(call.tuning.side).is_ok();
        let length = match fits {
            true => call.vectors.len() / 2,
            false => call.output.len(),
        };
        let residuals = vec![66666; length];
        ResidualsCall { call, residuals }
    }

    /// The refusal's number, or 0.
    pub fn perform(&mut self) -> u64 {
        let found = self
            .check()
            .map(|side| residuals(&self.call.burst, side, &self.call.vectors));
        let number = number(&found);
        if let Ok(residuals) = found {
            self.residuals = residuals;
        }
        number
    }

    /// Align's refusals, with 6 of the residuals' length before 7, then 12.
    fn check(&self) -> Result<Side, Refusal> {
        let call = &self.call;
        let side = call.check_burst()?;
        let length = (call.burst.shape.count - 1) * call.burst.shape.tiles(side);
        require(self.residuals.len() as u64 == length, Refusal::OutputLength)?;
        call.check_work_length()?;
        call.check_samples()?;
        call.check_vectors()?;
        Ok(side)
    }
}

/// Sums of absolute differences at level 0 between the reference's tile and the other frame's, moved by its vector.
fn residuals(burst: &Burst, side: Side, vectors: &[i32]) -> Vec<u64> {
    let reference = burst.square_sums(burst.reference);
    let tile_rows = reference.height / side.step() + 1;
    let tile_columns = reference.width / side.step() + 1;
    let mut vectors = vectors.chunks(2);
    let mut residuals = Vec::new();
    for frame in burst.others() {
        let other = burst.square_sums(frame);
        for row in 0..tile_rows {
            for column in 0..tile_columns {
                let vector = vectors.next().expect("a vector for each tile");
                let (top, left) = (side.step() * (row - 1), side.step() * (column - 1));
                let (down, right) = (i64::from(vector[0]), i64::from(vector[1]));
                let length = side.length as i64;
                let tile = reference.square(top, left, length);
                let moved = other.square(top + down, left + right, length);
                let pixels = tile.iter().zip(moved.iter());
                residuals.push(pixels.map(|(a, b)| u64::from(a.abs_diff(*b))).sum());
            }
        }
    }
    residuals
}
