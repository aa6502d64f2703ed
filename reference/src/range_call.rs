//! The call for noise that is known only as a range: its refusals in order, then its work.

use crate::calls::Call;
use crate::merge::Setting;
use crate::noise::{Curve, Levels, Noise, NoiseModel};
use crate::range::range;
use crate::refusal::{number, require, Refusal};
use crate::side::SIXTEEN;

#[derive(Clone)]
pub struct RangeCall {
    /// Burst, tuning and buffers; its noise is the lower one, and its output the low frame.
    pub low: Call,
    pub upper: Noise,
    pub high: Vec<u16>,
}

impl RangeCall {
    /// "Give two frames, low and high, from lent vectors under merge's tests"; the refusal's number, or 0.
    pub fn perform(&mut self) -> u64 {
        let frames = self.check().map(|levels| {
            let [lower, upper] = levels.map(|levels| self.setting(levels));
            range(&lower, &upper)
        });
        let number = number(&frames);
        if let Ok([low, high]) = frames {
            self.low.output = low;
            self.high = high;
        }
        number
    }

    /// The number that the call answers.
    pub fn refusal(&self) -> u64 {
        number(&self.check())
    }

    /// The curves of the two ends after ISO, or refusal 8.
    pub fn curves(&self) -> Result<[Curve; 2], Refusal> {
        Ok([self.low.noise.curve()?, self.upper.curve()?])
    }

    fn setting(&self, levels: Levels) -> Setting<'_> {
        let tuning = self.low.tuning;
        self.low
            .setting_with(SIXTEEN, NoiseModel { levels, tuning })
    }

    /// Merge's refusals, but 22 unless the side is 16, 24 unless s is 0, and 26 after 9; "8 and 9 read both curves", and 6
    /// looks at both frames. The levels of the two ends.
    fn check(&self) -> Result<[Levels; 2], Refusal> {
        let low = &self.low;
        low.check_frames()?;
        require(low.tuning.side == 16, Refusal::Side)?;
        low.check_lengths(SIXTEEN)?;
        low.check_output_length(&low.output)?;
        low.check_output_length(&self.high)?;
        low.check_work_length()?;
        let levels = self.check_curves()?;
        low.tuning.check_strength()?;
        low.check_black()?;
        require(low.tuning.spatial == 0, Refusal::Spatial)?;
        low.check_samples()?;
        low.check_vectors()?;
        Ok(levels)
    }

    /// Refusals 8, 9 and 26: "a lower shot or read above its upper one after ISO".
    fn check_curves(&self) -> Result<[Levels; 2], Refusal> {
        let [lower, upper] = self.curves()?;
        let levels = [lower.levels()?, upper.levels()?];
        let ordered = lower.shot <= upper.shot && lower.read <= upper.read;
        require(ordered, Refusal::Range)?;
        Ok(levels)
    }
}
