//! The calls align, merge, run and the choosing run: their refusals in order, then their work.

use crate::align;
use crate::burst::Burst;
use crate::merge::{self, Setting};
use crate::noise::{Noise, NoiseModel, Tuning};
use crate::refusal::{require, Refusal};
use crate::sharpness::sharpest;
use crate::side::Side;

/// A call's arguments and lent buffers; of the work area only the length matters here.
#[derive(Clone)]
pub struct Call {
    pub burst: Burst,
    pub noise: Noise,
    pub tuning: Tuning,
    pub vectors: Vec<i32>,
    pub output: Vec<u16>,
    pub work_length: u64,
}

/// "Align, and so run, also returns ... the sum of finest residuals", and "how many tile rows it summed in all".
#[derive(Clone, Copy, Debug, Default, PartialEq, Eq)]
pub struct Answer {
    pub number: u64,
    pub residuals: [u64; 7],
    pub rows: u64,
}

impl Call {
    /// A call whose buffers have the right lengths: vectors of 0, and an output that no merge leaves.
    pub fn fitting(burst: Burst, noise: Noise, tuning: Tuning) -> Call {
        let shape = burst.shape;
        let mut call = Call {
            burst,
            noise,
            tuning,
            vectors: Vec::new(),
            output: vec![55555; shape.output_length() as usize],
            work_length: shape.work_length(),
        };
        call.set_side(tuning.side);
        call
    }

    /// Takes tiles of this side; the vectors get the length that it asks for, where burst and side are allowed.
    pub fn set_side(&mut self, side: u64) {
        self.tuning.side = side;
        if let (Ok(()), Ok(side)) = (self.burst.shape.check(), Side::of(side)) {
            let length = self.burst.shape.vectors_length(side);
            self.vectors.resize(length as usize, 0);
        }
    }

    /// "align (burst to vectors)".
    pub fn align(&mut self) -> Answer {
        let accepted = self.check_align();
        answer(accepted.map(|side| self.find_vectors(side)))
    }

    /// "merge (burst and lent vectors to output, the vectors only read)".
    pub fn merge(&mut self) -> Answer {
        let accepted = self.check_merge();
        answer(accepted.map(|(side, noise)| {
            self.merge_output(side, noise);
            Answer::default()
        }))
    }

    /// "run (align, then merge)".
    pub fn run(&mut self) -> Answer {
        let accepted = self.check_run();
        answer(accepted.map(|(side, noise)| {
            let found = self.find_vectors(side);
            self.merge_output(side, noise);
            found
        }))
    }

    /// Run with the sharpest frame as the reference: "The new call reports the chosen index; its merged frame, vectors,
    /// other answers and refusals are those run gives with that index." The index is 0 beside a refusal.
    pub fn choose(&mut self) -> (Answer, u64) {
        // "Refusal 3 has no place in this call."
        self.burst.reference = 0;
        if self.check_run().is_ok() {
            self.burst.reference = sharpest(&self.burst);
        }
        (self.run(), self.burst.reference)
    }

    /// What an accepted merge rests on, or refusal 22, 8, 9 or 10.
    pub fn setting(&self) -> Result<Setting<'_>, Refusal> {
        let side = Side::of(self.tuning.side)?;
        let noise = self.noise.model(self.tuning)?;
        Ok(self.setting_with(side, noise))
    }

    pub fn setting_with(&self, side: Side, noise: NoiseModel) -> Setting<'_> {
        Setting {
            burst: &self.burst,
            vectors: &self.vectors,
            side,
            noise,
        }
    }

    /// "Align tests 1 to 5, 7, 11", and 22 and 23 before 4.
    fn check_align(&self) -> Result<Side, Refusal> {
        let side = self.check_burst()?;
        self.check_work_length()?;
        self.check_samples()?;
        Ok(side)
    }

    /// Run's refusals, then 12.
    fn check_merge(&self) -> Result<(Side, NoiseModel), Refusal> {
        let accepted = self.check_run()?;
        self.check_vectors()?;
        Ok(accepted)
    }

    /// Refusals 1 to 10, with 22 and 23 before 4, then 18, 24, 25 and 11: vectors found level by level reach at most 4, 20,
    /// 84 and 172, so run has no 12.
    fn check_run(&self) -> Result<(Side, NoiseModel), Refusal> {
        let side = self.check_burst()?;
        self.check_output_length(&self.output)?;
        self.check_work_length()?;
        let noise = self.noise.model(self.tuning)?;
        self.check_black()?;
        self.tuning.check_spatial()?;
        self.check_samples()?;
        Ok((side, noise))
    }

    /// Refusals 1, 2, 3, 22, 23, 4 and 5.
    pub fn check_burst(&self) -> Result<Side, Refusal> {
        self.check_frames()?;
        let side = Side::of(self.tuning.side)?;
        self.check_lengths(side)?;
        Ok(side)
    }

    /// Refusals 1, 2 and 3.
    pub fn check_frames(&self) -> Result<(), Refusal> {
        self.burst.shape.check()?;
        self.burst.shape.check_reference(self.burst.reference)
    }

    /// Refusals 23, 4 and 5.
    pub fn check_lengths(&self, side: Side) -> Result<(), Refusal> {
        let shape = self.burst.shape;
        shape.check_row_length()?;
        let samples = self.burst.samples.len() as u64;
        require(samples == shape.samples_length(), Refusal::SamplesLength)?;
        let vectors = self.vectors.len() as u64;
        require(
            vectors == shape.vectors_length(side),
            Refusal::VectorsLength,
        )
    }

    /// Refusal 6 of a lent frame.
    pub fn check_output_length(&self, output: &[u16]) -> Result<(), Refusal> {
        let length = output.len() as u64;
        require(
            length == self.burst.shape.output_length(),
            Refusal::OutputLength,
        )
    }

    /// Refusal 7.
    pub fn check_work_length(&self) -> Result<(), Refusal> {
        require(
            self.work_length == self.burst.shape.work_length(),
            Refusal::WorkLength,
        )
    }

    /// Refusal 18: "a black level above 255".
    pub fn check_black(&self) -> Result<(), Refusal> {
        let allowed = self.burst.black.iter().all(|&black| black <= 255);
        require(allowed, Refusal::BlackLevel)
    }

    /// Refusal 11: "sample > 4095". "Spare words may hold anything."
    pub fn check_samples(&self) -> Result<(), Refusal> {
        let mut samples = self.burst.rows().flatten();
        require(samples.all(|&sample| sample <= 4095), Refusal::Sample)
    }

    /// Refusal 12: "vector part outside −172..172".
    pub fn check_vectors(&self) -> Result<(), Refusal> {
        let mut parts = self.vectors.iter();
        require(
            parts.all(|part| (-172..=172).contains(part)),
            Refusal::Vector,
        )
    }

    fn find_vectors(&mut self, side: Side) -> Answer {
        let alignment = align::align(&self.burst, side);
        self.vectors = alignment.vectors;
        Answer {
            number: 0,
            residuals: alignment.residuals,
            rows: alignment.rows,
        }
    }

    fn merge_output(&mut self, side: Side, noise: NoiseModel) {
        self.output = merge::merge(&self.setting_with(side, noise));
    }
}

/// "beside a refusal every other returned field is 0".
fn answer(accepted: Result<Answer, Refusal>) -> Answer {
    accepted.unwrap_or_else(|refusal| Answer {
        number: refusal.number(),
        ..Answer::default()
    })
}
