//! Frames merged with curves between the ends of a range: each word has to lie between low and high.

use crate::noise::{Curve, Noise};
use crate::random::Random;
use crate::range_call::RangeCall;
use std::fmt;

/// What many such frames come to.
#[derive(Clone, Copy, Debug, Default, PartialEq, Eq)]
pub struct Between {
    pub frames: u64,
    pub words: u64,
    /// Words that are not between low and high.
    pub outside: u64,
    /// The most steps from a low word to its high one.
    pub widest: u16,
}

impl Between {
    /// Adds frames of an accepted call, merged with twenty curves.
    pub fn add(&mut self, call: &RangeCall, random: &mut Random) {
        let [lower, upper] = call.curves().expect("an accepted call");
        let frames = || call.low.output.iter().zip(&call.high);
        let widths = frames().map(|(low, high)| high.abs_diff(*low));
        self.widest = widths.fold(self.widest, u16::max);
        for curve in curves(lower, upper, random) {
            let mut between = call.low.clone();
            between.noise = Noise::Curve(curve);
            between.merge();
            let words = between.output.iter().zip(frames());
            let outside = words.filter(|(word, (low, high))| word < low || word > high);
            self.outside += outside.count() as u64;
            self.words += call.high.len() as u64;
            self.frames += 1;
        }
    }
}

impl fmt::Display for Between {
    fn fmt(&self, out: &mut fmt::Formatter) -> fmt::Result {
        let Between {
            frames,
            words,
            outside,
            widest,
        } = self;
        write!(
            out,
            "{frames} frames merged between the ends, {outside} of {words} words outside; low and high at most {widest} steps apart"
        )
    }
}

/// The four corners, two in the middle, and fourteen at random, half of them near the lower end.
fn curves(lower: Curve, upper: Curve, random: &mut Random) -> Vec<Curve> {
    let mut places = vec![
        [0.0, 0.0],
        [0.0, 1.0],
        [1.0, 0.0],
        [1.0, 1.0],
        [0.5, 0.5],
        [0.001, 0.001],
    ];
    for steepness in [1, 6] {
        for _ in 0..7 {
            let mut fraction = || (random.below(1 << 20) as f64 / 1048576.0).powi(steepness);
            places.push([fraction(), fraction()]);
        }
    }
    let curve = |[shot, read]: [f64; 2]| Curve {
        shot: part(lower.shot, upper.shot, shot),
        read: part(lower.read, upper.read, read),
    };
    places.into_iter().map(curve).collect()
}

/// The part of the way from one number up to another, held between them.
fn part(from: f64, to: f64, fraction: f64) -> f64 {
    (from + fraction * (to - from)).max(from).min(to)
}

#[cfg(test)]
mod tests {
    use super::*;

    #[test]
    fn twenty_curves_between() {
        let curve = |shot, read| Curve { shot, read };
        let (lower, upper) = (curve(0.1, 0.0), curve(0.3, 4096.0));
        let curves = curves(lower, upper, &mut Random::new(1));
        assert_eq!(curves.len(), 20);
        assert!(curves.contains(&lower) && curves.contains(&upper));
        assert!(curves.contains(&curve(0.1, 4096.0)) && curves.contains(&curve(0.3, 0.0)));
        let between = |curve: &Curve| {
            (0.1..=0.3).contains(&curve.shot) && (0.0..=4096.0).contains(&curve.read)
        };
        assert!(curves.iter().all(between));
    }
}
