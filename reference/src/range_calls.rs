//! Calls of the range: ranges of every kind over the fixed calls, noise numbers at their limits, random ones, and each refusal.

use crate::calls::Call;
use crate::fixed_calls;
use crate::ghosts;
use crate::noise::{Curve, Noise};
use crate::random::Random;
use crate::range_call::RangeCall;
use crate::range_faults::{pairs_of_faults, refusals};
use crate::scenes;

/// Every count and reference at the smallest size, some at two greater ones, the longest frames, some of the aimed ones,
/// then the refusals.
pub fn calls() -> impl Iterator<Item = RangeCall> {
    let greater = [(128, 64, 1), (64, 192, 2)];
    let some = |(width, height, round)| of_size(width, height, round).step_by(9);
    of_size(64, 64, 0)
        .chain(greater.into_iter().flat_map(some))
        .chain(of_size(64, 4096, 2).skip(1).take(1))
        .chain(of_size(4096, 64, 3).skip(2).take(1))
        .chain(aimed().step_by(11))
        .chain(dark_parts())
        .chain(refusals())
        .chain(pairs_of_faults().map(|(_, call)| call))
}

/// The fixed calls of a size with eleven kinds of ranges in turn.
pub fn of_size(width: u64, height: u64, round: u64) -> impl Iterator<Item = RangeCall> {
    let calls = fixed_calls::of_size(16, width, height, round);
    (round as usize..).zip(calls).map(|(turn, low)| {
        let [lower, upper] = ends(turn);
        of_call(low, lower, upper)
    })
}

pub fn of_call(mut low: Call, lower: Noise, upper: Noise) -> RangeCall {
    low.noise = lower;
    let high = vec![44444; low.output.len()];
    RangeCall { low, upper, high }
}

pub fn curve(shot: f64, read: f64) -> Noise {
    Noise::Curve(Curve { shot, read })
}

pub fn iso(iso: u32, shot: f64, read: f64) -> Noise {
    Noise::Iso(iso, Curve { shot, read })
}

fn ends(turn: usize) -> [Noise; 2] {
    match turn % 11 {
        // All that there is.
        0 => [curve(0.0, 0.0), curve(64.0, 4096.0)],
        // Equal ends.
        1 => [curve(0.37, 100.0); 2],
        2 => [curve(0.25, 40.0), curve(0.5, 100.0)],
        3 => [curve(0.37, 0.0), curve(0.37, 100.0)],
        // The levels of read are one apart.
        4 => [curve(1.0, 20.0), curve(1.0, 20.0 + 1.0 / 1024.0)],
        5 => [iso(1600, 0.37, 2.5), iso(3200, 0.37, 2.5)],
        6 => [iso(3200, 0.0, 2.5), iso(3200, 2.0, 2.5)],
        // Black tiles have the noise number 0 at both ends.
        7 => [curve(0.0, 0.0), curve(0.37, 0.0)],
        // Other numbers of equal levels.
        8 => [curve(0.37, 100.0), curve(0.37 + EIGHTH, 100.0 + EIGHTH)],
        9 => [curve(63.9, 4090.0), curve(64.0, 4096.0)],
        // Equal after ISO.
        _ => [iso(200, 1.0, 1.0), iso(100, 2.0, 4.0)],
    }
}

/// An eighth of a level's step.
const EIGHTH: f64 = 1.0 / 8192.0;

/// Noise numbers at the limits, and bright objects that have moved: the call's own noise is the upper one.
pub fn aimed() -> impl Iterator<Item = RangeCall> {
    let calls = fixed_calls::noise_numbers()
        .chain(fixed_calls::white_references(16))
        .chain(ghosts::calls(16));
    (0..).zip(calls).map(|(turn, low)| {
        let upper = low.noise;
        let lower = upper.scaled_by(lowered(turn, upper.curve().expect("a good call")));
        of_call(low, lower, upper)
    })
}

/// What shot and read are taken times for the lower curve: nothing, almost all, or a half of one of them.
fn lowered(turn: usize, upper: Curve) -> [f64; 2] {
    let next = |value: f64| match value > 0.0 {
        true => (value - 1.0 / 1024.0).max(0.0) / value,
        false => 1.0,
    };
    match turn % 5 {
        0 => [0.0, 0.0],
        1 => [next(upper.shot), next(upper.read)],
        2 => [0.75, 0.9],
        3 => [0.5, 1.0],
        _ => [1.0, 0.5],
    }
}

/// Three frames of noise with shot noise alone: the reference is black in some planes, on the left, on the right or above, so
/// that in tiles there both noise numbers are 0, and not in those beside them.
fn dark_parts() -> impl Iterator<Item = RangeCall> {
    (0..)
        .zip(fixed_calls::dark_planes())
        .map(|(part, mut low)| {
            for row in 0..64 {
                for column in 0..64 {
                    let dark = [column < 32, column >= 32, row < 32][part % 3];
                    if !dark {
                        // The next frame's noise from elsewhere.
                        let noise = low.burst.samples[64 * (127 - row) + column];
                        low.burst.samples[64 * row + column] = noise;
                    }
                }
            }
            of_call(low, curve(0.25, 0.0), curve(0.5, 0.0))
        })
}

/// Calls of frames up to `side` in width and height, some with faults; half of the ranges begin or end at a noise of its own.
pub fn random(side: u64, count: usize, seed: u64) -> impl Iterator<Item = RangeCall> {
    let mut random = Random::new(seed);
    scenes::calls(side, count, seed).map(move |mut low| {
        if random.below(8) > 0 {
            low.tuning.spatial = 0;
            if low.tuning.side == 32 {
                low.set_side(16);
            }
        }
        let noise = low.noise;
        let mut factor = || random.pick(&[0.0, 0.5, 0.75, 0.999, 1.0, 1.0, 1.0, 1.001]);
        let lower = noise.scaled_by([factor(), factor()]);
        let mut call = of_call(low, lower, noise);
        if random.below(16) == 0 {
            call.high.push(0);
        }
        call
    })
}
