//! The ceiling on what leaks into the reference: how far a merged sample lies from the reference sample, beside "one step
//! plus half the square root of the largest noise number (in squared samples) of the four tiles over it".

use crate::merge::{covering_tiles, Cover, Setting};
use crate::noise::whole_root;
use std::fmt;

/// The leak at one merged sample.
#[derive(Clone, Copy, Debug, Default, PartialEq, Eq)]
pub struct Leak {
    /// From the reference sample to the merged one.
    pub steps: u64,
    /// The largest V of the four tiles over it, in 1/256 of a squared sample: with side 32, 16·V.
    pub noise: u64,
}

impl Leak {
    /// Half the root of V/256 is the root of V/1024.
    pub fn allowed(self) -> bool {
        1024 * self.beyond_one() <= self.noise
    }

    /// The greatest whole distance that is allowed.
    pub fn ceiling(self) -> u64 {
        1 + whole_root(self.noise / 1024)
    }

    /// Whether more of what is allowed beyond one step is taken here than there; a V of 0 counts as 1.
    fn nearer_than(self, other: Leak) -> bool {
        self.beyond_one() * other.noise.max(1) > other.beyond_one() * self.noise.max(1)
    }

    /// The square of the distance beyond one step.
    fn beyond_one(self) -> u64 {
        self.steps.saturating_sub(1).pow(2)
    }
}

/// The leaks of a merged frame, row by row.
pub fn leaks(setting: &Setting, output: &[u16]) -> Vec<Leak> {
    let noises = setting
        .planes()
        .map(|plane| plane.for_tiles(|row, column| plane.noise_number(row, column)));
    let width = setting.burst.shape.width as usize;
    let scale = 256 / setting.side.bin_parts.pow(2);
    let leak = |(index, &word): (usize, &u16)| {
        let (row, column) = ((index / width) as i64, (index % width) as i64);
        let noises = &noises[(2 * (row % 2) + column % 2) as usize];
        let noise = |cover: Cover| noises[cover.tile_row as usize][cover.tile_column as usize];
        let tiles = covering_tiles(setting.side, row / 2, column / 2).map(noise);
        let sample = setting.burst.sample(setting.burst.reference, row, column);
        Leak {
            steps: sample.abs_diff(word.into()),
            noise: scale * tiles.into_iter().fold(0, u64::max),
        }
    };
    output.iter().enumerate().map(leak).collect()
}

/// What many leaks come to.
#[derive(Clone, Copy, Debug, Default, PartialEq, Eq)]
pub struct Leaks {
    pub words: u64,
    /// The first that is not allowed.
    pub forbidden: Option<Leak>,
    /// The first of the greatest distances.
    pub farthest: Leak,
    /// The first of those that take the most of what is allowed beyond one step.
    pub nearest: Leak,
}

impl Leaks {
    pub fn add(&mut self, leak: Leak) {
        self.words += 1;
        if !leak.allowed() {
            self.forbidden = self.forbidden.or(Some(leak));
        }
        if leak.steps > self.farthest.steps {
            self.farthest = leak;
        }
        if leak.nearer_than(self.nearest) {
            self.nearest = leak;
        }
    }
}

impl fmt::Display for Leak {
    fn fmt(&self, out: &mut fmt::Formatter) -> fmt::Result {
        write!(out, "{} of {}", self.steps, self.ceiling())
    }
}

impl fmt::Display for Leaks {
    fn fmt(&self, out: &mut fmt::Formatter) -> fmt::Result {
        let Leaks {
            words,
            farthest,
            nearest,
            ..
        } = self;
        write!(
            out,
            "{words} words at most {farthest} steps off the reference, nearest to the ceiling {nearest}"
        )
    }
}

#[cfg(test)]
mod tests {
    use super::*;

    fn leak(steps: u64, noise: u64) -> Leak {
        Leak { steps, noise }
    }

    #[test]
    fn the_ceiling_is_met_exactly() {
        for (noise, ceiling) in [
            (0, 1),
            (1023, 1),
            (1024, 2),
            (4095, 2),
            (4096, 3),
            (1 << 32, 2049),
        ] {
            assert_eq!(leak(0, noise).ceiling(), ceiling);
            assert!(leak(ceiling, noise).allowed());
            assert!(!leak(ceiling + 1, noise).allowed());
        }
    }

    #[test]
    fn the_farthest_and_the_nearest_are_kept() {
        let mut leaks = Leaks::default();
        for each in [
            leak(0, 0),
            leak(1, 0),
            leak(9, 1 << 20),
            leak(3, 4096),
            leak(5, 1 << 30),
        ] {
            leaks.add(each);
        }
        assert_eq!((leaks.words, leaks.forbidden), (5, None));
        assert_eq!(
            (leaks.farthest, leaks.nearest),
            (leak(9, 1 << 20), leak(3, 4096))
        );
        leaks.add(leak(2, 0));
        assert_eq!(
            (leaks.nearest, leaks.forbidden),
            (leak(2, 0), Some(leak(2, 0)))
        );
    }
}
