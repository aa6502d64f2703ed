//! Bursts that are black but for one sample of the reference: the rounding errors of all bins meet at its place.

use crate::burst::Burst;
use crate::calls::Call;
use crate::noise::{Curve, Levels, Noise, Tuning};
use crate::random::Random;
use crate::shape::Shape;

#[derive(Clone, Copy, Debug)]
pub struct LoneSample {
    pub count: u64,
    pub value: u16,
    /// Row and column in frame 0, the reference.
    pub place: [u64; 2],
    pub levels: Levels,
    pub tuning: Tuning,
}

/// The merge here is 118, and the exact one 118.5510720579...
pub const PLAIN: LoneSample = LoneSample {
    count: 8,
    value: 745,
    place: [36, 36],
    levels: Levels {
        shot: 0,
        read: 3422141,
    },
    tuning: Tuning {
        strength: 1024,
        side: 16,
        spatial: 0,
    },
};

/// The farthest that a search found with the spatial filter: the merge here is 38, and the exact one 38.5467884039...
pub const FILTERED: LoneSample = LoneSample {
    count: 5,
    value: 190,
    place: [44, 20],
    levels: Levels {
        shot: 12,
        read: 71276,
    },
    tuning: Tuning {
        strength: 1023,
        side: 16,
        spatial: 256,
    },
};

/// The farthest that a search found with side 32: the merge here is 393, and the exact one 393.7118421615...
pub const WIDE: LoneSample = LoneSample {
    count: 8,
    value: 2450,
    place: [40, 40],
    levels: Levels {
        shot: 62561,
        read: 4038866,
    },
    tuning: Tuning {
        strength: 1024,
        side: 32,
        spatial: 0,
    },
};

impl LoneSample {
    pub fn call(&self) -> Call {
        let size = frame_size(self.tuning.side);
        let shape = Shape::packed(size, size, self.count);
        let [row, column] = self.place;
        let mut samples = vec![0; shape.samples_length() as usize];
        samples[(row * shape.width + column) as usize] = self.value;
        let burst = Burst {
            shape,
            reference: 0,
            black: [0; 4],
            samples,
        };
        let noise = Noise::Curve(Curve::of_levels(self.levels));
        Call::fitting(burst, noise, self.tuning)
    }
}

/// Rows and columns of the frames: in the middle half of them no tile sees a sample twice.
fn frame_size(side: u64) -> u64 {
    4 * side
}

/// Lone samples of any height under the spatial filter, their noises of every size.
pub fn filtered(count: usize, seed: u64) -> impl Iterator<Item = LoneSample> {
    let mut random = Random::new(seed);
    (0..count).map(move |_| {
        let mut any_size = |limit: usize| random.below(limit) >> random.below(20);
        let levels = Levels {
            shot: any_size(65537) as u64,
            read: any_size(4194305) as u64,
        };
        let value = any_size(4095) as u16 + 1;
        // Far from the edges, where no tile sees it twice.
        let mut coordinate = || 16 + random.below(32) as u64;
        let place = [coordinate(), coordinate()];
        let strength = 1 + random.below(1024) as u64;
        let spatial = 1 + random.below(256) as u64;
        LoneSample {
            count: random.pick(&[1, 2, 3, 5, 8]),
            value,
            place,
            levels,
            tuning: Tuning {
                strength: random.pick(&[0, strength, 1024]),
                side: 16,
                spatial: random.pick(&[spatial, 256]),
            },
        }
    })
}

/// Lone samples without the filter for tiles of side 32, where the errors of bins add up: the noise is above the square of
/// most, and at every fourth row and column many bins are turned alike.
pub fn wide(count: usize, seed: u64) -> impl Iterator<Item = LoneSample> {
    let mut random = Random::new(seed);
    (0..count).map(move |_| {
        let mut coordinate = || 32 + 4 * random.below(16) as u64;
        let place = [coordinate(), coordinate()];
        LoneSample {
            count: 8,
            value: 1 + random.below(4095) as u16,
            place,
            levels: Levels {
                shot: random.below(65537) as u64,
                read: random.below(4194305) as u64,
            },
            tuning: Tuning {
                side: 32,
                ..Tuning::of_file(1024)
            },
        }
    })
}
