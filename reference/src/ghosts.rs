//! Calls aimed at the ceiling on leaks: a bright object that has moved, at every side, strength and count.

use crate::burst::Burst;
use crate::calls::Call;
use crate::noise::{whole_root, Curve, Noise, Tuning};
use crate::random::Random;
use crate::shape::Shape;

/// Rows and columns of a frame.
const FRAME: u64 = 64;

/// Row and column at which the object begins in the reference.
const PLACE: u64 = 30;

/// Where the object stands in the other frames.
#[derive(Clone, Copy)]
enum Motion {
    /// Where the reference has it, but lent vectors of ±172 read the frames elsewhere.
    Lent,
    /// Nowhere.
    Gone,
    /// Some samples farther down and right, in each frame by another step.
    Moving,
}

#[derive(Clone, Copy)]
struct Ghost {
    /// Of the tiles.
    side: u64,
    strength: u64,
    count: u64,
    motion: Motion,
    /// Rows and columns of the object.
    size: u64,
    /// The noise is all shot noise, or all read noise.
    shot: bool,
}

/// Every strength with every count and motion; the object's sizes and the noises take turns.
pub fn calls(side: u64) -> impl Iterator<Item = Call> {
    let strengths = [0, 8, 64, 600, 1024].into_iter();
    let counts = strengths.flat_map(|strength| (1..=8).map(move |count| (strength, count)));
    let motions = [Motion::Lent, Motion::Gone, Motion::Moving];
    let each =
        counts.flat_map(move |(strength, count)| motions.map(|motion| (strength, count, motion)));
    let mut random = Random::new(9);
    (0..)
        .zip(each)
        .map(move |(turn, (strength, count, motion))| {
            let ghost = Ghost {
                side,
                strength,
                count,
                motion,
                size: [2, 2, 6, 2, 20][turn % 5],
                shot: turn % 2 == 0,
            };
            ghost.call(&mut random)
        })
}

impl Ghost {
    fn call(&self, random: &mut Random) -> Call {
        let shape = Shape::packed(FRAME, FRAME, self.count);
        let reference = random.below(self.count as usize) as u64;
        let frame = |frame| self.frame(self.place(frame, reference));
        let samples = (0..self.count).map(frame).collect::<Vec<_>>().concat();
        let burst = Burst {
            shape,
            reference,
            black: [0; 4],
            samples,
        };
        let tuning = Tuning {
            side: self.side,
            ..Tuning::of_file(self.strength)
        };
        let mut call = Call::fitting(burst, self.noise(), tuning);
        if let Motion::Lent = self.motion {
            call.vectors.fill_with(|| random.pick(&[-172, 172]));
        }
        call
    }

    fn noise(&self) -> Noise {
        let (shot, read) = if self.shot {
            (64.0, 0.0)
        } else {
            (0.0, 4096.0)
        };
        Noise::Curve(Curve { shot, read })
    }

    /// The object's first row and column in a frame.
    fn place(&self, frame: u64, reference: u64) -> Option<u64> {
        match self.motion {
            Motion::Lent => Some(PLACE),
            _ if frame == reference => Some(PLACE),
            Motion::Gone => None,
            Motion::Moving => Some(PLACE + 3 * (frame + 1)),
        }
    }

    /// A black frame with the object.
    fn frame(&self, place: Option<u64>) -> Vec<u16> {
        let mut samples = vec![0; (FRAME * FRAME) as usize];
        if let Some(place) = place {
            for row in place..FRAME.min(place + self.size) {
                let line = &mut samples[(row * FRAME) as usize..][..FRAME as usize];
                line[place as usize..FRAME.min(place + self.size) as usize].fill(self.brightness());
            }
        }
        samples
    }

    /// The most leaks where a difference of one sample in each plane is as large as the noise's root: read noise of 4096
    /// gives tiles of side n a V of 64·n²·t squared samples, and shot noise of 64 beside a lone sample x one of n·t·x.
    fn brightness(&self) -> u16 {
        let brightness = match (self.strength, self.shot) {
            (0, _) => 4095,
            (strength, true) => self.side * strength,
            (strength, false) => whole_root(64 * self.side.pow(2) * strength),
        };
        brightness.min(4095) as u16
    }
}
