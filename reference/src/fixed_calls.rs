//! Fixed lists of library calls: every frame count and reference, every kind of picture, noise and
//! lent vectors at both sides, from the smallest frames to 1024 by 1024 and 64 by 4096, and reads far outside.

use crate::burst::Burst;
use crate::calls::Call;
use crate::filtered_calls;
use crate::ghosts;
use crate::noise::{Curve, Levels, Noise, Tuning};
use crate::pictures::{dark, Picture};
use crate::random::Random;
use crate::shape::Shape;
use crate::side_calls;

/// Both sides, the spatial filter for side 16, and what is about the side itself.
pub fn calls() -> impl Iterator<Item = Call> {
    general()
        .chain(aimed(16))
        .chain(filtered_calls::calls())
        .chain(with_side(32, general()))
        .chain(aimed(32))
        .chain(side_calls::calls())
}

/// Every count and reference at the smaller sizes, some at the greater ones, and what is not aimed at a tile's size; the
/// side is 16.
fn general() -> impl Iterator<Item = Call> {
    let small = [(64, 64), (128, 64), (64, 192), (256, 256)];
    let small = (0..).zip(small);
    let tall = [[8, 5], [1, 0]]
        .into_iter()
        .chain((0..7).map(|k| [2, k % 2]));
    small
        .flat_map(|(round, (width, height))| of_size(16, width, height, round))
        .chain(in_turn(64, 4096, 0, tall.collect()))
        .chain(in_turn(4096, 64, 0, vec![[8, 3], [1, 0], [2, 1]]))
        .chain(in_turn(1024, 1024, 0, vec![[2, 0], [2, 1], [1, 0]]))
        .chain(mirrored_reads())
        .chain(pedestals())
        .chain(row_lengths())
        .chain(soft_frames())
        .chain(faults_beside_black())
        .chain(noise_numbers())
        .chain(dark_planes())
}

/// Noise numbers, leaks and vectors at the limits, which go by the side.
fn aimed(side: u64) -> impl Iterator<Item = Call> {
    white_references(side)
        .chain(refused_vectors(side))
        .chain(ghosts::calls(side))
}

/// Every count with every reference at one side and size. In eight rounds each of them meets every picture,
/// every noise and every kind of lent vectors.
pub fn of_size(side: u64, width: u64, height: u64, round: u64) -> impl Iterator<Item = Call> {
    with_side(side, in_turn(width, height, round, all_frames()))
}

/// These calls with tiles of another side and as many of the vectors as it takes.
fn with_side(side: u64, calls: impl Iterator<Item = Call>) -> impl Iterator<Item = Call> {
    calls.map(move |mut call| {
        call.set_side(side);
        call
    })
}

/// A call for each count and reference; the pictures, noises and lent vectors take turns.
fn in_turn(
    width: u64,
    height: u64,
    round: u64,
    frames: Vec<[u64; 2]>,
) -> impl Iterator<Item = Call> {
    let mut random = Random::new(1 + round);
    let turns = 37 * round as usize..;
    turns.zip(frames).map(move |(turn, [count, reference])| {
        let shape = Shape::packed(width, height, count);
        let mut call = call(turn, shape, reference, &mut random);
        call.burst.pad(random.pick(&[0, 1, 17, 256]), &mut random);
        call
    })
}

/// Every count with every reference.
fn all_frames() -> Vec<[u64; 2]> {
    let references = |count| (0..count).map(move |reference| [count, reference]);
    (1..=8).flat_map(references).collect()
}

/// The call whose turn it is: eight pictures, seven black levels, five noises and three kinds of lent vectors.
fn call(turn: usize, shape: Shape, reference: u64, random: &mut Random) -> Call {
    let burst = Burst {
        shape,
        reference,
        black: black(turn),
        samples: Picture::ALL[turn % 8].samples(shape, random),
    };
    let (noise, strength) = noise_and_strength(turn);
    let mut call = Call::fitting(burst, noise, Tuning::of_file(strength));
    call.vectors.fill_with(|| match turn % 3 {
        0 => random.below(345) as i32 - 172,
        1 => random.pick(&[-172, 172]),
        _ => 0,
    });
    call
}

fn black(turn: usize) -> [u64; 4] {
    match turn % 7 {
        0..=2 => [0; 4],
        3 => [64; 4],
        4 => [61, 64, 70, 0],
        5 => [255; 4],
        _ => [0, 255, 1, 254],
    }
}

fn noise_and_strength(turn: usize) -> (Noise, u64) {
    let curve = |shot, read| Noise::Curve(Curve { shot, read });
    let base = Curve {
        shot: 0.37,
        read: 2.5,
    };
    match turn % 5 {
        0 => (curve(0.37, 100.0), 8),
        // The greatest noise number that there is.
        1 => (curve(64.0, 4096.0), 1024),
        // Two ways to a noise number of 0.
        2 => (curve(64.0, 4096.0), 0),
        3 => (curve(0.0, 0.0), 1024),
        _ => (Noise::Iso(3200, base), 77),
    }
}

/// Vectors around the half periods of 32 wide planes, at which the direction of reading turns.
fn mirrored_reads() -> impl Iterator<Item = Call> {
    let mut random = Random::new(3);
    let sizes = [(64, 64), (64, 128), (128, 64), (128, 128)];
    (2..).zip(sizes).map(move |(turn, (width, height))| {
        let shape = Shape::packed(width, height, 8);
        let mut call = call(turn, shape, 7, &mut random);
        call.burst.samples = Picture::Noise.samples(shape, &mut random);
        (call.noise, call.tuning.strength) = noise_and_strength(1);
        for part in &mut call.vectors {
            let turns = [0, 32, 64, 96, 128, 160];
            let place = random.pick(&turns) + random.below(3) as i32 - 1;
            *part = random.pick(&[-172, 172, -place, place]);
        }
        call
    })
}

/// Dark frames, whose samples lie about the black levels or below all of them, and black levels of 256, which merge and
/// run refuse.
pub fn pedestals() -> impl Iterator<Item = Call> {
    let shape = Shape::packed(64, 64, 3);
    let equal = [0, 64, 200, 201, 255, 256].map(|black| [black; 4]);
    let unequal = [[50, 100, 150, 255], [201, 0, 199, 64]];
    let refused = [0, 1, 2, 3].map(|plane| {
        let mut black = [255; 4];
        black[plane] = 256;
        black
    });
    let levels = equal.into_iter().chain(unequal).chain(refused);
    let mut random = Random::new(4);
    levels.map(move |black| {
        let mut call = call(0, shape, 1, &mut random);
        call.burst.black = black;
        call.burst.samples = dark(shape, &mut random);
        call
    })
}

/// A good call of two frames of 64 by 64 without spare words.
pub fn two_frames() -> Call {
    call(0, Shape::packed(64, 64, 2), 1, &mut Random::new(5))
}

/// Row lengths at their limits and beyond, samples that are too great at the ends of rows, and lengths that leave out
/// spare words.
pub fn row_lengths() -> impl Iterator<Item = Call> {
    let shape = Shape::packed(64, 64, 2);
    let mut random = Random::new(5);
    let mut padded = |spare| {
        let mut call = call(0, shape, 1, &mut random);
        call.burst.pad(spare, &mut random);
        call
    };
    let good = [0, 1, 256].map(&mut padded);
    let long = padded(257);
    let mut short = padded(0);
    short.burst.shape.row_length = 63;
    short.burst.samples.truncate(2 * 63 * 64);
    let mut first = padded(1);
    first.burst.samples[63] = 4096;
    let mut last = padded(256);
    last.burst.samples[127 * 320 + 63] = 4096;
    let mut packed = padded(1);
    packed.burst.samples.truncate(2 * 64 * 64);
    let mut cut = padded(256);
    cut.burst.samples.truncate(127 * 320 + 64);
    let refused = [long, short, first, last, packed, cut];
    good.into_iter().chain(refused)
}

/// A black level of 256 beside a strength above 1024, a sample above 4095 and both: 18 comes after 10 and before 11.
pub fn faults_beside_black() -> impl Iterator<Item = Call> {
    let shape = Shape::packed(64, 64, 2);
    let mut random = Random::new(5);
    [(true, false), (false, true), (true, true)]
        .into_iter()
        .map(move |(strength, sample)| {
            let mut call = call(0, shape, 0, &mut random);
            call.burst.black[2] = 256;
            if strength {
                call.tuning.strength = 1025;
            }
            if sample {
                call.burst.samples[7] = 4096;
            }
            call
        })
}

/// Without shot noise V is t·Lr, or a quarter of it for side 32: powers of two from 2^22 to 2^30, and the number next below
/// and next above each, where the strength leaves one; differences of every size.
pub fn noise_numbers() -> impl Iterator<Item = Call> {
    let shape = Shape::packed(128, 64, 2);
    let mut random = Random::new(6);
    let powers = [4, 16, 32, 64, 256, 512, 1024];
    let levels = [(1 << 20) - 1, 1 << 20, (1 << 20) + 1];
    let pictures = [
        Picture::Shifted,
        Picture::Extremes,
        Picture::Noise,
        Picture::Flat,
    ];
    let numbers = powers
        .into_iter()
        .flat_map(move |strength| levels.map(|level| (strength, level)));
    let each = numbers.flat_map(move |number| pictures.map(|picture| (number, picture)));
    each.map(move |((strength, level), picture)| {
        let mut call = call(2, shape, 1, &mut random);
        let levels = Levels {
            shot: 0,
            read: level,
        };
        call.burst.samples = picture.samples(shape, &mut random);
        call.noise = Noise::Curve(Curve::of_levels(levels));
        call.tuning.strength = strength;
        call
    })
}

/// A white reference at strength 1024, where V is 4095·Ls + Lr times 1024, or times 256 for side 32: 2^31 and 2^33, the next
/// below and above each, and the greatest V; differences of every size.
pub fn white_references(side: u64) -> impl Iterator<Item = Call> {
    let shape = Shape::packed(128, 64, 2);
    let mut random = Random::new(8);
    let levels = [1 << 31, 1 << 33].into_iter().flat_map(move |number: u64| {
        let sum = number / ((1 << 18) / (side * side));
        [sum - 1, sum, sum + 1].map(|sum| [sum / 4095, sum % 4095])
    });
    let levels = levels.chain([[65536, 4194304]]);
    let pictures = [
        Picture::Shifted,
        Picture::Extremes,
        Picture::Noise,
        Picture::Flat,
    ];
    let each = levels.flat_map(move |level| pictures.map(|picture| (level, picture)));
    each.map(move |([shot, read], picture)| {
        let mut call = call(2, shape, 1, &mut random);
        call.set_side(side);
        call.burst.samples = picture.samples(shape, &mut random);
        call.burst.samples[128 * 64..].fill(4095);
        call.noise = Noise::Curve(Curve::of_levels(Levels { shot, read }));
        call.tuning.strength = 1024;
        call
    })
}

/// Frames of noise with one or two of the reference's planes black: without read noise V is 0 there, and not beside them.
pub fn dark_planes() -> impl Iterator<Item = Call> {
    let shape = Shape::packed(64, 64, 3);
    let mut random = Random::new(7);
    (1..16).map(move |planes| {
        let mut call = call(2, shape, 0, &mut random);
        call.burst.samples = Picture::Noise.samples(shape, &mut random);
        for row in 0..64 {
            for column in 0..64 {
                if planes >> (2 * (row % 2) + column % 2) & 1 == 1 {
                    call.burst.samples[64 * row + column] = 0;
                }
            }
        }
        let curve = Curve {
            shot: 0.37,
            read: 0.0,
        };
        call.noise = Noise::Curve(curve);
        call.tuning.strength = 8;
        call
    })
}

/// Flat frames of 64 by 64 with bumps in the green plane whose sharpness decides, or in others.
pub fn soft_frames() -> impl Iterator<Item = Call> {
    // In that plane: inside, at an edge and in a corner, with four, three and two steps.
    const INSIDE: [u64; 2] = [30, 31];
    const EDGE: [u64; 2] = [62, 31];
    const CORNER: [u64; 2] = [0, 63];
    // Count of frames, and the bumps: frame, row and column, height.
    type Bumps = &'static [(u64, [u64; 2], u16)];
    let bursts: [(u64, Bumps); 9] = [
        // Only the first three count.
        (5, &[(1, INSIDE, 2), (3, INSIDE, 9), (4, EDGE, 9)]),
        // Ties of frames 1 and 2, by steps of another kind.
        (3, &[(1, INSIDE, 7), (2, INSIDE, 7)]),
        (3, &[(1, INSIDE, 1), (2, CORNER, 2)]),
        (4, &[(1, EDGE, 4), (2, INSIDE, 3)]),
        // Frame 2 is sharper, just so.
        (3, &[(1, EDGE, 1), (2, INSIDE, 1)]),
        (8, &[(0, CORNER, 1), (1, CORNER, 3), (2, INSIDE, 2)]),
        // Other planes do not count.
        (2, &[(0, [30, 30], 99), (0, [31, 31], 99), (1, CORNER, 1)]),
        (2, &[(0, INSIDE, 5), (1, INSIDE, 4)]),
        (1, &[(0, INSIDE, 5)]),
    ];
    let mut random = Random::new(6);
    bursts.into_iter().map(move |(count, bumps)| {
        // A reference that only the choosing run takes.
        let mut call = call(0, Shape::packed(64, 64, count), 9, &mut random);
        call.burst.samples.fill(1000);
        for (frame, [row, column], height) in bumps {
            call.burst.samples[((64 * frame + row) * 64 + column) as usize] += height;
        }
        call
    })
}

/// One part of the lent vectors just outside what merge takes, or far outside, at either end.
pub fn refused_vectors(side: u64) -> impl Iterator<Item = Call> {
    let shape = Shape::packed(64, 64, 3);
    let parts = [173, -173, i32::MAX, i32::MIN];
    let places = parts
        .into_iter()
        .flat_map(|part| [(false, part), (true, part)]);
    places.map(move |(last, part)| {
        let mut call = call(1, shape, 1, &mut Random::new(2));
        call.set_side(side);
        let place = if last { call.vectors.len() - 1 } else { 0 };
        call.vectors[place] = part;
        call
    })
}
