//! Calls with the spatial filter: every count and reference, s at its limits, and faults beside it.

use crate::burst::Burst;
use crate::calls::Call;
use crate::fixed_calls;
use crate::noise::{Curve, Levels, Noise, Tuning};
use crate::pictures::Picture;
use crate::random::Random;
use crate::shape::Shape;

/// Every count and reference at the smaller sizes, then what is aimed at s.
pub fn calls() -> impl Iterator<Item = Call> {
    let sizes = [(64, 64), (128, 64), (64, 192)];
    (0..)
        .zip(sizes)
        .flat_map(|(round, (width, height))| of_size(width, height, round))
        .chain(limits())
        .chain(faults_beside_spatial())
        .chain(unmerged())
        .chain(lone_frames())
        .chain(white_references())
        .chain(bright_frames())
}

/// The fixed calls of a size with the filter, its strengths in turn.
pub fn of_size(width: u64, height: u64, round: u64) -> impl Iterator<Item = Call> {
    let spatials = [1, 26, 128, 256]
        .into_iter()
        .cycle()
        .skip(round as usize % 4);
    let calls = fixed_calls::of_size(16, width, height, round);
    calls.zip(spatials).map(|(mut call, spatial)| {
        call.tuning.spatial = spatial;
        call
    })
}

/// Every s of the list, 257 among them.
fn limits() -> impl Iterator<Item = Call> {
    let mut random = Random::new(11);
    [0, 1, 26, 128, 256, 257].into_iter().map(move |spatial| {
        let shape = Shape::packed(64, 64, 2);
        call(
            shape,
            Picture::Shifted,
            COMMON,
            tuning(8, spatial),
            &mut random,
        )
    })
}

/// An s of 256 or 257 beside a strength above 1024, a black level above 255, a sample above 4095 and a vector's part above
/// 172: 24 comes after 10 and 18, before 11 and 12.
fn faults_beside_spatial() -> impl Iterator<Item = Call> {
    let faults: [fn(&mut Call); 5] = [
        |call| call.tuning.strength = 1025,
        |call| call.burst.black[3] = 256,
        |call| call.burst.samples[4095] = 4096,
        |call| call.vectors[49] = 173,
        |call| {
            call.burst.black[0] = 256;
            call.burst.samples[0] = 4096;
        },
    ];
    let each = faults
        .into_iter()
        .flat_map(|fault| [256, 257].map(|spatial| (fault, spatial)));
    let mut random = Random::new(12);
    each.map(move |(fault, spatial)| {
        let shape = Shape::packed(64, 64, 2);
        let mut call = call(
            shape,
            Picture::Noise,
            COMMON,
            tuning(8, spatial),
            &mut random,
        );
        fault(&mut call);
        call
    })
}

/// "t = 0 still filters": nothing comes in from the other frames.
fn unmerged() -> impl Iterator<Item = Call> {
    let shape = Shape::packed(64, 64, 3);
    in_pictures(shape, COMMON, tuning(0, 26), 13).chain(in_pictures(
        shape,
        GREATEST,
        tuning(0, 256),
        14,
    ))
}

/// One frame, which the filter smooths like any other.
fn lone_frames() -> impl Iterator<Item = Call> {
    let shape = Shape::packed(64, 64, 1);
    in_pictures(shape, COMMON, tuning(8, 26), 15).chain(in_pictures(
        shape,
        GREATEST,
        tuning(1024, 256),
        16,
    ))
}

/// A white reference and one other frame at s = 256: the greatest V', of bin (8, 8), is 2^30 − 4, 2^30 + 18 or, with the
/// greatest levels, above 2^32.
fn white_references() -> impl Iterator<Item = Call> {
    let shape = Shape::packed(128, 64, 2);
    let levels = [[11589, 1247], [11589, 1248], [65536, 4194304]];
    let each = levels
        .into_iter()
        .zip(17..)
        .flat_map(move |([shot, read], seed)| {
            let curve = Curve::of_levels(Levels { shot, read });
            in_pictures(shape, curve, tuning(1024, 256), seed)
        });
    each.map(|mut call| {
        call.burst.samples[..128 * 64].fill(4095);
        call
    })
}

/// Frames of noise above 3000, with the greatest levels: V' of nearly every bin is above 2^30 where N is 1, of the higher
/// ones where it is 8.
fn bright_frames() -> impl Iterator<Item = Call> {
    let counts = [1, 1, 2, 2, 8, 8];
    let mut random = Random::new(20);
    counts
        .into_iter()
        .zip([0, 1024].into_iter().cycle())
        .map(move |(count, strength)| {
            let shape = Shape::packed(64, 64, count);
            let tuning = tuning(strength, 256);
            let mut call = call(shape, Picture::Noise, GREATEST, tuning, &mut random);
            call.burst
                .samples
                .fill_with(|| 3000 + random.below(1096) as u16);
            call
        })
}

const COMMON: Curve = Curve {
    shot: 0.37,
    read: 100.0,
};

const GREATEST: Curve = Curve {
    shot: 64.0,
    read: 4096.0,
};

fn tuning(strength: u64, spatial: u64) -> Tuning {
    Tuning {
        spatial,
        ..Tuning::of_file(strength)
    }
}

/// A call for each picture.
fn in_pictures(
    shape: Shape,
    curve: Curve,
    tuning: Tuning,
    seed: u64,
) -> impl Iterator<Item = Call> {
    let mut random = Random::new(seed);
    let pictures = Picture::ALL.into_iter();
    pictures.map(move |picture| call(shape, picture, curve, tuning, &mut random))
}

/// A call on frame 0 with any lent vectors.
fn call(shape: Shape, picture: Picture, curve: Curve, tuning: Tuning, random: &mut Random) -> Call {
    let burst = Burst {
        shape,
        reference: 0,
        black: [0; 4],
        samples: picture.samples(shape, random),
    };
    let mut call = Call::fitting(burst, Noise::Curve(curve), tuning);
    call.vectors.fill_with(|| random.below(345) as i32 - 172);
    call
}
