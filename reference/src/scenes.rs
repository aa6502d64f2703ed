//! Library calls as test data: moving scenes, extremes, and faults.

use crate::burst::Burst;
use crate::calls::Call;
use crate::noise::{Curve, Noise, Tuning};
use crate::pictures::{dark, Picture};
use crate::random::Random;
use crate::shape::Shape;

/// The refusals that calls meet, in the order of their tests.
pub const FAULTS: [u64; 17] = [1, 2, 3, 22, 23, 4, 5, 6, 7, 8, 9, 10, 18, 24, 25, 11, 12];

/// Calls of frames up to `side` in width and height; a third of them with one or two faults.
pub fn calls(side: u64, count: usize, seed: u64) -> impl Iterator<Item = Call> {
    let mut random = Random::new(seed);
    (0..count).map(move |_| {
        let mut call = call(side, &mut random);
        let faults = random.pick(&[0, 0, 0, 0, 1, 2]);
        for _ in 0..faults {
            add_fault(&mut call, random.pick(&FAULTS), &mut random);
        }
        call
    })
}

fn call(side: u64, random: &mut Random) -> Call {
    let mut length = || 64 * (1 + random.below(side as usize / 64) as u64);
    let (width, height) = (length(), length());
    let count = 1 + random.below(8) as u64;
    let shape = Shape::packed(width, height, count);
    let mut burst = Burst {
        shape,
        reference: random.below(count as usize) as u64,
        black: black(random),
        samples: samples(shape, random),
    };
    burst.pad(random.pick(&[0, 0, 1, 5, 256]), random);
    let mut call = Call::fitting(burst, noise(random), tuning(random));
    let reach = random.pick(&[0, 3, 172]);
    let mut part = || random.below(2 * reach + 1) as i32 - reach as i32;
    call.vectors.fill_with(&mut part);
    call
}

fn black(random: &mut Random) -> [u64; 4] {
    let mut level = || random.below(256) as u64;
    let any = [level(), level(), level(), level()];
    random.pick(&[[0; 4], [64; 4], [255; 4], any])
}

fn noise(random: &mut Random) -> Noise {
    let curve = Curve {
        shot: random.pick(&[0.0, -0.0, 0.001, 0.37, 1.0, 64.0]),
        read: random.pick(&[0.0, 0.0009, 2.5, 100.0, 4096.0]),
    };
    let iso = random.pick(&[25, 31, 100, 400, 3200, 409600]);
    random.pick(&[Noise::Curve(curve), Noise::Iso(iso, curve)])
}

fn tuning(random: &mut Random) -> Tuning {
    let (side, spatial) = random.pick(&[(16, 0), (16, 0), (16, 1), (16, 26), (16, 256), (32, 0)]);
    Tuning {
        strength: random.pick(&[0, 1, 8, 77, 1024]),
        side,
        spatial,
    }
}

fn samples(shape: Shape, random: &mut Random) -> Vec<u16> {
    match random.below(6) {
        0 => Picture::Extremes.samples(shape, random),
        1 => dark(shape, random),
        2 => sparse(shape.samples_length() as usize, random),
        _ => Picture::Shifted.samples(shape, random),
    }
}

/// All 0 but for a few samples.
fn sparse(length: usize, random: &mut Random) -> Vec<u16> {
    let mut samples = vec![0; length];
    for _ in 0..random.below(20) {
        samples[random.below(length)] = random.below(4096) as u16;
    }
    samples
}

/// Makes the condition of one of these refusals hold; 12 wants a buffer of vectors that is not empty.
pub fn add_fault(call: &mut Call, number: u64, random: &mut Random) {
    let Shape {
        width,
        height,
        count,
        row_length,
    } = &mut call.burst.shape;
    match number {
        1 => *[width, height][random.below(2)] = random.pick(&[0, 63, 96, 4160, u64::MAX]),
        2 => *count = random.pick(&[0, 9, u64::MAX]),
        3 => call.burst.reference = random.pick(&[*count, 9, u64::MAX]),
        22 => call.tuning.side = random.pick(&[0, 8, 17, 64, u64::MAX]),
        23 => {
            let short = width.saturating_sub(1);
            *row_length = random.pick(&[0, short, width.saturating_add(257), u64::MAX])
        }
        4 => misfit(&mut call.burst.samples, random),
        5 => misfit(&mut call.vectors, random),
        6 => misfit(&mut call.output, random),
        7 => call.work_length = random.pick(&[0, 1, call.work_length + 1]),
        8 => call.noise = negative_or_not_finite(random),
        9 => call.noise = curve(65.0),
        10 => call.tuning.strength = random.pick(&[1025, u64::MAX]),
        18 => spoil(&mut call.burst.black, &[256, 257, 65535], random),
        24 => call.tuning.spatial = random.pick(&[257, u64::MAX]),
        25 => {
            call.set_side(32);
            call.tuning.spatial = random.pick(&[1, 26, 256]);
        }
        11 => spoil(&mut call.burst.samples, &[4096, 65535], random),
        _ => spoil(&mut call.vectors, &[173, -173, i32::MIN], random),
    }
}

/// Makes a buffer one shorter or longer, or empties it.
fn misfit<T: Default>(buffer: &mut Vec<T>, random: &mut Random) {
    match (random.below(3), buffer.len()) {
        (0, 1..) => drop(buffer.pop()),
        (1, 1..) => buffer.clear(),
        _ => buffer.push(T::default()),
    }
}

/// Sets any one element.
fn spoil<T: Copy>(buffer: &mut [T], values: &[T], random: &mut Random) {
    if !buffer.is_empty() {
        buffer[random.below(buffer.len())] = random.pick(values);
    }
}

fn negative_or_not_finite(random: &mut Random) -> Noise {
    let zero = Curve {
        shot: 0.0,
        read: 0.0,
    };
    random.pick(&[
        curve(-1.0),
        curve(f64::NAN),
        curve(f64::INFINITY),
        Noise::Iso(24, zero),
        Noise::Iso(409601, zero),
    ])
}

fn curve(shot: f64) -> Noise {
    Noise::Curve(Curve { shot, read: 0.0 })
}
