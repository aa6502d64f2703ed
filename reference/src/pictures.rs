//! What the frames of a burst show: the kinds of scene in test data.

use crate::image::Image;
use crate::random::Random;
use crate::shape::Shape;

#[derive(Clone, Copy, Debug, PartialEq, Eq)]
pub enum Picture {
    /// A smooth scene, seen by each frame from another place.
    Shifted,
    /// One smooth scene that in each frame moves in a single tile.
    OneTile,
    /// Samples of 0 and 4095 at random.
    Extremes,
    /// Any samples.
    Noise,
    /// One value all over each frame, so that all vectors tie.
    Flat,
    /// A chequered pattern that every eight samples repeats, so that many vectors tie.
    Chequered,
    Black,
    White,
}

impl Picture {
    pub const ALL: [Picture; 8] = [
        Picture::Shifted,
        Picture::OneTile,
        Picture::Extremes,
        Picture::Noise,
        Picture::Flat,
        Picture::Chequered,
        Picture::Black,
        Picture::White,
    ];

    /// The frames without spare words.
    pub fn samples(self, shape: Shape, random: &mut Random) -> Vec<u16> {
        let length = (shape.count * shape.output_length()) as usize;
        match self {
            Picture::Shifted => shifted(shape, random),
            Picture::OneTile => one_tile(shape, random),
            Picture::Extremes => (0..length).map(|_| random.pick(&[0, 4095])).collect(),
            Picture::Noise => (0..length).map(|_| random.below(4096) as u16).collect(),
            Picture::Flat => flat(shape, random),
            Picture::Chequered => chequered(shape, random),
            Picture::Black => vec![0; length],
            Picture::White => vec![4095; length],
        }
    }
}

/// Frames that see a smooth scene from places up to 40 samples apart, with some noise.
fn shifted(shape: Shape, random: &mut Random) -> Vec<u16> {
    let (width, height) = (shape.width as i64, shape.height as i64);
    let scene = smooth_scene(width + 40, height + 40, random);
    let spread = random.pick(&[1, 17, 301]);
    let mut samples = Vec::new();
    for _ in 0..shape.count {
        let (top, left) = (random.below(41) as i64, random.below(41) as i64);
        let frame = Image::from_fn(width, height, |row, column| {
            scene.at(row + top, column + left)
        });
        samples.extend(frame.into_samples());
    }
    for sample in &mut samples {
        let noisy = usize::from(*sample) + random.below(spread);
        *sample = noisy.saturating_sub(spread / 2).min(4095) as u16;
    }
    samples
}

/// A tile of level 0 covers 32 by 32 samples and begins at a multiple of 16.
fn one_tile(shape: Shape, random: &mut Random) -> Vec<u16> {
    let (width, height) = (shape.width as i64, shape.height as i64);
    let scene = smooth_scene(width, height, random);
    let mut samples = Vec::new();
    for _ in 0..shape.count {
        let mut start = |side: i64| 16 * random.below(side as usize / 16 - 1) as i64;
        let (top, left) = (start(height), start(width));
        let mut part = || random.below(25) as i64 - 12;
        let (down, right) = (part(), part());
        let frame = Image::from_fn(width, height, |row, column| {
            let inside = (top..top + 32).contains(&row) && (left..left + 32).contains(&column);
            match inside {
                true => scene.at(row + down, column + right),
                false => scene.at(row, column),
            }
        });
        samples.extend(frame.into_samples());
    }
    samples
}

/// Any samples up to 200, as dark frames on a pedestal have them.
pub fn dark(shape: Shape, random: &mut Random) -> Vec<u16> {
    let length = shape.count * shape.output_length();
    (0..length).map(|_| random.below(201) as u16).collect()
}

fn flat(shape: Shape, random: &mut Random) -> Vec<u16> {
    let length = shape.output_length() as usize;
    let frames = (0..shape.count).map(|_| vec![random.below(4096) as u16; length]);
    frames.collect::<Vec<_>>().concat()
}

fn chequered(shape: Shape, random: &mut Random) -> Vec<u16> {
    let mut samples = Vec::new();
    for _ in 0..shape.count {
        let (top, left) = (random.below(8) as i64, random.below(8) as i64);
        let frame = Image::from_fn(shape.width as i64, shape.height as i64, |row, column| {
            4095 * (((row + top) / 4 + (column + left) / 4) % 2)
        });
        samples.extend(frame.into_samples());
    }
    samples
}

/// Random heights 16 samples apart, with straight slopes between.
fn smooth_scene(width: i64, height: i64, random: &mut Random) -> Image {
    let columns = width / 16 + 2;
    let heights: Vec<i64> = (0..columns * (height / 16 + 2))
        .map(|_| random.below(4096) as i64)
        .collect();
    let node = |row: i64, column: i64| heights[(row * columns + column) as usize];
    Image::from_fn(width, height, |row, column| {
        let (top, left) = (row / 16, column / 16);
        let (down, right) = (row % 16, column % 16);
        let across = |row| node(row, left) * (16 - right) + node(row, left + 1) * right;
        (across(top) * (16 - down) + across(top + 1) * down) / 256
    })
}
