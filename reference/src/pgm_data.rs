//! Frames to write as PGM files and PGM files to read, good and with faults.

use crate::pgm::{self, Pgm};
use crate::random::Random;

/// A frame and the length of the lent byte buffer.
pub struct Writing {
    pub pgm: Pgm,
    pub lent: u64,
}

/// A file and the length of the lent frame buffer.
pub struct Reading {
    pub bytes: Vec<u8>,
    pub lent: u64,
}

/// Writings with up to two faults.
pub fn writings(count: usize, seed: u64) -> impl Iterator<Item = Writing> {
    let mut random = Random::new(seed);
    (0..count).map(move |_| {
        let pgm = good(&mut random);
        let lent = pgm::length(pgm.width, pgm.height);
        let mut writing = Writing { pgm, lent };
        for _ in 0..random.below(3) {
            spoil_writing(&mut writing, &mut random);
        }
        writing
    })
}

/// Readings with up to two faults, some of them with a stray byte as well.
pub fn readings(count: usize, seed: u64) -> impl Iterator<Item = Reading> {
    let mut random = Random::new(seed);
    (0..count).map(move |_| {
        let pgm = good(&mut random);
        let lent = pgm.width * pgm.height;
        let length = pgm::length(pgm.width, pgm.height);
        let bytes = pgm::write(&pgm, length).expect("a good frame");
        let mut reading = Reading { bytes, lent };
        for _ in 0..random.below(3) {
            spoil_reading(&mut reading, pgm.width, pgm.height, &mut random);
        }
        if random.below(4) == 0 {
            stray_byte(&mut reading.bytes, &mut random);
        }
        reading
    })
}

/// A frame whose sizes have two, three or four digits, small ones more often.
fn good(random: &mut Random) -> Pgm {
    let small = [[64, 64], [64, 128], [128, 64], [192, 64]];
    let great = [[960, 64], [64, 1024], [1024, 64], [4096, 64]];
    let [width, height] = match random.below(20) {
        0 => random.pick(&great),
        _ => random.pick(&small),
    };
    let greatest = random.pick(&[1, 256, 4096]);
    let sample = |_| random.below(greatest) as u16;
    Pgm {
        width,
        height,
        samples: (0..width * height).map(sample).collect(),
    }
}

/// Lets the refusals 1, 6, 16 or 11 stand, or writes another shape of the same length.
fn spoil_writing(writing: &mut Writing, random: &mut Random) {
    let Pgm {
        width,
        height,
        samples,
    } = &mut writing.pgm;
    match random.below(6) {
        0 => *[width, height][random.below(2)] = random.pick(&WRONG_SIZES),
        1 => drop(samples.pop()),
        2 => samples.push(0),
        3 => writing.lent = random.pick(&[0, writing.lent + 1, writing.lent + 14, 8206]),
        4 => std::mem::swap(width, height),
        _ => spoil_sample(samples, random),
    }
}

const WRONG_SIZES: [u64; 8] = [0, 1, 63, 96, 4160, 1 << 32, (1 << 32) + 64, u64::MAX - 63];

fn spoil_sample(samples: &mut [u16], random: &mut Random) {
    let between = random.below(samples.len());
    let place = random.pick(&[0, between, samples.len() - 1]);
    samples[place] = random.pick(&[4096, 4097, 8191, 65535]);
}

/// Lets the refusals 17, 6 or 11 stand, or gives another shape of the same length.
fn spoil_reading(reading: &mut Reading, width: u64, height: u64, random: &mut Random) {
    let length = pgm::header(width, height).len().min(reading.bytes.len());
    let bytes = &mut reading.bytes;
    match random.below(8) {
        0 => reading.lent = random.pick(&[0, 1, reading.lent + 1, 4096]),
        1 => drop(bytes.splice(..length, other_header(width, height, random))),
        2 => drop(bytes.splice(..length, pgm::header(height, width))),
        3 => bytes.push(random.pick(b"\n\0 ")),
        4 => drop(bytes.pop()),
        5 => bytes.truncate(random.below(bytes.len() + 1)),
        6 => bytes.truncate(length),
        _ => spoil_high_byte(&mut bytes[length..], random),
    }
}

/// A sample of 4096 or more.
fn spoil_high_byte(words: &mut [u8], random: &mut Random) {
    if words.len() >= 2 {
        let last = words.len() / 2 - 1;
        let between = random.below(last + 1);
        let place = random.pick(&[0, between, last]);
        words[2 * place] = random.pick(&[16, 17, 128, 255]);
    }
}

/// A header in another spelling, or of another size.
fn other_header(width: u64, height: u64, random: &mut Random) -> Vec<u8> {
    let wrong = random.pick(&WRONG_SIZES);
    let text = match random.below(24) {
        0 => format!("P5\n0{width} {height}\n4095\n"),
        1 => format!("P5\n{width} 00{height}\n4095\n"),
        2 => format!("P5\n+{width} {height}\n4095\n"),
        3 => format!("P5\n{width}  {height}\n4095\n"),
        4 => format!("P5\n{width}\t{height}\n4095\n"),
        5 => format!("P5\n{width}\n{height}\n4095\n"),
        6 => format!("P5 {width} {height}\n4095\n"),
        7 => format!("P5\n{width} {height} 4095\n"),
        8 => format!("P5\n{width} {height}\n4095 "),
        9 => format!("P5\r\n{width} {height}\r\n4095\r\n"),
        10 => format!("P5\n# frame\n{width} {height}\n4095\n"),
        11 => format!("P5\n {width} {height}\n4095\n"),
        12 => format!("P5\n{width} {height} \n4095\n"),
        13 => format!("P2\n{width} {height}\n4095\n"),
        14 => format!("p5\n{width} {height}\n4095\n"),
        15 => format!("P5\n{width} {height}\n4096\n"),
        16 => format!("P5\n{width} {height}\n04095\n"),
        17 => format!("P5\n{width} {height}\n255\n"),
        18 => format!("P5\n{wrong} {height}\n4095\n"),
        19 => format!("P5\n{width} {wrong}\n4095\n"),
        // What wraps 32 or 64 bits to an allowed size.
        20 => format!("P5\n{} {height}\n4095\n", u128::from(width) + (1 << 64)),
        21 => format!("P5\n{width} {}\n4095\n", height + (1 << 32)),
        22 => format!("P5\n{width}{} {height}\n4095\n", "0".repeat(40)),
        _ => format!("P5\n\n{width} {height}\n4095\n"),
    };
    text.into_bytes()
}

/// Overwrites, inserts or removes one byte of the header's places.
fn stray_byte(bytes: &mut Vec<u8>, random: &mut Random) {
    let place = random.below(bytes.len().min(20) + 1);
    let end = bytes.len().min(place + random.below(2));
    let inserted = random.below(2);
    let byte = random.pick(b"P0456 \n\t#\0\xff");
    bytes.splice(place..end, vec![byte; inserted]);
}
