//! DNG files read over the binary protocol.

use super::wire::{answer_each, put_many, take_array, take_bytes, take_many, Word};
use super::Outcome;
use reference::dng::read;
use reference::dng_data::readings;
use reference::refusal::number;
use reference::shape::Shape;
use std::io::{stdout, BufWriter, Write};

/// A sequence of readings: width, height, count, row length, frame, lengths of samples and file, then both.
pub fn answer_readings() -> Outcome {
    answer_each(|input, out| {
        let [width, height, count, row_length, frame] = take_array(input)?;
        let [length, file] = take_array(input)?;
        let mut samples = take_many(input, length)?;
        let bytes = take_bytes(input, file)?;
        let shape = Shape {
            width,
            height,
            count,
            row_length,
        };
        let result = read(&bytes, shape, frame, &mut samples);
        number(&result).put(out)?;
        let (curve, black) = match result {
            Ok(dng) => ([dng.curve.shot, dng.curve.read].map(bits), dng.black),
            Err(_) => ([0; 2], [0; 4]),
        };
        put_many(out, &curve)?;
        put_many(out, &black)?;
        Ok(put_many(out, &samples)?)
    })
}

/// The bits of a number; those of a NaN are always the same.
fn bits(value: f64) -> u64 {
    match value.is_nan() {
        true => 0x7ff8_0000_0000_0000,
        false => value.to_bits(),
    }
}

/// Writes readings as `read-dng` takes them.
pub fn put_readings(count: &str, seed: &str) -> Outcome {
    let mut out = BufWriter::new(stdout().lock());
    for reading in readings(count.parse()?, seed.parse()?) {
        let Shape {
            width,
            height,
            count,
            row_length,
        } = reading.shape;
        put_many(&mut out, &[width, height, count, row_length, reading.frame])?;
        let lengths = [reading.samples.len() as u64, reading.bytes.len() as u64];
        put_many(&mut out, &lengths)?;
        put_many(&mut out, &reading.samples)?;
        out.write_all(&reading.bytes)?;
    }
    Ok(out.flush()?)
}
